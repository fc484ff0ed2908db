/* 256 KiB of flash and of RAM, where the interpreter and the two emulated boards have them. */
MEMORY
{
    flash (rx) : ORIGIN = 0x00000000, LENGTH = 256K
    ram (rwx) : ORIGIN = 0x20000000, LENGTH = 256K
}

ENTRY(reset)

SECTIONS
{
    .text : { KEEP(*(.vectors)) *(.text .text.*) *(.rodata .rodata.*) . = ALIGN(4); } > flash
    .ARM.exidx : { *(.ARM.exidx .ARM.exidx.*) . = ALIGN(4); } > flash
    .data : { data_start = .; *(.data .data.*) . = ALIGN(4); data_end = .; } > ram AT > flash
    stored_data = LOADADDR(.data);
    .bss (NOLOAD) : { zero_start = .; *(.bss .bss.*) *(COMMON) . = ALIGN(8); zero_end = .; } > ram
    stack_top = ORIGIN(ram) + LENGTH(ram);
}
