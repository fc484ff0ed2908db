"""Building: the library and programs in C for a processor, with the kit's compiler and linker alone."""
import re
from dataclasses import dataclass
from pathlib import Path
from typing import Dict, List, Sequence, Tuple

from device.kit import ROOT, WORK, NotBuilt, command, tool
from device.thumb.processors import CORTEX_M0_PLUS, CORTEX_M3, Processor

FOLDER = Path(__file__).resolve().parent
HEADERS = (FOLDER / "include", FOLDER, ROOT / "library")
LIBRARY = ROOT / "target" / "library"
SMALL = ("-Os",)
# What the kit's module says of the computer that it was made for.
HOST_ATTRIBUTES = re.compile(r'"(target-cpu|probe-stack|stack-probe-size)"="[^"]*" ?')
# A value that goes in registers; it is stored for pointers of 64 bits, and taken apart as the processor lays it out.
IN_REGISTERS = re.compile(r"\{ ((?:i\d+|ptr)(?:, (?:i\d+|ptr))+) \}")
# Each function can be left out by the linker, and the words of one kind of file are no fault for another.
COMMON = ("-ffunction-sections", "-fdata-sections", "-Wno-override-module", "-Wno-unused-command-line-argument")


def passes(*words: str) -> Tuple[str, ...]:
    """Words for the compiler's passes."""
    return tuple(word for one in words for word in ("-mllvm", one))


# The kit gives its compiler these for what it has proved: a place that is proved to be never reached stops the processor, in place of
# whatever stands behind it, and three passes do less.
OF_THE_KIT = passes("-trap-unreachable", "-no-trap-after-noreturn", "-disable-machine-licm", "-disable-postra-machine-licm", "-sink-common-insts=false")
# With eight registers at hand a constant that is hoisted soon goes to the stack and back.
FOR_MODULE = (*OF_THE_KIT, *passes("-disable-constant-hoisting"))
FOR_C = ("-std=c99", "-ffreestanding", "-Wall", "-Wextra", "-Werror")
SUPPORT = FOLDER / "support.c"
START = FOLDER / "start.c"
SESSION = FOLDER / "session.c"


@dataclass(frozen=True)
class Target:
    """A processor, and the words by which the compiler knows it."""

    processor: Processor
    words: Tuple[str, ...]

    @property
    def name(self) -> str:
        return self.processor.name


M0_PLUS = Target(CORTEX_M0_PLUS, ("--target=thumbv6m-none-eabi", "-mcpu=cortex-m0plus"))
# A kernel may have a Cortex-M3 trap what is not aligned, and the interpreter does.
M3 = Target(CORTEX_M3, ("--target=thumbv7m-none-eabi", "-mcpu=cortex-m3", "-mno-unaligned-access"))
TARGETS: Dict[str, Target] = {target.name: target for target in (M0_PLUS, M3)}


def place(target: Target, words: Sequence[str], name: str) -> Path:
    """Where a made file goes: each processor and choice of words has a folder of its own."""
    folder = WORK / target.name / "".join(words).lstrip("-")
    folder.mkdir(parents=True, exist_ok=True)
    return folder / name


def places_of(shape: str, pointer: int) -> List[int]:
    """Where each part of a value begins, with pointers of so many bytes."""
    places, end = [], 0
    for part in shape.split(", "):
        size = pointer if part == "ptr" else (int(part[1:]) + 7) // 8
        places.append(-(-end // size) * size)
        end = places[-1] + size
    return places


def shapes_that_move(text: str) -> List[str]:
    """The values that go in registers and whose parts stand elsewhere with pointers of 32 bits."""
    return sorted({shape for shape in IN_REGISTERS.findall(text) if places_of(shape, 8) != places_of(shape, 4)})


def plain_module(module: Path) -> Path:
    """The module as text, without what it says of the computer that it was made for."""
    WORK.mkdir(parents=True, exist_ok=True)
    text, plain = WORK / f"{module.stem}.host.ll", WORK / f"{module.stem}.ll"
    command([tool("clang"), "-S", "-emit-llvm", "-Xclang", "-disable-llvm-passes", *COMMON, "-x", "ir", str(module), "-o", str(text)])
    made = text.read_text(encoding="utf-8")
    for shape in shapes_that_move(made):
        raise NotBuilt(f"{module.name} hands on a value whose parts stand elsewhere with pointers of 32 bits: {{ {shape} }}")
    plain.write_text(HOST_ATTRIBUTES.sub("", made), encoding="utf-8")
    return plain


def compile_module(plain: Path, target: Target, words: Sequence[str] = SMALL) -> Path:
    made = place(target, words, f"{plain.stem}.o")
    command([tool("clang"), *target.words, *words, *COMMON, *FOR_MODULE, "-c", "-x", "ir", str(plain), "-o", str(made)])
    return made


def compile_c(source: Path, target: Target, words: Sequence[str] = SMALL) -> Path:
    """Compiles a file of C or of assembly."""
    made = place(target, words, f"{source.stem}.o")
    headers = [f"-I{folder}" for folder in HEADERS]
    command([tool("clang"), *target.words, *words, *COMMON, *FOR_C, *headers, "-c", str(source), "-o", str(made)])
    return made


def link(objects: Sequence[Path], made: Path) -> Path:
    command([tool("ld.lld"), "--gc-sections", "-T", str(FOLDER / "memory.ld"), *map(str, objects), "-o", str(made)])
    return made


def archive(objects: Sequence[Path], made: Path) -> Path:
    made.parent.mkdir(parents=True, exist_ok=True)
    made.unlink(missing_ok=True)
    command([tool("llvm-ar"), "rcsD", str(made), *map(str, objects)])
    return made


def library(module: Path, target: Target, words: Sequence[str] = SMALL) -> Path:
    """What a kernel links: the module and the support functions, compiled and archived."""
    objects = [compile_module(plain_module(module), target, words), compile_c(SUPPORT, target, words)]
    return archive(objects, LIBRARY / target.name / "libgustlantern.a")


def program(sources: Sequence[Path], target: Target, words: Sequence[str] = SMALL, others: Sequence[Path] = ()) -> Path:
    """A program of C files beside the start and the support; others are objects and archives."""
    objects = [compile_c(source, target, words) for source in (*sources, START, SUPPORT)]
    return link([*objects, *others], place(target, words, f"{sources[0].stem}.elf"))


RECORDS = """    .section .rodata.session, "a"
    .global session_start, session_end
session_start:
    .incbin "{records}"
session_end:
"""


def records_source(records: bytes, name: str) -> Path:
    """A file of assembly that holds records between two symbols."""
    folder = WORK / "sessions"
    folder.mkdir(parents=True, exist_ok=True)
    data, source = folder / f"{name}.records", folder / f"session-{name}.s"
    data.write_bytes(records)
    source.write_text(RECORDS.format(records=data))
    return source


class Player:
    """What plays sessions on one processor: all but their records is compiled once."""

    def __init__(self, module: Path, target: Target, words: Sequence[str] = SMALL):
        self.target, self.words = target, words
        self.library = library(module, target, words)
        self.objects: List[Path] = [compile_c(source, target, words) for source in (SESSION, START)]

    def program_of(self, records: bytes, name: str) -> Path:
        held = compile_c(records_source(records, name), self.target, self.words)
        return link([*self.objects, held, self.library], place(self.target, self.words, f"session-{name}.elf"))
