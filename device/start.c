/* From reset to the program and back to the host. */
#include "host.h"

/* The places that memory.ld gives. */
extern uint32_t stack_top[], stored_data[], data_start[], data_end[], zero_start[], zero_end[];

enum { HOST_WRITE = 0x04, HOST_EXIT = 0x18 };
enum { ENDED_WELL = 0x20026, ENDED_BADLY = 0x20023 };

static void host_ask(uint32_t request, uintptr_t argument)
{
    register uint32_t first __asm__("r0") = request;
    register uintptr_t second __asm__("r1") = argument;
    __asm__ volatile("bkpt 0xab" : "+r"(first) : "r"(second) : "memory");
}

void host_write(const char *text)
{
    host_ask(HOST_WRITE, (uintptr_t)text);
}

static void host_exit(uintptr_t reason)
{
    for (;;)
        host_ask(HOST_EXIT, reason);
}

char *put_number(char *place, uint32_t number)
{
    char digits[10];
    uint32_t count = 0;
    do {
        digits[count++] = (char)('0' + number % 10);
        number /= 10;
    } while (number);
    while (count)
        *place++ = digits[--count];
    return place;
}

void fault(void)
{
    host_write("the processor stopped at a fault\n");
    host_exit(ENDED_BADLY);
}

void reset(void)
{
    const uint32_t *from = stored_data;
    for (uint32_t *to = data_start; to != data_end; to++)
        *to = *from++;
    for (uint32_t *to = zero_start; to != zero_end; to++)
        *to = 0;
    play();
    host_exit(ENDED_WELL);
}

struct vectors {
    uint32_t *stack;
    void (*handlers[15])(void);
};

/* Reset comes first; every exception behind it is a fault here, for nothing enables an interrupt. */
__attribute__((section(".vectors"), used)) static const struct vectors vectors = {
    stack_top,
    {reset, fault, fault, fault, fault, fault, fault, fault, fault, fault, fault, fault, fault, fault, fault},
};
