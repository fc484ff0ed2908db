/* What the compiler calls and no library of the kit has, by the names of the run-time ABI for the Arm architecture.
 * All names are weak: those of another C library win over them. Loops must not be made into calls of these very
 * functions, so this file is compiled as freestanding. */
#include <stddef.h>
#include <stdint.h>

#define WEAK __attribute__((weak))
#define SAME_AS(name) __attribute__((weak, alias(#name)))

typedef uint32_t __attribute__((may_alias)) word;
struct __attribute__((may_alias)) four_words {
    uint32_t words[4];
};

static int word_aligned(const void *one, const void *other)
{
    return (((uintptr_t)one | (uintptr_t)other) & 3) == 0;
}

static void copy_upwards(uint8_t *to, const uint8_t *from, size_t length)
{
    if (word_aligned(to, from)) {
        for (; length >= 16; length -= 16, to += 16, from += 16)
            *(struct four_words *)to = *(const struct four_words *)from;
        for (; length >= 4; length -= 4, to += 4, from += 4)
            *(word *)to = *(const word *)from;
    }
    while (length--)
        *to++ = *from++;
}

static void copy_downwards(uint8_t *to, const uint8_t *from, size_t length)
{
    if (word_aligned(to, from)) {
        for (; length & 3; length--)
            to[length - 1] = from[length - 1];
        for (; length; length -= 4)
            *(word *)(to + length - 4) = *(const word *)(from + length - 4);
    }
    for (; length; length--)
        to[length - 1] = from[length - 1];
}

static void fill(uint8_t *to, size_t length, uint8_t byte)
{
    uint32_t four = byte * 0x01010101u;
    for (; length && (uintptr_t)to & 3; length--)
        *to++ = byte;
    for (; length >= 4; length -= 4, to += 4)
        *(word *)to = four;
    while (length--)
        *to++ = byte;
}

WEAK void *memcpy(void *restrict to, const void *restrict from, size_t length)
{
    copy_upwards(to, from, length);
    return to;
}

/* A place below the other, or far enough above it, can be copied upwards: the difference wraps for one below. */
WEAK void *memmove(void *to, const void *from, size_t length)
{
    if ((uintptr_t)to - (uintptr_t)from >= length)
        copy_upwards(to, from, length);
    else
        copy_downwards(to, from, length);
    return to;
}

WEAK void *memset(void *to, int byte, size_t length)
{
    fill(to, length, (uint8_t)byte);
    return to;
}

WEAK void __aeabi_memset(void *to, size_t length, int byte)
{
    fill(to, length, (uint8_t)byte);
}

WEAK void __aeabi_memclr(void *to, size_t length)
{
    fill(to, length, 0);
}

SAME_AS(memcpy) void *__aeabi_memcpy(void *restrict to, const void *restrict from, size_t length);
SAME_AS(memcpy) void *__aeabi_memcpy4(void *restrict to, const void *restrict from, size_t length);
SAME_AS(memcpy) void *__aeabi_memcpy8(void *restrict to, const void *restrict from, size_t length);
SAME_AS(memmove) void *__aeabi_memmove(void *to, const void *from, size_t length);
SAME_AS(memmove) void *__aeabi_memmove4(void *to, const void *from, size_t length);
SAME_AS(memmove) void *__aeabi_memmove8(void *to, const void *from, size_t length);
SAME_AS(__aeabi_memset) void __aeabi_memset4(void *to, size_t length, int byte);
SAME_AS(__aeabi_memset) void __aeabi_memset8(void *to, size_t length, int byte);
SAME_AS(__aeabi_memclr) void __aeabi_memclr4(void *to, size_t length);
SAME_AS(__aeabi_memclr) void __aeabi_memclr8(void *to, size_t length);

/* Two words in the two registers in which a value of 64 bits is returned. */
union pair {
    uint64_t both;
    struct {
        uint32_t low, high;
    } half;
};

static uint64_t paired(uint32_t low, uint32_t high)
{
    union pair pair = {.half = {low, high}};
    return pair.both;
}

/* Quotient and remainder. */
WEAK uint64_t __aeabi_uidivmod(uint32_t number, uint32_t divisor)
{
    uint32_t quotient = 0, bit = 1;
    while (divisor < number && !(divisor >> 31)) {
        divisor <<= 1;
        bit <<= 1;
    }
    for (; bit; bit >>= 1, divisor >>= 1) {
        if (number >= divisor) {
            number -= divisor;
            quotient |= bit;
        }
    }
    return paired(quotient, number);
}

WEAK uint32_t __aeabi_uidiv(uint32_t number, uint32_t divisor)
{
    return (uint32_t)__aeabi_uidivmod(number, divisor);
}

static uint32_t size_of(int32_t number)
{
    return number < 0 ? 0u - (uint32_t)number : (uint32_t)number;
}

WEAK uint64_t __aeabi_idivmod(int32_t number, int32_t divisor)
{
    union pair found = {__aeabi_uidivmod(size_of(number), size_of(divisor))};
    uint32_t quotient = (number ^ divisor) < 0 ? 0u - found.half.low : found.half.low;
    return paired(quotient, number < 0 ? 0u - found.half.high : found.half.high);
}

WEAK int32_t __aeabi_idiv(int32_t number, int32_t divisor)
{
    return (int32_t)__aeabi_idivmod(number, divisor);
}

/* The quotient of 64 bits; the remainder goes to a place. */
static __attribute__((used)) uint64_t divide_long(uint64_t number, uint64_t divisor, uint64_t *remainder)
{
    uint64_t quotient = 0, bit = 1;
    while (divisor < number && !(divisor >> 63)) {
        divisor <<= 1;
        bit <<= 1;
    }
    for (; bit; bit >>= 1, divisor >>= 1) {
        if (number >= divisor) {
            number -= divisor;
            quotient |= bit;
        }
    }
    *remainder = number;
    return quotient;
}

/* Returned in four registers, which no C function can say: the place of the remainder goes on the stack. */
WEAK __attribute__((naked)) void __aeabi_uldivmod(void)
{
    __asm__("push {r4, lr}\n"
            "sub sp, #16\n"
            "add r4, sp, #8\n"
            "str r4, [sp]\n"
            "bl %c0\n"
            "ldr r2, [sp, #8]\n"
            "ldr r3, [sp, #12]\n"
            "add sp, #16\n"
            "pop {r4, pc}\n" ::"i"(divide_long));
}

/* The product of two words, from products of half-words, for a Cortex-M0+ multiplies into one word only. */
static uint64_t product(uint32_t left, uint32_t right)
{
    uint32_t left_low = left & 0xffff, left_high = left >> 16, right_low = right & 0xffff, right_high = right >> 16;
    uint32_t lowest = left_low * right_low, highest = left_high * right_high;
    uint32_t one = left_high * right_low, other = left_low * right_high;
    uint32_t middle = (lowest >> 16) + (one & 0xffff) + (other & 0xffff);
    return paired(middle << 16 | (lowest & 0xffff), highest + (one >> 16) + (other >> 16) + (middle >> 16));
}

WEAK uint64_t __aeabi_lmul(uint64_t left, uint64_t right)
{
    union pair one = {left}, other = {right}, found = {product(one.half.low, other.half.low)};
    found.half.high += one.half.low * other.half.high + one.half.high * other.half.low;
    return found.both;
}

WEAK uint64_t __aeabi_llsl(uint64_t value, int amount)
{
    union pair given = {value};
    if (amount == 0)
        return value;
    if (amount >= 32)
        return paired(0, given.half.low << (amount - 32));
    return paired(given.half.low << amount, given.half.high << amount | given.half.low >> (32 - amount));
}

WEAK uint64_t __aeabi_llsr(uint64_t value, int amount)
{
    union pair given = {value};
    if (amount == 0)
        return value;
    if (amount >= 32)
        return paired(given.half.high >> (amount - 32), 0);
    return paired(given.half.low >> amount | given.half.high << (32 - amount), given.half.high >> amount);
}

WEAK int64_t __aeabi_lasr(int64_t value, int amount)
{
    union pair given = {(uint64_t)value};
    int32_t high = (int32_t)given.half.high;
    if (amount == 0)
        return value;
    if (amount >= 32)
        return (int64_t)paired((uint32_t)(high >> (amount - 32)), (uint32_t)(high >> 31));
    return (int64_t)paired(given.half.low >> amount | given.half.high << (32 - amount), (uint32_t)(high >> amount));
}
