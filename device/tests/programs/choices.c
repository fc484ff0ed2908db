/* Choices by tables, structs by value, functions by pointer, and data that is set before the program begins. */
#include <stdbool.h>

#include "numbers.h"

struct small {
    uint8_t tag;
    uint16_t half;
    uint32_t word;
};

struct large {
    struct small parts[6];
    uint32_t sum;
    unsigned low : 5, middle : 11, high : 16;
};

static uint32_t kept[4] = {3, 1, 4, 1};
static uint32_t zeroed[4];
static const uint16_t odd_sizes[5] = {2, 7, 1, 8, 28};

static uint32_t chosen(uint32_t which, uint32_t value)
{
    switch (which) {
    case 0: return value + 10;
    case 1: return value * 3;
    case 2: return ~value;
    case 3: return value >> 5;
    case 4: return value ^ 0x5a5a5a5a;
    case 5: zeroed[value & 3] += value; return zeroed[value & 3];
    case 6: kept[value & 3] ^= value; return kept[value & 3];
    case 7: return odd_sizes[value % 5];
    case 100: return 1;
    case 5000: return 2;
    case 0x80000000: return 3;
    default: return which;
    }
}

static uint32_t doubled(uint32_t value) { return value * 2; }
static uint32_t turned(uint32_t value) { return 0u - value; }
static uint32_t deep(uint32_t value) { return value < 2 ? value : deep(value / 2) + deep(value / 3) + 1; }
static uint32_t (*const functions[3])(uint32_t) = {doubled, turned, deep};

static struct large changed(struct large given, uint32_t value)
{
    struct small first = given.parts[0];
    for (uint32_t place = 0; place < 5; place++)
        given.parts[place] = given.parts[place + 1];
    given.parts[5] = first;
    given.parts[5].tag += (uint8_t)value;
    given.parts[4].half = (uint16_t)(value >> 3);
    given.parts[3].word = value;
    given.low = value;
    given.middle = value >> 5;
    given.high += 1;
    return given;
}

static uint32_t sum_of(const struct large *given)
{
    uint32_t sum = given->sum;
    for (uint32_t place = 0; place < 6; place++)
        sum = sum * 33 + given->parts[place].tag + given->parts[place].half * 3u + given->parts[place].word;
    return sum + given->low + given->middle * 64u + given->high * 65536u;
}

void play(void)
{
    static const uint32_t rare[4] = {100, 5000, 0x80000000, 77};
    uint32_t state = 123456789u;
    struct large first = {{{1, 2, 3}, {4, 5, 6}, {7, 8, 9}}, 5, 1, 2, 3};
    for (uint32_t round = 0; round < 32; round++) {
        uint32_t value = next_number(&state);
        bool few = value & 0x100;
        write_number(chosen(few ? value & 7 : rare[value & 3], value));
        write_number(functions[round % 3](value & 0xff));
        struct large second = changed(first, value);
        first = changed(second, value / 7);
        write_number(sum_of(&second));
        write_number(sum_of(&first));
    }
}
