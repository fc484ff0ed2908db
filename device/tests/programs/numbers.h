/* The numbers that the test programs begin with, and how they write. */
#ifndef DEVICE_TESTS_NUMBERS_H
#define DEVICE_TESTS_NUMBERS_H

#include "host.h"

/* Each call gives the next number of a fixed row. */
static inline uint32_t next_number(uint32_t *state)
{
    *state ^= *state << 13;
    *state ^= *state >> 17;
    *state ^= *state << 5;
    return *state;
}

/* In hexadecimal digits: decimal ones would cost a Cortex-M0+ most of its time. */
static inline void write_number(uint32_t number)
{
    char text[10];
    for (int place = 7; place >= 0; place--, number >>= 4)
        text[place] = "0123456789abcdef"[number & 15];
    text[8] = '\n';
    text[9] = 0;
    host_write(text);
}

static inline void write_long(uint64_t number)
{
    write_number((uint32_t)(number >> 32));
    write_number((uint32_t)number);
}

#endif
