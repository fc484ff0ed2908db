/* Copies and fillings of every length from 0 to 40 at every alignment; what is written covers the bytes around them. */
#include <stddef.h>

#include "numbers.h"

enum { LONGEST = 40, MARGIN = 8, ROOM = LONGEST + 2 * MARGIN };

void *memcpy(void *to, const void *from, size_t length);
void *memmove(void *to, const void *from, size_t length);
void *memset(void *to, int byte, size_t length);
void __aeabi_memset(void *to, size_t length, int byte);
void __aeabi_memclr(void *to, size_t length);

static uint8_t room[ROOM] __attribute__((aligned(8))), source[ROOM] __attribute__((aligned(8)));

static void prepare(void)
{
    for (uint32_t place = 0; place < ROOM; place++)
        room[place] = (uint8_t)(place * 7 + 1);
}

/* All bytes of the room, each by its place, joined to what was before. */
static uint32_t sum_of_room(uint32_t before)
{
    for (uint32_t place = 0; place < ROOM; place++)
        before = before * 31 + room[place];
    return before;
}

static uint32_t copies(uint32_t to, uint32_t from)
{
    uint32_t sum = 0;
    for (uint32_t length = 0; length <= LONGEST; length++) {
        prepare();
        if (memcpy(room + MARGIN / 2 + to, source + from, length) != room + MARGIN / 2 + to)
            sum++;
        sum = sum_of_room(sum);
    }
    return sum;
}

static uint32_t moves(uint32_t to, uint32_t from)
{
    uint32_t sum = 0;
    for (uint32_t length = 0; length <= LONGEST; length++) {
        prepare();
        if (memmove(room + to, room + from, length) != room + to)
            sum++;
        sum = sum_of_room(sum);
    }
    return sum;
}

static uint32_t fillings(uint32_t to)
{
    uint32_t sum = 0;
    for (uint32_t length = 0; length <= LONGEST; length++) {
        prepare();
        if (length % 3 == 0)
            memset(room + MARGIN / 2 + to, (int)(length + 0x1e0), length);
        else if (length % 3 == 1)
            __aeabi_memset(room + MARGIN / 2 + to, length, (int)(length + 0x1e0));
        else
            __aeabi_memclr(room + MARGIN / 2 + to, length);
        sum = sum_of_room(sum);
    }
    return sum;
}

void play(void)
{
    for (uint32_t place = 0; place < ROOM; place++)
        source[place] = (uint8_t)(place * 11 + 3);
    for (uint32_t to = 0; to < 4; to++) {
        for (uint32_t from = 0; from < 4; from++)
            write_number(copies(to, from));
        write_number(moves(4 + to, 6));
        write_number(moves(12, 4 + 2 * to));
        write_number(fillings(to));
    }
}
