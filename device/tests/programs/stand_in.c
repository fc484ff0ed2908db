/* In place of the library: it answers so that its arguments can be told from the lines. */
#include "gustlantern.h"

static uint32_t sum;

void gustlantern_raw_fresh(uint32_t *words, uint8_t *bytes, uint8_t *marks, uint32_t first, const uint32_t *given)
{
    (void)bytes;
    words[1] = 0x0123ABCD;
    marks[GUSTLANTERN_MARKS - 1] = 1;
    sum = first;
    for (uint32_t object = 0; object < GUSTLANTERN_OBJECTS; object++)
        sum += given[object] * (object + 1);
}

/* The number is the body's first byte. The value tells of the fresh record, of the bytes that are left and of the room; that of a commit
 * or a rollback is the second byte of its body, and the bytes 0xE0, 0xE1, .. that it writes are as many as the third byte says. */
uint32_t gustlantern_raw_step(uint32_t *words, uint8_t *bytes, uint8_t *marks, const uint8_t *given, uint64_t length,
                              uint8_t *ends, uint64_t room, uint32_t *value)
{
    (void)words, (void)bytes, (void)marks;
    if (length < 5 || given[0] + 4u > length)
        return GUSTLANTERN_BAD_RECORD;
    *value = sum + (uint32_t)length * 1000 + (uint32_t)room;
    if (given[2] == 4 || given[2] == 5) {
        *value = given[5];
        for (uint32_t place = 0; place < given[6]; place++)
            ends[place] = (uint8_t)(0xE0 + place);
    }
    return given[4];
}
