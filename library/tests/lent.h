/* The memory that the tests lend to the library, with guard bytes around each part of it. */
#ifndef LENT_H
#define LENT_H

#include "gustlantern.h"

#include <string.h>

enum { GUARD_BYTES = 32, GUARD = 0xA5, UNSET = 77 };

struct lent {
    uint8_t before_tables[GUARD_BYTES];
    struct gustlantern_tables tables;
    uint8_t before_ends[GUARD_BYTES];
    uint8_t ends[GUSTLANTERN_END_BYTES];
    uint8_t before_value[GUARD_BYTES];
    uint32_t value;
    uint8_t behind_value[GUARD_BYTES];
};

static struct lent lent, before;

/* Guards everywhere but in the marks, which are 0 or 1 also before the tables are fresh. */
static inline void lend(void)
{
    memset(&lent, GUARD, sizeof lent);
    memset(lent.tables.marks, 1, sizeof lent.tables.marks);
}

/* Keeps all bytes as they are before an event. */
static inline void keep(void)
{
    lent.value = UNSET;
    memcpy(&before, &lent, sizeof lent);
}

/* Whether an event changed only what it may: its value, and where accepted the tables and the bytes that it wrote. */
static inline int changed_only_its_own(uint32_t number, size_t written)
{
    before.value = lent.value;
    if (number == GUSTLANTERN_ACCEPTED) {
        memcpy(&before.tables, &lent.tables, sizeof lent.tables);
        memcpy(before.ends, lent.ends, written);
    }
    return memcmp(&before, &lent, sizeof lent) == 0;
}

#endif
