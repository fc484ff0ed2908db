/* The least that a kernel needs: the tables, a task that declares, calls and ends, and what it does when it has to wait. */
#include "gustlantern.h"

#include <stdio.h>

enum { RATE, RESERVOIR };

static struct gustlantern_tables tables;
static uint8_t ends[GUSTLANTERN_END_BYTES];

/* Here the other tasks run; there are none. */
static void let_others_run(void)
{
}

static uint32_t dose(uint8_t slot, uint32_t tick)
{
    static const uint8_t list[] = {RATE, 1, RESERVOIR, 1};
    uint32_t rate, spent, length, number = gustlantern_start(&tables, slot, list, sizeof list);

    if (number != GUSTLANTERN_ACCEPTED)
        return number;
    while (gustlantern_call(&tables, slot, RATE, GUSTLANTERN_READ, 0, &rate) == GUSTLANTERN_WAIT)
        let_others_run();
    while (gustlantern_call(&tables, slot, RESERVOIR, GUSTLANTERN_SPEND, rate, &spent) == GUSTLANTERN_WAIT)
        let_others_run();
    while ((number = gustlantern_commit(&tables, slot, tick, ends, sizeof ends, &length)) == GUSTLANTERN_WAIT)
        let_others_run();
    if (number == GUSTLANTERN_DOOMED)
        while (gustlantern_rollback(&tables, slot, tick, ends, sizeof ends, &length) == GUSTLANTERN_WAIT)
            let_others_run();
    return number;
}

int main(void)
{
    static const uint32_t words[GUSTLANTERN_OBJECTS] = {[RATE] = 30, [RESERVOIR] = 500};
    struct gustlantern_object seen;

    gustlantern_fresh(&tables, 0, words);
    uint32_t number = dose(0, 1);
    gustlantern_look_object(&tables, RESERVOIR, &seen);
    printf("number %lu, reservoir %lu\n", (unsigned long)number, (unsigned long)seen.word);
    return 0;
}
