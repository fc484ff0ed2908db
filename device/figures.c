/* Leads the tables, by events from fresh on, into the situations that are measured. Every call of the library writes a
 * line: what it is, its number and its value. So the lines and the calls go together by their order. */
#include "gustlantern.h"
#include "host.h"

/* What a call is that only leads to a situation. */
#define BEFORE "before"
/* The versions turn over while all slots start. */
#define FIRST_VERSION 0xFFFFFFF8u

enum { SLOTS = GUSTLANTERN_SLOTS, OBJECTS = GUSTLANTERN_OBJECTS, TICK = 7 };
/* Objects are declared from one on up to the last: from ALL on these are all, from OBJECT on it is the last alone. */
enum { SLOT = 3, ALL = 0, OBJECT = OBJECTS - 1, UNBOUNDED = 0 };

static struct gustlantern_tables tables;
static uint8_t one_end[GUSTLANTERN_END_BYTES], other_end[GUSTLANTERN_END_BYTES];

static char *put_text(char *place, const char *text)
{
    while (*text)
        *place++ = *text++;
    return place;
}

static void write_line(const char *label, uint32_t number, uint32_t value)
{
    char line[120];
    char *place = put_text(line, label);
    *place++ = ' ';
    place = put_number(place, number);
    *place++ = ' ';
    place = put_number(place, value);
    *place++ = '\n';
    *place = 0;
    host_write(line);
}

static uint32_t word_of(uint32_t object)
{
    return 1000 + 10 * object;
}

static void fresh(const char *label)
{
    uint32_t words[OBJECTS];
    for (uint32_t object = 0; object < OBJECTS; object++)
        words[object] = word_of(object);
    gustlantern_fresh(&tables, FIRST_VERSION, words);
    write_line(label, GUSTLANTERN_ACCEPTED, 0);
}

/* Puts a start's list of the objects from one on at a place, and gives its length. */
static size_t put_list(uint8_t *list, uint8_t object, uint8_t supremum)
{
    size_t length = 0;
    for (; object < OBJECTS; object++) {
        list[length++] = object;
        list[length++] = supremum;
    }
    return length;
}

static void start(const char *label, uint8_t slot, uint8_t object, uint8_t supremum)
{
    uint8_t list[2 * OBJECTS];
    size_t length = put_list(list, object, supremum);
    write_line(label, gustlantern_start(&tables, slot, list, length), 0);
}

static void call(const char *label, uint8_t slot, uint8_t object, uint8_t kind, uint32_t argument)
{
    uint32_t value;
    uint32_t number = gustlantern_call(&tables, slot, object, kind, argument, &value);
    write_line(label, number, value);
}

static void call_all(uint8_t slot)
{
    for (uint8_t object = 0; object < OBJECTS; object++)
        call(BEFORE, slot, object, GUSTLANTERN_ADD, 1);
}

static void release(const char *label, uint8_t slot, uint8_t object)
{
    write_line(label, gustlantern_release(&tables, slot, object), 0);
}

static void commit(const char *label, uint8_t slot, uint8_t *end)
{
    uint32_t value;
    uint32_t number = gustlantern_commit(&tables, slot, TICK, end, GUSTLANTERN_END_BYTES, &value);
    write_line(label, number, value);
}

static void rollback(const char *label, uint8_t slot)
{
    uint32_t value;
    uint32_t number = gustlantern_rollback(&tables, slot, TICK, one_end, sizeof one_end, &value);
    write_line(label, number, value);
}

static void step(const char *label, const uint8_t *record, size_t length)
{
    uint32_t value;
    uint32_t number = gustlantern_step(&tables, record, length, one_end, sizeof one_end, &value);
    write_line(label, number, value);
}

/* Two end records, of so many entries. */
static void came_first(const char *label, size_t entries, size_t other_entries)
{
    uint32_t order;
    uint32_t number = gustlantern_came_first(one_end, 10 + 5 * entries, other_end, 10 + 5 * other_entries, &order);
    write_line(label, number, order);
}

static void play_one_object(void)
{
    static const uint8_t add_3[] = {8, 0, 0x02, 0x01, SLOT, OBJECT, GUSTLANTERN_ADD, 0, 3, 0, 0, 0};
    fresh("fresh");
    start("start, 1 object", SLOT, OBJECT, 4);
    call("call, first on its object, add", SLOT, OBJECT, GUSTLANTERN_ADD, 1);
    call("call, further, add", SLOT, OBJECT, GUSTLANTERN_ADD, 2);
    step("step, call, further, add", add_3, sizeof add_3);
    call("call, reaches the supremum, add", SLOT, OBJECT, GUSTLANTERN_ADD, 4);
    commit("commit, 1 object", SLOT, one_end);

    start(BEFORE, SLOT, OBJECT, UNBOUNDED);
    call("call, first on its object, spend too much, no supremum", SLOT, OBJECT, GUSTLANTERN_SPEND, 10000);
    rollback("rollback, 1 called object", SLOT);
}

static void play_refusals(void)
{
    fresh(BEFORE);
    start(BEFORE, SLOT, OBJECT, UNBOUNDED);
    start(BEFORE, SLOT + 1, ALL, UNBOUNDED);
    call("call, refused with Wait", SLOT + 1, OBJECT, GUSTLANTERN_ADD, 1);
    call("call, refused with BadSlot", SLOTS, OBJECT, GUSTLANTERN_ADD, 1);
    commit("commit, 24 objects, refused with Wait", SLOT + 1, one_end);
    release("release, refused with Wait", SLOT + 1, OBJECT);
    release("release, accepted", SLOT, OBJECT);
}

static void play_all_objects(void)
{
    uint8_t record[6 + 2 * OBJECTS] = {2 + 2 * OBJECTS, 0, 0x01, 0x01, SLOT, OBJECTS};
    put_list(record + 6, ALL, UNBOUNDED);
    fresh(BEFORE);
    start("start, 24 objects", SLOT, ALL, UNBOUNDED);
    call_all(SLOT);
    commit("commit, 24 objects", SLOT, one_end);
    step("step, start, 24 objects", record, sizeof record);
    call_all(SLOT);
    rollback("rollback, 24 called objects, no other slot live", SLOT);
}

/* An object that was let go uncalled, and called by another slot since, is the dearest to commit. */
static void play_objects_let_go(void)
{
    fresh(BEFORE);
    start(BEFORE, SLOT, ALL, UNBOUNDED);
    start(BEFORE, SLOT + 1, ALL, 1);
    for (uint8_t object = 0; object < OBJECTS; object++)
        release(BEFORE, SLOT, object);
    call_all(SLOT + 1);
    commit("commit, 24 objects, let go uncalled and called by another slot", SLOT, one_end);
}

/* Every slot has called every object once, in start order, and let it go by that. */
static void make_chain(void)
{
    fresh(BEFORE);
    for (uint8_t slot = 0; slot < SLOTS; slot++)
        start(BEFORE, slot, ALL, 1);
    for (uint8_t slot = 0; slot < SLOTS; slot++)
        call_all(slot);
}

/* Whether every word is as at first, and every slot but the first is spoiled on every object. */
static int undone(void)
{
    for (uint32_t pair = OBJECTS; pair < GUSTLANTERN_PAIRS; pair++)
        if (!tables.marks[GUSTLANTERN_SPOILED_AT(pair)])
            return 0;
    for (uint32_t object = 0; object < OBJECTS; object++)
        if (tables.words[GUSTLANTERN_WORD_AT(object)] != word_of(object))
            return 0;
    return 1;
}

static void play_chains(void)
{
    static const uint8_t rollback_first[] = {5, 0, 0x05, 0x01, 0, TICK, 0, 0, 0};
    make_chain();
    rollback("rollback, 24 called objects, 15 slots spoiled on each", 0);
    if (!undone())
        write_line("the rollback left something", 0, 0);
    make_chain();
    step("step, rollback, 24 called objects, 15 slots spoiled on each", rollback_first, sizeof rollback_first);
    if (!undone())
        write_line("the rollback by its record left something", 0, 0);
    make_chain();
    for (uint8_t slot = 0; slot < SLOTS - 1; slot++)
        commit(BEFORE, slot, one_end);
    commit("commit, 24 objects, the last of 16 slots", SLOTS - 1, one_end);
}

/* Two records of all objects meet at once. The walk of one list inside the other is longest where it finds the first
 * half of all objects missing. */
static void play_orders(void)
{
    enum { HALF = 13 };
    fresh(BEFORE);
    start(BEFORE, 0, ALL, 1);
    start(BEFORE, 1, ALL, 1);
    commit(BEFORE, 0, one_end);
    commit(BEFORE, 1, other_end);
    came_first("came_first, 24 and 24 entries", OBJECTS, OBJECTS);
    start(BEFORE, 0, ALL, 1);
    start(BEFORE, 1, OBJECTS - HALF, 1);
    commit(BEFORE, 0, one_end);
    commit(BEFORE, 1, other_end);
    came_first("came_first, 24 and 13 entries, the longest search", OBJECTS, HALF);
}

static void play_looks(void)
{
    struct gustlantern_object object;
    struct gustlantern_pair pair;
    uint32_t number;
    fresh(BEFORE);
    start(BEFORE, SLOT, OBJECT, 1);
    number = gustlantern_look_object(&tables, OBJECT, &object);
    write_line("look_object", number, object.word);
    number = gustlantern_look_pair(&tables, SLOT, OBJECT, &pair);
    write_line("look_pair", number, pair.private_version);
    number = gustlantern_marks_hold(&tables);
    write_line("marks_hold", number, 0);
}

/* The first line is of no call: it has the bytes of the tables. */
void play(void)
{
    write_line("tables", sizeof tables, 0);
    play_one_object();
    play_refusals();
    play_all_objects();
    play_objects_let_go();
    play_chains();
    play_orders();
    play_looks();
}
