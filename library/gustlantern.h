/* Supremum versioning for the tasks of a pump: 16 slots, 24 objects, all memory lent by the caller.
 *
 * Every function takes every argument, finishes, and answers a number of `enum gustlantern_number`; a refusal changes
 * no byte of the tables or of a buffer, and its value is 0. No function keeps a pointer, blocks, allocates or prints.
 * The numbers at a function are its refusals, in the order in which they are tried.
 *
 * The caller owes: no pointer is null, also where its length is 0; each is aligned for its type; no two of one call
 * overlap; every mark is 0 or 1, also before the tables are fresh (memory of zeros is so, gustlantern_marks_hold checks
 * it); one caller at a time, with interrupts off or under one lock.
 *
 * On a Cortex-M0+ at -Os it takes 5218 bytes of text and at most 308 bytes of stack. Cycles, at most: a call 469, a
 * release 128, a start 2503, a commit 4865, a rollback 10503, fresh 6512, a look 88, marks_hold 5431; an event
 * as a record about 519 more. docs/MEASURES.md has each of them and how it was got.
 */
#ifndef GUSTLANTERN_H
#define GUSTLANTERN_H

#include <stddef.h>
#include <stdint.h>

#ifdef __cplusplus
extern "C" {
#endif

#define GUSTLANTERN_SLOTS 16
#define GUSTLANTERN_OBJECTS 24
/* The longest record of an end: a buffer of this length always has room. */
#define GUSTLANTERN_END_BYTES 130

#define GUSTLANTERN_PAIRS (GUSTLANTERN_SLOTS * GUSTLANTERN_OBJECTS)
#define GUSTLANTERN_WORDS (4 * GUSTLANTERN_OBJECTS + 2 * GUSTLANTERN_PAIRS)
#define GUSTLANTERN_BYTES (2 * GUSTLANTERN_PAIRS)
#define GUSTLANTERN_MARKS (GUSTLANTERN_SLOTS + 3 * GUSTLANTERN_PAIRS)

/* Where each part stands; `pair` is slot * GUSTLANTERN_OBJECTS + object. */
#define GUSTLANTERN_WORD_AT(object) (4 * (object))
#define GUSTLANTERN_GLOBAL_AT(object) (4 * (object) + 1)
#define GUSTLANTERN_LOCAL_AT(object) (4 * (object) + 2)
#define GUSTLANTERN_TERMINAL_AT(object) (4 * (object) + 3)
#define GUSTLANTERN_PRIVATE_AT(pair) (4 * GUSTLANTERN_OBJECTS + 2 * (pair))
#define GUSTLANTERN_SAVED_AT(pair) (4 * GUSTLANTERN_OBJECTS + 2 * (pair) + 1)
#define GUSTLANTERN_SUPREMUM_AT(pair) (2 * (pair))
#define GUSTLANTERN_COUNT_AT(pair) (2 * (pair) + 1)
#define GUSTLANTERN_LIVE_AT(slot) (slot)
#define GUSTLANTERN_DECLARED_AT(pair) (GUSTLANTERN_SLOTS + (pair))
#define GUSTLANTERN_CALLED_AT(pair) (GUSTLANTERN_SLOTS + GUSTLANTERN_PAIRS + (pair))
#define GUSTLANTERN_SPOILED_AT(pair) (GUSTLANTERN_SLOTS + 2 * GUSTLANTERN_PAIRS + (pair))

/* All of the machine's tables. */
struct gustlantern_tables {
    uint32_t words[GUSTLANTERN_WORDS];
    uint8_t bytes[GUSTLANTERN_BYTES];
    uint8_t marks[GUSTLANTERN_MARKS];
};

enum gustlantern_number {
    GUSTLANTERN_ACCEPTED = 0,
    GUSTLANTERN_BAD_SLOT = 1,
    GUSTLANTERN_BAD_OBJECT = 2,
    GUSTLANTERN_BAD_LIST = 3,
    GUSTLANTERN_BUSY = 4,
    GUSTLANTERN_IDLE = 5,
    GUSTLANTERN_NOT_DECLARED = 6,
    GUSTLANTERN_BAD_CALL = 7,
    GUSTLANTERN_RELEASED = 8,
    GUSTLANTERN_DOOMED = 9,
    GUSTLANTERN_WAIT = 10,
    GUSTLANTERN_NO_ROOM = 11,
    GUSTLANTERN_BAD_RECORD = 12
};

/* The kinds of a call. */
enum gustlantern_kind {
    GUSTLANTERN_READ = 0,
    GUSTLANTERN_WRITE = 1,
    GUSTLANTERN_ADD = 2,
    GUSTLANTERN_SPEND = 3
};

/* Which of two end records came first; FAR: their versions lie half the turnover apart. */
enum gustlantern_order {
    GUSTLANTERN_FIRST_A = 1,
    GUSTLANTERN_FIRST_B = 2,
    GUSTLANTERN_SAME = 3,
    GUSTLANTERN_FAR = 4,
    GUSTLANTERN_UNRELATED = 5
};

struct gustlantern_object {
    uint32_t word, global, local, terminal;
};

struct gustlantern_pair {
    uint32_t live, declared, supremum, private_version, count, called, spoiled, saved;
};

/* The symbols of the library. They take the three arrays apart, and lengths of 64 bits on every processor; the
 * functions below are the ones to call from C. */
void gustlantern_raw_fresh(uint32_t *words, uint8_t *bytes, uint8_t *marks, uint32_t first, const uint32_t *given);
uint32_t gustlantern_raw_start(uint32_t *words, uint8_t *bytes, uint8_t *marks, uint8_t slot, const uint8_t *list,
                               uint64_t length);
uint32_t gustlantern_raw_call(uint32_t *words, uint8_t *bytes, uint8_t *marks, uint8_t slot, uint8_t object,
                              uint8_t kind, uint32_t argument, uint32_t *value);
uint32_t gustlantern_raw_release(uint32_t *words, uint8_t *bytes, uint8_t *marks, uint8_t slot, uint8_t object);
uint32_t gustlantern_raw_commit(uint32_t *words, uint8_t *bytes, uint8_t *marks, uint8_t slot, uint32_t tick,
                                uint8_t *ends, uint64_t room, uint32_t *value);
uint32_t gustlantern_raw_rollback(uint32_t *words, uint8_t *bytes, uint8_t *marks, uint8_t slot, uint32_t tick,
                                  uint8_t *ends, uint64_t room, uint32_t *value);
uint32_t gustlantern_raw_step(uint32_t *words, uint8_t *bytes, uint8_t *marks, const uint8_t *given, uint64_t length,
                              uint8_t *ends, uint64_t room, uint32_t *value);
uint32_t gustlantern_raw_came_first(const uint8_t *a, uint64_t a_length, const uint8_t *b, uint64_t b_length,
                                    uint32_t *order);
uint32_t gustlantern_raw_object(const uint32_t *words, uint8_t object, uint32_t *seen);
uint32_t gustlantern_raw_pair(const uint32_t *words, const uint8_t *bytes, const uint8_t *marks, uint8_t slot,
                              uint8_t object, uint32_t *seen);
uint32_t gustlantern_raw_marks_hold(const uint8_t *marks);

/* Fresh tables: a word for each object, all versions the first one, no slot live. */
static inline void gustlantern_fresh(struct gustlantern_tables *tables, uint32_t first,
                                     const uint32_t words[GUSTLANTERN_OBJECTS])
{
    gustlantern_raw_fresh(tables->words, tables->bytes, tables->marks, first, words);
}

/* A transaction begins: `list` holds pairs of bytes, object and supremum, objects rising. 1, 4, 3 for
 * its length, then pair by pair 2, 3. */
static inline uint32_t gustlantern_start(struct gustlantern_tables *tables, uint8_t slot, const uint8_t *list,
                                         size_t length)
{
    return gustlantern_raw_start(tables->words, tables->bytes, tables->marks, slot, list, length);
}

/* A call on a declared object; `value` is its answer, 0 where refused. 1, 5, 2, 6, 7, 9, 8, 10. */
static inline uint32_t gustlantern_call(struct gustlantern_tables *tables, uint8_t slot, uint8_t object, uint8_t kind,
                                        uint32_t argument, uint32_t *value)
{
    return gustlantern_raw_call(tables->words, tables->bytes, tables->marks, slot, object, kind, argument, value);
}

/* The object is let go before its supremum is reached. 1, 5, 2, 6, 8, 10. */
static inline uint32_t gustlantern_release(struct gustlantern_tables *tables, uint8_t slot, uint8_t object)
{
    return gustlantern_raw_release(tables->words, tables->bytes, tables->marks, slot, object);
}

/* The transaction ends; its record stands at ends[0], and `value` is its length. 1, 5, 9, 10, 11. */
static inline uint32_t gustlantern_commit(struct gustlantern_tables *tables, uint8_t slot, uint32_t tick, uint8_t *ends,
                                          size_t room, uint32_t *value)
{
    return gustlantern_raw_commit(tables->words, tables->bytes, tables->marks, slot, tick, ends, room, value);
}

/* The same, and the words that it changed are put back. 1, 5, 10, 11. */
static inline uint32_t gustlantern_rollback(struct gustlantern_tables *tables, uint8_t slot, uint32_t tick,
                                            uint8_t *ends, size_t room, uint32_t *value)
{
    return gustlantern_raw_rollback(tables->words, tables->bytes, tables->marks, slot, tick, ends, room, value);
}

/* The event whose record stands at record[0]; bytes behind the record don't matter. 12, or as the event's function. */
static inline uint32_t gustlantern_step(struct gustlantern_tables *tables, const uint8_t *record, size_t length,
                                        uint8_t *ends, size_t room, uint32_t *value)
{
    return gustlantern_raw_step(tables->words, tables->bytes, tables->marks, record, length, ends, room, value);
}

/* Which of two end records came first, as a gustlantern_order; 0 where one is no end record. 12. */
static inline uint32_t gustlantern_came_first(const uint8_t *a, size_t a_length, const uint8_t *b, size_t b_length,
                                              uint32_t *order)
{
    return gustlantern_raw_came_first(a, a_length, b, b_length, order);
}

/* A look at an object, for a debugger; nothing is written where refused. 2. */
static inline uint32_t gustlantern_look_object(const struct gustlantern_tables *tables, uint8_t object,
                                               struct gustlantern_object *seen)
{
    return gustlantern_raw_object(tables->words, object, &seen->word);
}

/* A look at a slot's pair on an object. 1, 2. */
static inline uint32_t gustlantern_look_pair(const struct gustlantern_tables *tables, uint8_t slot, uint8_t object,
                                             struct gustlantern_pair *seen)
{
    return gustlantern_raw_pair(tables->words, tables->bytes, tables->marks, slot, object, &seen->live);
}

/* 1 where every mark is 0 or 1, as the functions above need it; 0 where memory was kept badly. */
static inline uint32_t gustlantern_marks_hold(const struct gustlantern_tables *tables)
{
    return gustlantern_raw_marks_hold(tables->marks);
}

#ifdef __cplusplus
}
#endif

#endif
