/* The places that the header names, beside what the looks say, after each event of session W. */
#include "expect.h"
#include "gustlantern.h"

enum { ADDED = 5, SPENT = 40 };

static struct gustlantern_tables tables;
static uint8_t words_named[GUSTLANTERN_WORDS], bytes_named[GUSTLANTERN_BYTES], marks_named[GUSTLANTERN_MARKS];

static void object_agrees(uint8_t object)
{
    struct gustlantern_object seen;

    expect("a look at an object", gustlantern_look_object(&tables, object, &seen), GUSTLANTERN_ACCEPTED);
    expect("word", tables.words[GUSTLANTERN_WORD_AT(object)], seen.word);
    expect("global", tables.words[GUSTLANTERN_GLOBAL_AT(object)], seen.global);
    expect("local", tables.words[GUSTLANTERN_LOCAL_AT(object)], seen.local);
    expect("terminal", tables.words[GUSTLANTERN_TERMINAL_AT(object)], seen.terminal);
}

static void pair_agrees(uint8_t slot, uint8_t object)
{
    struct gustlantern_pair seen;
    int pair = slot * GUSTLANTERN_OBJECTS + object;

    expect("a look at a pair", gustlantern_look_pair(&tables, slot, object, &seen), GUSTLANTERN_ACCEPTED);
    expect("live", tables.marks[GUSTLANTERN_LIVE_AT(slot)], seen.live);
    expect("declared", tables.marks[GUSTLANTERN_DECLARED_AT(pair)], seen.declared);
    expect("supremum", tables.bytes[GUSTLANTERN_SUPREMUM_AT(pair)], seen.supremum);
    expect("private", tables.words[GUSTLANTERN_PRIVATE_AT(pair)], seen.private_version);
    expect("count", tables.bytes[GUSTLANTERN_COUNT_AT(pair)], seen.count);
    expect("called", tables.marks[GUSTLANTERN_CALLED_AT(pair)], seen.called);
    expect("spoiled", tables.marks[GUSTLANTERN_SPOILED_AT(pair)], seen.spoiled);
    expect("saved", tables.words[GUSTLANTERN_SAVED_AT(pair)], seen.saved);
}

static void all_agree(void)
{
    for (uint8_t object = 0; object < GUSTLANTERN_OBJECTS; object++)
        object_agrees(object);
    for (uint8_t slot = 0; slot < GUSTLANTERN_SLOTS; slot++)
        for (uint8_t object = 0; object < GUSTLANTERN_OBJECTS; object++)
            pair_agrees(slot, object);
}

static void event(uint32_t number, uint32_t wanted)
{
    expect("an event", number, wanted);
    all_agree();
}

/* The places of one pair, as session W has them. */
static void pair_holds(int slot, int object, uint32_t private_version, uint32_t count, uint32_t called, uint32_t spoiled,
                       uint32_t saved)
{
    int pair = slot * GUSTLANTERN_OBJECTS + object;

    expect("a live slot", tables.marks[GUSTLANTERN_LIVE_AT(slot)], 1);
    expect("a declared pair", tables.marks[GUSTLANTERN_DECLARED_AT(pair)], 1);
    expect("a private version", tables.words[GUSTLANTERN_PRIVATE_AT(pair)], private_version);
    expect("a count", tables.bytes[GUSTLANTERN_COUNT_AT(pair)], count);
    expect("a called pair", tables.marks[GUSTLANTERN_CALLED_AT(pair)], called);
    expect("a spoiled pair", tables.marks[GUSTLANTERN_SPOILED_AT(pair)], spoiled);
    expect("a saved word", tables.words[GUSTLANTERN_SAVED_AT(pair)], saved);
}

static void object_holds(int object, uint32_t word, uint32_t global, uint32_t local, uint32_t terminal)
{
    expect("the word", tables.words[GUSTLANTERN_WORD_AT(object)], word);
    expect("the global version", tables.words[GUSTLANTERN_GLOBAL_AT(object)], global);
    expect("the local version", tables.words[GUSTLANTERN_LOCAL_AT(object)], local);
    expect("the terminal version", tables.words[GUSTLANTERN_TERMINAL_AT(object)], terminal);
}

static void session_w(void)
{
    static const uint8_t list_0[] = {3, 2}, list_1[] = {3, 1, 5, 0};
    uint32_t words[GUSTLANTERN_OBJECTS] = {0}, value;
    uint8_t ends[GUSTLANTERN_END_BYTES];

    words[3] = 100;
    gustlantern_fresh(&tables, UINT32_MAX, words);
    all_agree();
    event(gustlantern_start(&tables, 0, list_0, sizeof list_0), GUSTLANTERN_ACCEPTED);
    event(gustlantern_start(&tables, 1, list_1, sizeof list_1), GUSTLANTERN_ACCEPTED);
    expect("a supremum", tables.bytes[GUSTLANTERN_SUPREMUM_AT(3)], 2);
    object_holds(3, 100, 1, UINT32_MAX, UINT32_MAX);
    event(gustlantern_call(&tables, 0, 3, GUSTLANTERN_SPEND, SPENT, &value), GUSTLANTERN_ACCEPTED);
    pair_holds(0, 3, 0, 1, 1, 0, 100);
    event(gustlantern_call(&tables, 0, 3, GUSTLANTERN_ADD, ADDED, &value), GUSTLANTERN_ACCEPTED);
    object_holds(3, 100 - SPENT + ADDED, 1, 0, UINT32_MAX);
    event(gustlantern_call(&tables, 1, 3, GUSTLANTERN_READ, 0, &value), GUSTLANTERN_ACCEPTED);
    event(gustlantern_release(&tables, 1, 5), GUSTLANTERN_ACCEPTED);
    event(gustlantern_rollback(&tables, 0, 7, ends, sizeof ends, &value), GUSTLANTERN_ACCEPTED);
    object_holds(3, 100, 1, 1, 0);
    pair_holds(1, 3, 1, 1, 1, 1, 100 - SPENT + ADDED);
    pair_holds(1, 5, 0, 0, 0, 0, 0);
    event(gustlantern_rollback(&tables, 1, 9, ends, sizeof ends, &value), GUSTLANTERN_ACCEPTED);
    object_holds(3, 100, 1, 1, 1);
}

static void name_pair(int pair)
{
    words_named[GUSTLANTERN_PRIVATE_AT(pair)]++;
    words_named[GUSTLANTERN_SAVED_AT(pair)]++;
    bytes_named[GUSTLANTERN_SUPREMUM_AT(pair)]++;
    bytes_named[GUSTLANTERN_COUNT_AT(pair)]++;
    marks_named[GUSTLANTERN_DECLARED_AT(pair)]++;
    marks_named[GUSTLANTERN_CALLED_AT(pair)]++;
    marks_named[GUSTLANTERN_SPOILED_AT(pair)]++;
}

/* Every place has one name. */
static void places(void)
{
    for (int object = 0; object < GUSTLANTERN_OBJECTS; object++) {
        words_named[GUSTLANTERN_WORD_AT(object)]++;
        words_named[GUSTLANTERN_GLOBAL_AT(object)]++;
        words_named[GUSTLANTERN_LOCAL_AT(object)]++;
        words_named[GUSTLANTERN_TERMINAL_AT(object)]++;
    }
    for (int slot = 0; slot < GUSTLANTERN_SLOTS; slot++)
        marks_named[GUSTLANTERN_LIVE_AT(slot)]++;
    for (int pair = 0; pair < GUSTLANTERN_PAIRS; pair++)
        name_pair(pair);
    for (int place = 0; place < GUSTLANTERN_WORDS; place++)
        expect("the names of a word", words_named[place], 1);
    for (int place = 0; place < GUSTLANTERN_BYTES; place++)
        expect("the names of a byte", bytes_named[place], 1);
    for (int place = 0; place < GUSTLANTERN_MARKS; place++)
        expect("the names of a mark", marks_named[place], 1);
}

int main(void)
{
    places();
    session_w();
    return verdict();
}
