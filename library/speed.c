/* Plays the events of a session many times over and prints what one of them takes.
 *
 *     speed FILE ROUNDS fields      calls the function of each event
 *     speed FILE ROUNDS bytes       hands each record to the library as it is
 *
 * It prints a checksum of one round's answers and the nanoseconds per event, in the words of the reference's program of
 * the same name. Every round begins with a copy of the fresh tables; making it is not in the time, and neither is
 * taking the records apart.
 */
#define _POSIX_C_SOURCE 199309L

#include "gustlantern.h"

#include <inttypes.h>
#include <stdio.h>
#include <stdlib.h>
#include <string.h>
#include <time.h>

enum { HEAD_BYTES = 4, FRESH_BODY = 100, MOST_BYTES = 1 << 16, MOST_EVENTS = 1 << 12 };

enum record_kind { FRESH = 0x0100, START, CALL, RELEASE, COMMIT, ROLLBACK };

enum way { FIELDS, BYTES };

struct event {
    const uint8_t *record, *list;
    size_t length, list_length;
    enum record_kind kind;
    uint32_t argument, tick;
    uint8_t slot, object, call;
};

static uint8_t input[MOST_BYTES], ends[GUSTLANTERN_END_BYTES];
static struct event events[MOST_EVENTS];
static size_t count;
static struct gustlantern_tables fresh, tables;

static void fail(const char *why)
{
    fprintf(stderr, "speed: %s\n", why);
    exit(1);
}

static uint32_t half_at(const uint8_t *bytes)
{
    return bytes[0] | (uint32_t)bytes[1] << 8;
}

static uint32_t word_at(const uint8_t *bytes)
{
    return half_at(bytes) | half_at(bytes + 2) << 16;
}

static size_t read_file(const char *name)
{
    FILE *file = fopen(name, "rb");
    size_t length;

    if (!file)
        fail("the session can't be read");
    length = fread(input, 1, sizeof input, file);
    fclose(file);
    return length;
}

/* The fields of a record that is an event's, of whatever kind. */
static struct event taken_apart(const uint8_t *record)
{
    const uint8_t *body = record + HEAD_BYTES;
    struct event event = {.record = record, .length = HEAD_BYTES + half_at(record), .slot = body[0], .object = body[1]};

    event.kind = (enum record_kind)half_at(record + 2);
    if (event.kind == START) {
        event.list = body + 2;
        event.list_length = 2 * (size_t)body[1];
    } else if (event.kind == CALL) {
        event.call = body[2];
        event.argument = word_at(body + 4);
    } else if (event.kind == COMMIT || event.kind == ROLLBACK) {
        event.tick = word_at(body + 1);
    } else if (event.kind != RELEASE) {
        fail("the session has a record that is no event");
    }
    return event;
}

static void make_fresh(const uint8_t *body)
{
    uint32_t words[GUSTLANTERN_OBJECTS];

    for (int object = 0; object < GUSTLANTERN_OBJECTS; object++)
        words[object] = word_at(body + 4 + 4 * object);
    gustlantern_fresh(&fresh, word_at(body), words);
}

static void prepare(size_t length)
{
    size_t place = HEAD_BYTES + FRESH_BODY;

    if (length < place || half_at(input) != FRESH_BODY || half_at(input + 2) != FRESH)
        fail("the session does not begin with fresh");
    make_fresh(input + HEAD_BYTES);
    while (place < length && count < MOST_EVENTS) {
        events[count] = taken_apart(input + place);
        place += events[count++].length;
    }
    if (place != length)
        fail("the session is torn or too long");
}

static uint32_t by_fields(const struct event *event, uint32_t *value)
{
    switch (event->kind) {
    case CALL:
        return gustlantern_call(&tables, event->slot, event->object, event->call, event->argument, value);
    case COMMIT:
        return gustlantern_commit(&tables, event->slot, event->tick, ends, sizeof ends, value);
    case ROLLBACK:
        return gustlantern_rollback(&tables, event->slot, event->tick, ends, sizeof ends, value);
    case START:
        *value = 0;
        return gustlantern_start(&tables, event->slot, event->list, event->list_length);
    default:
        *value = 0;
        return gustlantern_release(&tables, event->slot, event->object);
    }
}

static uint32_t play(enum way way, const struct event *event, uint32_t *value)
{
    if (way == FIELDS)
        return by_fields(event, value);
    return gustlantern_step(&tables, event->record, event->length, ends, sizeof ends, value);
}

static uint64_t now(void)
{
    struct timespec time;

    clock_gettime(CLOCK_MONOTONIC, &time);
    return (uint64_t)time.tv_sec * 1000000000u + (uint64_t)time.tv_nsec;
}

static uint64_t timed_round(enum way way)
{
    uint32_t value;
    uint64_t begin;

    tables = fresh;
    begin = now();
    for (size_t place = 0; place < count; place++)
        play(way, &events[place], &value);
    return now() - begin;
}

/* The numbers and values of one round, each as a word that is mixed in by FNV-1a. */
static uint64_t checksum(enum way way)
{
    uint64_t sum = 0xcbf29ce484222325u;

    tables = fresh;
    for (size_t place = 0; place < count; place++) {
        uint32_t value, number = play(way, &events[place], &value);
        sum = (sum ^ number) * 0x100000001b3u;
        sum = (sum ^ value) * 0x100000001b3u;
    }
    return sum;
}

int main(int words, char **word)
{
    unsigned long rounds = words == 4 ? strtoul(word[2], NULL, 10) : 0;
    enum way way = rounds && strcmp(word[3], "bytes") == 0 ? BYTES : FIELDS;
    uint64_t time = 0;

    if (!rounds || (way == FIELDS && strcmp(word[3], "fields") != 0))
        fail("usage: speed FILE ROUNDS fields|bytes");
    prepare(read_file(word[1]));
    for (unsigned long round = 0; round < rounds; round++)
        time += timed_round(way);
    printf("events: %lu (%lu in %lu rounds)\n", (unsigned long)count * rounds, (unsigned long)count, rounds);
    printf("checksum of the answers to events by their %s: %016" PRIx64 "\n", word[3], checksum(way));
    printf("nanoseconds per event by its %s: %.1f\n", word[3], (double)time / ((double)count * (double)rounds));
    return 0;
}
