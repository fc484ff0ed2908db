/* Plays the records of standard input by the rules of the bench program and prints its lines.
 *
 *     session records      hands each record to the library as it is
 *     session fields       takes each record apart here and calls the function of its event
 *
 * Standard error gets the bytes of every end, and at last what the tables hold. It ends with 1, and a line that says so,
 * where an event changed a byte that it may not.
 */
#include "lent.h"

#include <stdio.h>
#include <stdlib.h>

enum { HEAD_BYTES = 4, LONGEST_BODY = 126, FRESH_BODY = 100, INPUT_BYTES = 1 << 20 };

enum record_kind { FRESH = 0x0100, START, CALL, RELEASE, COMMIT, ROLLBACK };

static uint8_t input[INPUT_BYTES + 1], input_before[INPUT_BYTES];

static uint32_t half_at(const uint8_t *bytes)
{
    return bytes[0] | (uint32_t)bytes[1] << 8;
}

static uint32_t word_at(const uint8_t *bytes)
{
    return half_at(bytes) | half_at(bytes + 2) << 16;
}

static void fail(const char *why)
{
    printf("%s\n", why);
    exit(1);
}

/* Whether a record's head and body are all there. */
static int has_frame(const uint8_t *record, size_t length)
{
    return length >= HEAD_BYTES && half_at(record) <= LONGEST_BODY && length - HEAD_BYTES >= half_at(record);
}

static uint32_t by_record(const uint8_t *record, size_t length)
{
    return gustlantern_step(&lent.tables, record, length, lent.ends, sizeof lent.ends, &lent.value);
}

static uint32_t end_by_fields(enum record_kind kind, const uint8_t *body)
{
    return (kind == COMMIT ? gustlantern_commit : gustlantern_rollback)(&lent.tables, body[0], word_at(body + 1), lent.ends,
                                                                        sizeof lent.ends, &lent.value);
}

static uint32_t by_fields(const uint8_t *record, size_t length)
{
    const uint8_t *body = record + HEAD_BYTES;
    uint32_t bytes = has_frame(record, length) ? half_at(record) : 0;
    enum record_kind kind = bytes ? (enum record_kind)half_at(record + 2) : FRESH;

    if (kind == CALL && bytes == 8 && body[3] == 0)
        return gustlantern_call(&lent.tables, body[0], body[1], body[2], word_at(body + 4), &lent.value);
    if ((kind == COMMIT || kind == ROLLBACK) && bytes == 5)
        return end_by_fields(kind, body);
    lent.value = 0;
    if (kind == START && bytes >= 2 && bytes == 2 + 2 * (uint32_t)body[1])
        return gustlantern_start(&lent.tables, body[0], body + 2, bytes - 2);
    if (kind == RELEASE && bytes == 2)
        return gustlantern_release(&lent.tables, body[0], body[1]);
    return GUSTLANTERN_BAD_RECORD;
}

static void make_fresh(const uint8_t *body)
{
    uint32_t words[GUSTLANTERN_OBJECTS];

    for (int object = 0; object < GUSTLANTERN_OBJECTS; object++)
        words[object] = word_at(body + 4 + 4 * object);
    lend();
    keep();
    gustlantern_fresh(&lent.tables, word_at(body), words);
    lent.value = UNSET;
    if (!changed_only_its_own(GUSTLANTERN_ACCEPTED, 0))
        fail("fresh tables changed a byte that is not theirs");
}

/* The bytes that an accepted end wrote; every other event writes none. */
static size_t written_by(const uint8_t *record, uint32_t number)
{
    uint32_t kind = number == GUSTLANTERN_ACCEPTED ? half_at(record + 2) : FRESH;
    size_t written = kind == COMMIT || kind == ROLLBACK ? lent.value : 0;

    if (written > sizeof lent.ends)
        fail("an end is longer than its buffer");
    return written;
}

static void report_end(size_t written)
{
    for (size_t place = 0; place < written; place++)
        fprintf(stderr, "%02X%s", lent.ends[place], place + 1 < written ? " " : "\n");
}

static void report_pair(uint8_t slot, uint8_t object)
{
    static const struct gustlantern_pair nothing;
    struct gustlantern_pair seen;

    if (gustlantern_look_pair(&lent.tables, slot, object, &seen) != GUSTLANTERN_ACCEPTED)
        fail("a look at a pair is refused");
    if (memcmp(&seen, &nothing, sizeof seen) != 0)
        fprintf(stderr, "pair %u %u: %u %u %u %u %u %u %u %u\n", (unsigned)slot, (unsigned)object, seen.live, seen.declared,
                seen.supremum, seen.private_version, seen.count, seen.called, seen.spoiled, seen.saved);
}

/* Every object, and every pair that is not all zero. */
static void report_tables(void)
{
    struct gustlantern_object seen;

    for (uint8_t object = 0; object < GUSTLANTERN_OBJECTS; object++) {
        if (gustlantern_look_object(&lent.tables, object, &seen) != GUSTLANTERN_ACCEPTED)
            fail("a look at an object is refused");
        fprintf(stderr, "object %u: %u %u %u %u\n", (unsigned)object, seen.word, seen.global, seen.local, seen.terminal);
    }
    for (uint8_t slot = 0; slot < GUSTLANTERN_SLOTS; slot++)
        for (uint8_t object = 0; object < GUSTLANTERN_OBJECTS; object++)
            report_pair(slot, object);
}

static void play(uint32_t (*event)(const uint8_t *, size_t), const uint8_t *record, size_t length)
{
    if (!has_frame(record, length) || half_at(record) != FRESH_BODY || half_at(record + 2) != FRESH) {
        printf("0 %d 0\n", GUSTLANTERN_BAD_RECORD);
        return;
    }
    make_fresh(record + HEAD_BYTES);
    for (unsigned long count = 1;; count++) {
        size_t taken = HEAD_BYTES + half_at(record);
        record += taken;
        length -= taken;
        if (length == 0)
            break;
        keep();
        uint32_t number = event(record, length);
        size_t written = written_by(record, number);
        printf("%lu %u %u\n", count, number, lent.value);
        if (!changed_only_its_own(number, written))
            fail("an event changed a byte that is not its own");
        report_end(written);
        if (number == GUSTLANTERN_BAD_RECORD)
            break;
    }
    report_tables();
    if (!gustlantern_marks_hold(&lent.tables))
        fail("a mark is neither 0 nor 1");
}

int main(int count, char **words)
{
    size_t length = fread(input, 1, sizeof input, stdin);

    if (length > INPUT_BYTES)
        fail("the input is too long");
    memcpy(input_before, input, length);
    play(count == 2 && strcmp(words[1], "fields") == 0 ? by_fields : by_record, input, length);
    if (memcmp(input_before, input, length) != 0)
        fail("a byte of the input was changed");
    return 0;
}
