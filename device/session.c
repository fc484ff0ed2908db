/* Plays the records of a session, which are linked in, and writes the lines that the bench program writes.
 *
 * Behind the line of an accepted commit or rollback stand the bytes that it wrote, in hexadecimal. An event that changed another byte, in
 * its buffer or behind it, has a line that says so. At last stand the words of the tables' memory that are not 0, each behind its place.
 */
#include "gustlantern.h"
#include "host.h"

extern const uint8_t session_start[], session_end[];

enum { HEAD_BYTES = 4, FRESH_BYTES = 100, FRESH_KIND = 0x0100, COMMIT_KIND = 0x0104, ROLLBACK_KIND = 0x0105 };

static struct gustlantern_tables tables;

/* The buffer for ends and the rest of its last word. Every byte is AS_LENT before an event, so that one that was not written shows too. */
enum { LENT_WORDS = (GUSTLANTERN_END_BYTES + 3) / 4, AS_LENT = 0x5A, WORD_AS_LENT = 0x5A5A5A5A };
static uint32_t lent[LENT_WORDS];
static uint8_t *const ends = (uint8_t *)lent;

static uint32_t half_at(const uint8_t *bytes)
{
    return bytes[0] | (uint32_t)bytes[1] << 8;
}

static uint32_t word_at(const uint8_t *bytes)
{
    return half_at(bytes) | half_at(bytes + 2) << 16;
}

static void write_line(uint32_t event, uint32_t number, uint32_t value)
{
    char line[36];
    char *place = put_number(line, event);
    *place++ = ' ';
    place = put_number(place, number);
    *place++ = ' ';
    place = put_number(place, value);
    *place++ = '\n';
    *place = 0;
    host_write(line);
}

/* How many bytes at the front of its buffer an event may write: those of an accepted end. */
static uint32_t own_bytes(const uint8_t *record, uint32_t number, uint32_t value)
{
    uint32_t kind = number == GUSTLANTERN_ACCEPTED ? half_at(record + 2) : FRESH_KIND;
    uint32_t written = kind == COMMIT_KIND || kind == ROLLBACK_KIND ? value : 0;
    return written < GUSTLANTERN_END_BYTES ? written : GUSTLANTERN_END_BYTES;
}

/* Writes the last digits of a number in hexadecimal, at most 8, and a character behind them. */
static void write_hexadecimal(uint32_t number, uint32_t digits, char behind)
{
    char text[10];
    for (uint32_t place = digits; place-- > 0; number >>= 4)
        text[place] = "0123456789ABCDEF"[number & 15];
    text[digits] = behind;
    text[digits + 1] = 0;
    host_write(text);
}

/* Writes the bytes that an end wrote, and makes them as they were lent. */
static void take_end(uint32_t own)
{
    for (uint32_t place = 0; place < own; place++) {
        write_hexadecimal(ends[place], 2, place + 1 < own ? ' ' : '\n');
        ends[place] = AS_LENT;
    }
}

static void lend(void)
{
    for (uint32_t place = 0; place < LENT_WORDS; place++)
        lent[place] = WORD_AS_LENT;
}

static void test_lent(void)
{
    uint32_t changed = 0;
    for (uint32_t place = 0; place < LENT_WORDS; place++)
        changed |= lent[place] ^ WORD_AS_LENT;
    if (changed)
        host_write("a byte that is not its own was changed\n");
}

static void write_tables(void)
{
    const uint32_t *memory = (const uint32_t *)&tables;
    for (uint32_t place = 0; place < sizeof tables / sizeof *memory; place++)
        if (memory[place]) {
            write_hexadecimal(place, 4, ' ');
            write_hexadecimal(memory[place], 8, '\n');
        }
}

static int begins_fresh(const uint8_t *records, size_t length)
{
    return length >= HEAD_BYTES + FRESH_BYTES && half_at(records) == FRESH_BYTES && half_at(records + 2) == FRESH_KIND;
}

static void make_fresh(const uint8_t *body)
{
    uint32_t words[GUSTLANTERN_OBJECTS];
    for (uint32_t object = 0; object < GUSTLANTERN_OBJECTS; object++)
        words[object] = word_at(body + 4 + 4 * object);
    gustlantern_fresh(&tables, word_at(body), words);
}

static void play_events(const uint8_t *record)
{
    for (uint32_t event = 1; record != session_end; event++) {
        uint32_t value = 0;
        uint32_t number = gustlantern_step(&tables, record, (size_t)(session_end - record), ends, GUSTLANTERN_END_BYTES, &value);
        write_line(event, number, value);
        take_end(own_bytes(record, number, value));
        test_lent();
        if (number == GUSTLANTERN_BAD_RECORD)
            return;
        record += HEAD_BYTES + half_at(record);
    }
}

void play(void)
{
    if (!begins_fresh(session_start, (size_t)(session_end - session_start))) {
        write_line(0, GUSTLANTERN_BAD_RECORD, 0);
        return;
    }
    lend();
    make_fresh(session_start + HEAD_BYTES);
    play_events(session_start + HEAD_BYTES + FRESH_BYTES);
    write_tables();
}
