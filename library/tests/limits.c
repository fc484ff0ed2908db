/* Both sides of every limit, through the functions of the header; a refusal leaves every byte. */
#include "expect.h"
#include "lent.h"

enum { END_HEAD = 10, COMMITTED = 0x01, ROLLED_BACK = 0x02, HIGHEST = 255 };

static void fresh(uint32_t first)
{
    uint32_t words[GUSTLANTERN_OBJECTS] = {0};

    words[3] = 100;
    lend();
    gustlantern_fresh(&lent.tables, first, words);
    keep();
}

/* The number of the last event, and that it changed nothing else than it may. */
static void answered(const char *what, uint32_t number, uint32_t wanted, size_t written)
{
    expect(what, number, wanted);
    expect(what, (uint32_t)changed_only_its_own(number, written), 1);
    keep();
}

static void start(const char *what, uint8_t slot, const uint8_t *list, size_t length, uint32_t wanted)
{
    answered(what, gustlantern_start(&lent.tables, slot, list, length), wanted, 0);
}

static void call(const char *what, uint8_t slot, uint8_t object, uint8_t kind, uint32_t wanted, uint32_t value)
{
    uint32_t number = gustlantern_call(&lent.tables, slot, object, kind, 40, &lent.value);

    expect(what, lent.value, value);
    answered(what, number, wanted, 0);
}

static void release(const char *what, uint8_t slot, uint8_t object, uint32_t wanted)
{
    answered(what, gustlantern_release(&lent.tables, slot, object), wanted, 0);
}

typedef uint32_t end_function(struct gustlantern_tables *, uint8_t, uint32_t, uint8_t *, size_t, uint32_t *);

static void end(const char *what, end_function *ends, uint8_t slot, size_t room, uint32_t wanted, uint32_t value)
{
    uint32_t number = ends(&lent.tables, slot, 7, lent.ends, room, &lent.value);

    expect(what, lent.value, value);
    answered(what, number, wanted, value);
}

static void lists(void)
{
    uint8_t list[52];
    static const size_t refused[] = {0, 1, 47, 49, 50, 51, 52};

    for (uint8_t place = 0; place < sizeof list; place++)
        list[place] = place % 2 ? 1 : place / 2;
    fresh(0);
    for (size_t place = 0; place < sizeof refused / sizeof *refused; place++)
        start("a list of no whole or too many pairs", 0, list, refused[place], GUSTLANTERN_BAD_LIST);
    start("a list of 48 bytes", 0, list, 48, GUSTLANTERN_ACCEPTED);
    start("a list of 48 bytes, again", 0, list, 48, GUSTLANTERN_BUSY);
    start("a list of 2 bytes", 1, list, 2, GUSTLANTERN_ACCEPTED);
    list[2] = 0;
    start("a list that does not rise", 2, list, 4, GUSTLANTERN_BAD_LIST);
    list[0] = 24;
    start("object 24 in a list", 2, list, 4, GUSTLANTERN_BAD_OBJECT);
    list[0] = 23;
    start("object 23 in a list", 2, list, 2, GUSTLANTERN_ACCEPTED);
}

static void slots(void)
{
    static const uint8_t list[] = {3, 0}, numbers[] = {15, 16, 17, 255};

    for (size_t place = 0; place < sizeof numbers; place++) {
        uint8_t slot = numbers[place];
        int good = slot < GUSTLANTERN_SLOTS;
        fresh(0);
        start("a start at a slot", slot, list, sizeof list, good ? 0 : GUSTLANTERN_BAD_SLOT);
        call("a call at a slot", slot, 3, GUSTLANTERN_READ, good ? 0 : GUSTLANTERN_BAD_SLOT, good ? 100 : 0);
        release("a release at a slot", slot, 3, good ? 0 : GUSTLANTERN_BAD_SLOT);
        end("a commit at a slot", gustlantern_commit, slot, 130, good ? 0 : GUSTLANTERN_BAD_SLOT, good ? 15 : 0);
        end("a rollback at a slot", gustlantern_rollback, slot, 130, good ? GUSTLANTERN_IDLE : GUSTLANTERN_BAD_SLOT, 0);
    }
}

static void objects_and_kinds(void)
{
    static const uint8_t list[] = {3, 0, 23, 0};

    fresh(0);
    start("a start", 0, list, sizeof list, GUSTLANTERN_ACCEPTED);
    call("object 23", 0, 23, GUSTLANTERN_ADD, GUSTLANTERN_ACCEPTED, 40);
    call("object 24", 0, 24, GUSTLANTERN_ADD, GUSTLANTERN_BAD_OBJECT, 0);
    call("object 255", 0, HIGHEST, GUSTLANTERN_ADD, GUSTLANTERN_BAD_OBJECT, 0);
    call("object 22", 0, 22, GUSTLANTERN_ADD, GUSTLANTERN_NOT_DECLARED, 0);
    release("object 24 released", 0, 24, GUSTLANTERN_BAD_OBJECT);
    release("object 255 released", 0, HIGHEST, GUSTLANTERN_BAD_OBJECT);
    release("object 23 released", 0, 23, GUSTLANTERN_ACCEPTED);
    release("object 23 released again", 0, 23, GUSTLANTERN_RELEASED);
    call("kind 3", 0, 3, 3, GUSTLANTERN_ACCEPTED, 1);
    call("kind 4", 0, 3, 4, GUSTLANTERN_BAD_CALL, 0);
    call("kind 255", 0, 3, HIGHEST, GUSTLANTERN_BAD_CALL, 0);
    call("kind 0", 0, 3, 0, GUSTLANTERN_ACCEPTED, 60);
}

static void rooms_of(end_function *ends)
{
    uint8_t list[2 * GUSTLANTERN_OBJECTS] = {3, 1};
    static const size_t short_rooms[] = {0, 1, 9, 14};

    fresh(0);
    start("a start of one object", 2, list, 2, GUSTLANTERN_ACCEPTED);
    call("a call before an end", 2, 3, GUSTLANTERN_SPEND, GUSTLANTERN_ACCEPTED, 1);
    for (size_t place = 0; place < sizeof short_rooms / sizeof *short_rooms; place++)
        end("a room of at most 14", ends, 2, short_rooms[place], GUSTLANTERN_NO_ROOM, 0);
    end("a room of 15", ends, 2, 15, GUSTLANTERN_ACCEPTED, 15);
    for (uint8_t place = 0; place < sizeof list; place++)
        list[place] = place % 2 ? 1 : place / 2;
    start("a start of all objects", 2, list, sizeof list, GUSTLANTERN_ACCEPTED);
    end("a room of 129", ends, 2, GUSTLANTERN_END_BYTES - 1, GUSTLANTERN_NO_ROOM, 0);
    end("a room of 130", ends, 2, GUSTLANTERN_END_BYTES, GUSTLANTERN_ACCEPTED, GUSTLANTERN_END_BYTES);
}

static void step(const char *what, const uint8_t *record, size_t length, size_t room, uint32_t wanted, uint32_t value)
{
    uint32_t number = gustlantern_step(&lent.tables, record, length, lent.ends, room, &lent.value);

    expect(what, lent.value, value);
    answered(what, number, wanted, record[2] >= 4 ? value : 0);
}

static void records(void)
{
    static const uint8_t begin[] = {4, 0, 1, 1, 0, 1, 3, 2, 99}, finish[] = {5, 0, 5, 1, 0, 7, 0, 0, 0};

    fresh(UINT32_MAX);
    step("no byte", begin, 0, 130, GUSTLANTERN_BAD_RECORD, 0);
    step("a start cut short", begin, 7, 130, GUSTLANTERN_BAD_RECORD, 0);
    step("a start with a byte behind it", begin, sizeof begin, 0, GUSTLANTERN_ACCEPTED, 0);
    step("an end with room 14", finish, sizeof finish, 14, GUSTLANTERN_NO_ROOM, 0);
    step("an end with room 15", finish, sizeof finish, 15, GUSTLANTERN_ACCEPTED, 15);
}

static void marks(void)
{
    fresh(0);
    expect("fresh marks", gustlantern_marks_hold(&lent.tables), 1);
    for (size_t place = 0; place < GUSTLANTERN_MARKS; place++) {
        lent.tables.marks[place] = 1;
        expect("a mark of 1", gustlantern_marks_hold(&lent.tables), 1);
        lent.tables.marks[place] = 2;
        expect("a mark of 2", gustlantern_marks_hold(&lent.tables), 0);
        lent.tables.marks[place] = HIGHEST;
        expect("a mark of 255", gustlantern_marks_hold(&lent.tables), 0);
        lent.tables.marks[place] = 0;
    }
    lent.value = UNSET;
    expect("a question changes nothing", (uint32_t)changed_only_its_own(GUSTLANTERN_BAD_RECORD, 0), 1);
}

static void looks(void)
{
    struct gustlantern_object object = {1, 2, 3, 4};
    struct gustlantern_pair pair = {1, 2, 3, 4, 5, 6, 7, 8};

    fresh(9);
    expect("a look at object 24", gustlantern_look_object(&lent.tables, 24, &object), GUSTLANTERN_BAD_OBJECT);
    expect("a look at object 255", gustlantern_look_object(&lent.tables, HIGHEST, &object), GUSTLANTERN_BAD_OBJECT);
    expect("what is not seen stays", object.word == 1 && object.global == 2 && object.local == 3 && object.terminal == 4, 1);
    expect("a look at object 23", gustlantern_look_object(&lent.tables, 23, &object), GUSTLANTERN_ACCEPTED);
    expect("object 23", object.word == 0 && object.global == 9 && object.local == 9 && object.terminal == 9, 1);
    expect("a look at object 24 of slot 15", gustlantern_look_pair(&lent.tables, 15, 24, &pair), GUSTLANTERN_BAD_OBJECT);
    expect("a look at slot 16", gustlantern_look_pair(&lent.tables, 16, 23, &pair), GUSTLANTERN_BAD_SLOT);
    expect("a look at pair 255", gustlantern_look_pair(&lent.tables, HIGHEST, HIGHEST, &pair), GUSTLANTERN_BAD_SLOT);
    expect("the first of what is not seen", pair.live, 1);
    expect("the last of what is not seen", pair.saved, 8);
    expect("a look at the last pair", gustlantern_look_pair(&lent.tables, 15, 23, &pair), GUSTLANTERN_ACCEPTED);
    expect("the last pair", pair.live | pair.declared | pair.private_version | pair.saved, 0);
    expect("looks change nothing", (uint32_t)changed_only_its_own(GUSTLANTERN_BAD_SLOT, 0), 1);
}

/* An end record of one object. */
static const uint8_t *one_entry(uint8_t *record, uint8_t kind, uint8_t object, uint32_t version)
{
    uint8_t bytes[END_HEAD + 5] = {11, 0, kind, 2, 7, 0, 0, 0, 0, 1, object};

    for (int place = 0; place < 4; place++)
        bytes[END_HEAD + 1 + place] = (uint8_t)(version >> 8 * place);
    return memcpy(record, bytes, sizeof bytes);
}

static void order(const char *what, uint32_t first, uint32_t second, uint32_t wanted)
{
    uint8_t a[END_HEAD + 5], b[END_HEAD + 5];
    uint32_t found = UNSET;

    one_entry(a, COMMITTED, 3, first);
    one_entry(b, ROLLED_BACK, 3, second);
    expect(what, gustlantern_came_first(a, sizeof a, b, sizeof b, &found), GUSTLANTERN_ACCEPTED);
    expect(what, found, wanted);
}

static void orders(void)
{
    uint8_t a[END_HEAD + 5], b[END_HEAD + 5];
    uint32_t found = UNSET;

    order("the next version", 4294967295u, 0, GUSTLANTERN_FIRST_A);
    order("the version before", 0, 4294967295u, GUSTLANTERN_FIRST_B);
    order("one version", 8, 8, GUSTLANTERN_SAME);
    order("less than half the turnover", 5, 5u + 2147483647u, GUSTLANTERN_FIRST_A);
    order("half the turnover", 5, 5u + 2147483648u, GUSTLANTERN_FAR);
    order("more than half the turnover", 5, 5u + 2147483649u, GUSTLANTERN_FIRST_B);
    one_entry(a, COMMITTED, 3, 1);
    one_entry(b, COMMITTED, 4, 1);
    expect("other objects", gustlantern_came_first(a, sizeof a, b, sizeof b, &found), GUSTLANTERN_ACCEPTED);
    expect("other objects", found, GUSTLANTERN_UNRELATED);
    expect("a cut short", gustlantern_came_first(a, sizeof a - 1, b, sizeof b, &found), GUSTLANTERN_BAD_RECORD);
    expect("a cut short", found, 0);
    found = UNSET;
    expect("no byte of b", gustlantern_came_first(a, sizeof a, b, 0, &found), GUSTLANTERN_BAD_RECORD);
    expect("no byte of b", found, 0);
    one_entry(b, COMMITTED, 24, 1);
    expect("object 24 of b", gustlantern_came_first(a, sizeof a, b, sizeof b, &found), GUSTLANTERN_BAD_RECORD);
}

int main(void)
{
    lists();
    slots();
    objects_and_kinds();
    rooms_of(gustlantern_commit);
    rooms_of(gustlantern_rollback);
    records();
    marks();
    looks();
    orders();
    return verdict();
}
