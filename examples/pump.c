/* A dispatcher with four tasks of a pump that share their words through the library.
 *
 * A slice of a task is one request, and the others run between any two. A task that is told Wait goes to the back of the
 * queue and asks again; one that is told Doomed rolls back and starts anew. The records of the ends go to a log in RAM.
 */
#include "gustlantern.h"

#include <stdio.h>

/* Interrupts are off between the two: a kernel masks them here, and on several cores takes a lock. */
#define ENTER_CRITICAL() ((void)0)
#define LEAVE_CRITICAL() ((void)0)

enum object { RATE, RESERVOIR, BOLUS_LEFT, ALARM, TOTAL, PRESSURE, NAMED };
enum { TASKS = 4, BOLUS = 100, STOPPED = 0, RAISED = 1, LOG_BYTES = 256, ENDED = 255 };

static const char *const objects[NAMED] = {"rate", "reservoir", "bolus left", "alarm", "total", "pressure"};
static const char *const kinds[] = {"read", "write", "add", "spend"};
static const char *const numbers[] = {"accepted", "bad slot", "bad object", "bad list", "busy", "idle", "not declared",
                                      "bad call", "released", "doomed", "wait", "no room", "bad record"};

struct task {
    const char *name;
    uint32_t (*slice)(struct task *); /* makes the next request and gives its number */
    uint8_t slot, turns;              /* turns: how often it still has to run */
    uint8_t at, doomed;               /* at: which request is next, or ENDED */
    uint32_t seen[NAMED];             /* the answers of its calls */
};

static struct gustlantern_tables tables;
static uint8_t log_of_ends[LOG_BYTES];
static size_t log_used;
static uint32_t tick;

static void account(const struct task *task, const char *request, const char *object)
{
    printf("%4lu  %-9s %-8s %-10s ", (unsigned long)tick, task->name, request, object);
}

static uint32_t start(struct task *task, const uint8_t *list, size_t length)
{
    ENTER_CRITICAL();
    uint32_t number = gustlantern_start(&tables, task->slot, list, length);
    LEAVE_CRITICAL();
    account(task, "start", "");
    printf("%5s  %s\n", "", numbers[number]);
    return number;
}

static uint32_t call(struct task *task, enum object object, enum gustlantern_kind kind, uint32_t argument)
{
    uint32_t *value = &task->seen[object];

    ENTER_CRITICAL();
    uint32_t number = gustlantern_call(&tables, task->slot, (uint8_t)object, (uint8_t)kind, argument, value);
    LEAVE_CRITICAL();
    account(task, kinds[kind], objects[object]);
    if (kind == GUSTLANTERN_READ)
        printf("%5s  ", "");
    else
        printf("%5lu  ", (unsigned long)argument);
    if (number == GUSTLANTERN_ACCEPTED)
        printf("%lu\n", (unsigned long)*value);
    else
        printf("%s\n", numbers[number]);
    return number;
}

/* The record of an end goes to the log, behind those before it; a refused one writes nothing, and its value is 0. */
static uint32_t end(struct task *task, int commits)
{
    uint32_t written;

    ENTER_CRITICAL();
    uint32_t number = (commits ? gustlantern_commit : gustlantern_rollback)(
        &tables, task->slot, tick, log_of_ends + log_used, sizeof log_of_ends - log_used, &written);
    log_used += written;
    LEAVE_CRITICAL();
    if (number == GUSTLANTERN_ACCEPTED)
        task->at = ENDED;
    account(task, commits ? "commit" : "rollback", "");
    printf("%5s  %s\n", "", numbers[number]);
    return number;
}

/* What the rate says is spent and counted; nothing is where the reservoir has too little. */
static uint32_t infusion(struct task *task)
{
    static const uint8_t list[] = {RATE, 1, RESERVOIR, 1, TOTAL, 1};

    switch (task->at) {
    case 0: return start(task, list, sizeof list);
    case 1: return call(task, RATE, GUSTLANTERN_READ, 0);
    case 2: return call(task, RESERVOIR, GUSTLANTERN_SPEND, task->seen[RATE]);
    case 3: return call(task, TOTAL, GUSTLANTERN_ADD, task->seen[RESERVOIR] ? task->seen[RATE] : 0);
    default: return end(task, 1);
    }
}

/* The reservoir's supremum is 1: its only call lets it go, and the next task need not wait for the end. */
static uint32_t bolus(struct task *task)
{
    static const uint8_t list[] = {RESERVOIR, 1, BOLUS_LEFT, 1, TOTAL, 1};

    switch (task->at) {
    case 0: return start(task, list, sizeof list);
    case 1: return call(task, BOLUS_LEFT, GUSTLANTERN_SPEND, 1);
    case 2: return task->seen[BOLUS_LEFT] ? call(task, RESERVOIR, GUSTLANTERN_SPEND, BOLUS) : end(task, 0);
    case 3: return task->seen[RESERVOIR] ? call(task, TOTAL, GUSTLANTERN_ADD, BOLUS) : end(task, 0);
    default: return end(task, 1);
    }
}

/* Stops the pump, and takes that back since the line turns out to be free. */
static uint32_t alarm(struct task *task)
{
    static const uint8_t list[] = {RATE, 1, ALARM, 1, PRESSURE, 1};

    switch (task->at) {
    case 0: return start(task, list, sizeof list);
    case 1: return call(task, PRESSURE, GUSTLANTERN_READ, 0);
    case 2: return call(task, RATE, GUSTLANTERN_WRITE, STOPPED);
    case 3: return call(task, ALARM, GUSTLANTERN_WRITE, RAISED);
    default: return end(task, 0);
    }
}

static uint32_t display(struct task *task)
{
    static const uint8_t list[] = {RATE, 1, RESERVOIR, 1, ALARM, 1, TOTAL, 1};

    switch (task->at) {
    case 0: return start(task, list, sizeof list);
    case 1: return call(task, RATE, GUSTLANTERN_READ, 0);
    case 2: return call(task, RESERVOIR, GUSTLANTERN_READ, 0);
    case 3: return call(task, ALARM, GUSTLANTERN_READ, 0);
    case 4: return call(task, TOTAL, GUSTLANTERN_READ, 0);
    default: return end(task, 1);
    }
}

static struct task *queue[TASKS];
static size_t head, queued;

static void put(struct task *task)
{
    queue[(head + queued++) % TASKS] = task;
}

static struct task *take(void)
{
    struct task *task = queue[head];

    head = (head + 1) % TASKS;
    queued--;
    return task;
}

/* Behind an accepted request comes the next one, behind an end the next turn; a doomed turn is run again. */
static void go_on(struct task *task)
{
    if (task->at != ENDED) {
        task->at++;
        return;
    }
    task->at = 0;
    if (!task->doomed)
        task->turns--;
    task->doomed = 0;
}

static int run_slice(struct task *task)
{
    uint32_t number = task->doomed ? end(task, 0) : task->slice(task);

    switch (number) {
    case GUSTLANTERN_ACCEPTED: go_on(task); return 1;
    case GUSTLANTERN_DOOMED: task->doomed = 1; return 1;
    case GUSTLANTERN_WAIT: /* until those before it are done */
    case GUSTLANTERN_NO_ROOM: return 1; /* until the log is read out */
    default: return 0; /* the task asked for what it may not */
    }
}

static int dispatch(void)
{
    printf("tick  task      request  object     given  answer\n");
    while (queued) {
        struct task *task = take();
        tick++;
        if (!run_slice(task))
            return 0;
        if (task->turns)
            put(task);
    }
    return 1;
}

static unsigned long word_at(const uint8_t *bytes)
{
    return bytes[0] | bytes[1] << 8 | bytes[2] << 16 | (unsigned long)bytes[3] << 24;
}

/* The record of an end in words, with the versions of its objects; the result is the length of the record. */
static size_t print_end(const uint8_t *record, const char *const names[])
{
    const uint8_t *entry = record + 10;

    printf("tick %lu: %s %s with", word_at(record + 4), names[record[8]], record[2] == 1 ? "committed" : "rolled back");
    for (unsigned left = record[9]; left; left--, entry += 5)
        printf(" %s %lu%s", objects[entry[0]], word_at(entry + 1), left > 1 ? "," : "\n");
    return (size_t)(entry - record);
}

int main(void)
{
    static const uint32_t words[GUSTLANTERN_OBJECTS] = {[RATE] = 30, [RESERVOIR] = 500, [BOLUS_LEFT] = 1, [PRESSURE] = 95};
    static struct task tasks[TASKS] = {{.name = "bolus", .slice = bolus, .slot = 3, .turns = 1},
                                       {.name = "alarm", .slice = alarm, .slot = 6, .turns = 1},
                                       {.name = "infusion", .slice = infusion, .slot = 0, .turns = 2},
                                       {.name = "display", .slice = display, .slot = 9, .turns = 1}};
    const char *names[GUSTLANTERN_SLOTS] = {0};
    struct gustlantern_object seen;

    gustlantern_fresh(&tables, 4294967294u, words);
    for (size_t place = 0; place < TASKS; place++) {
        names[tasks[place].slot] = tasks[place].name;
        put(&tasks[place]);
    }
    int good = dispatch();
    printf("\nthe log\n");
    for (size_t place = 0; place < log_used;)
        place += print_end(log_of_ends + place, names);
    printf("\nthe words\n");
    for (uint8_t object = 0; object < NAMED; object++)
        if (gustlantern_look_object(&tables, object, &seen) == GUSTLANTERN_ACCEPTED)
            printf("%s: %lu\n", objects[object], (unsigned long)seen.word);
    return !good;
}
