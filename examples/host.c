/* A host that lends its tables to Kamrduch: eight tasks, a scheduler that runs them in random order with interrupts masked around
 * each call, and a rebalance going. It prints what happened, the same at every run. */
#include "../include/kamrduch.h"

#include <inttypes.h>
#include <stdio.h>

/* ---- what the host has: the tables, an interrupt mask, chance */
static struct {
    uint64_t directory[KAMRDUCH_DIRECTORY_LENGTH];
    uint64_t tasks[KAMRDUCH_TASKS_LENGTH];
    uint64_t chunks[KAMRDUCH_CHUNKS_LENGTH];
    uint64_t entries[KAMRDUCH_ENTRIES_LENGTH];
    uint64_t values[KAMRDUCH_VALUES_LENGTH];
    uint64_t marks[KAMRDUCH_MARKS_LENGTH];
} host;

static uint64_t answer[KAMRDUCH_ANSWER_LENGTH];
static int masked;
static unsigned long masks;

static void mask(void)
{
    masked = 1;
    masks++;
}

static void unmask(void)
{
    masked = 0;
}

static uint64_t chance(uint64_t below)
{
    static uint64_t x = UINT64_C(0x9e3779b97f4a7c15);
    x ^= x << 13;
    x ^= x >> 7;
    x ^= x << 17;
    return x % below;
}

/* ---- the calls, each with interrupts masked */
#define TABLES                                                                                                        \
    host.directory, KAMRDUCH_DIRECTORY_LENGTH, host.tasks, KAMRDUCH_TASKS_LENGTH, host.chunks, KAMRDUCH_CHUNKS_LENGTH, \
        host.entries, KAMRDUCH_ENTRIES_LENGTH, host.values, KAMRDUCH_VALUES_LENGTH, host.marks, KAMRDUCH_MARKS_LENGTH

static uint64_t fresh(void)
{
    mask();
    uint64_t report = kamrduch_fresh(TABLES, answer, KAMRDUCH_ANSWER_LENGTH);
    unmask();
    return report;
}

static uint64_t start(uint64_t n, uint64_t operation, uint64_t key, uint64_t argument, uint64_t function)
{
    mask();
    uint64_t report = kamrduch_start(TABLES, n, operation, key, argument, function, answer, KAMRDUCH_ANSWER_LENGTH);
    unmask();
    return report;
}

static uint64_t step(uint64_t n)
{
    mask();
    uint64_t report = kamrduch_step(TABLES, n, answer, KAMRDUCH_ANSWER_LENGTH);
    unmask();
    return report;
}

static uint64_t begin(uint64_t key)
{
    mask();
    uint64_t report = kamrduch_begin(TABLES, key, answer, KAMRDUCH_ANSWER_LENGTH);
    unmask();
    return report;
}

static uint64_t rebalance(void)
{
    mask();
    uint64_t report = kamrduch_rebalance(TABLES, answer, KAMRDUCH_ANSWER_LENGTH);
    unmask();
    return report;
}

/* ---- what happened */
static const char *const operations[] = {"", "get", "put", "putIfAbsent", "upsert", "compute", "remove", "scan", "scan down"};
enum { KINDS = sizeof operations / sizeof *operations };
static unsigned long asked[KINDS], value[KINDS], absent[KINDS], done[KINDS], yes[KINDS], no[KINDS];
static unsigned long frozen, full, lost, pairs, refused[11];
static unsigned long begun, waited, released;
static const unsigned long ANY = (unsigned long)-1;

static void count(uint64_t operation, uint64_t report)
{
    switch (report) {
    case KAMRDUCH_REFUSED: refused[answer[0]]++; break;
    case KAMRDUCH_RESTARTED_FROZEN: frozen++; break;
    case KAMRDUCH_RESTARTED_FULL: full++; break;
    case KAMRDUCH_RESTARTED_LOST: lost++; break;
    case KAMRDUCH_PAIR: pairs++; break;
    case KAMRDUCH_FINISHED_VALUE: value[operation]++; break;
    case KAMRDUCH_FINISHED_ABSENT: absent[operation]++; break;
    case KAMRDUCH_FINISHED_DONE: done[operation]++; break;
    case KAMRDUCH_FINISHED_TRUE: yes[operation]++; break;
    case KAMRDUCH_FINISHED_FALSE: no[operation]++; break;
    default: break;
    }
}

/* a task's turn: an idle one is given an operation, a busy one takes a step */
static uint64_t turn(uint64_t n, int more)
{
    uint64_t *row = host.tasks + n * KAMRDUCH_TASK_WORDS;
    uint64_t operation = row[KAMRDUCH_TASK_OPERATION], report = KAMRDUCH_MOVED_ON;
    if (row[KAMRDUCH_TASK_STAGE] != 0) {
        report = step(n);
        count(operation, report);
    } else if (more) {
        uint64_t key = chance(400);
        operation = 1 + chance(KINDS - 1);
        uint64_t argument = operation >= KAMRDUCH_SCAN ? key + 25 : chance(1000);
        uint64_t function = 1 + chance(3);
        asked[operation]++;
        count(operation, start(n, operation, key, argument, function));
    }
    return report;
}

/* a turn of the rebalancer: of the chunk of a key, where none is under way */
static void balance(uint64_t key)
{
    uint64_t report;
    if (host.directory[KAMRDUCH_DIRECTORY_STAGE] == KAMRDUCH_TO_BEGIN) {
        report = begin(key);
        begun += report == KAMRDUCH_MOVED_ON;
    } else {
        report = rebalance();
        waited += report == KAMRDUCH_WAITING;
        released += report == KAMRDUCH_REBALANCE_FINISHED;
    }
    if (report == KAMRDUCH_REFUSED)
        refused[answer[0]]++;
}

/* a scan from one key to another, both counted, alone: keys that strictly rise, or fall, and what they are worth together; true
 * where as many are present as expected */
static int list(uint64_t scan, uint64_t from, uint64_t to, unsigned long expected)
{
    unsigned long present = 0, steps = 0;
    uint64_t last = 0, sum = 0, report = start(0, scan, from, to, 0);
    while (report == KAMRDUCH_MOVED_ON || report == KAMRDUCH_PAIR) {
        report = step(0);
        steps++;
        if (report == KAMRDUCH_PAIR) {
            if (present != 0 && (scan == KAMRDUCH_SCAN ? answer[0] <= last : answer[0] >= last))
                return 0;
            last = answer[0];
            sum += answer[1];
            present++;
        }
    }
    printf("%s: %lu keys present, ", operations[scan], present);
    if (present != 0)
        printf("the last %" PRIu64 ", values' sum %" PRIu64 ", ", last, sum);
    printf("%lu steps\n", steps);
    return report == KAMRDUCH_FINISHED_DONE && (present == expected || expected == ANY);
}

/* a put or a remove by task 0 alone, to its end: prints what stood there, and is true where that is as expected */
static int tells(uint64_t operation, uint64_t key, uint64_t argument, uint64_t expected, uint64_t former)
{
    uint64_t report = start(0, operation, key, argument, 0);
    while (report >= KAMRDUCH_MOVED_ON && report <= KAMRDUCH_RESTARTED_LOST) {
        if (report == KAMRDUCH_RESTARTED_FULL || report == KAMRDUCH_RESTARTED_FROZEN)
            balance(key);
        report = step(0);
    }
    printf("%s %" PRIu64 ": ", operations[operation], key);
    if (report == KAMRDUCH_FINISHED_VALUE)
        printf("%" PRIu64 " stood there\n", answer[0]);
    else
        printf("%s\n", report == KAMRDUCH_FINISHED_ABSENT ? "absent" : "neither a value nor absent");
    return report == expected && answer[0] == former;
}

int main(void)
{
    if (fresh() != KAMRDUCH_FINISHED_DONE)
        return 1;
    /* 60,000 turns, and a rebalance where an insertion found its chunk full, or now and then */
    for (unsigned long turns = 0; turns < 60000; turns++) {
        uint64_t n = chance(KAMRDUCH_TASKS), key = host.tasks[n * KAMRDUCH_TASK_WORDS + KAMRDUCH_TASK_KEY];
        uint64_t report = turn(n, 1);
        if (report == KAMRDUCH_RESTARTED_FULL)
            balance(key);
        else if (host.directory[KAMRDUCH_DIRECTORY_STAGE] != KAMRDUCH_TO_BEGIN ? chance(6) == 0 : chance(2000) == 0)
            balance(chance(400));
    }
    /* what is under way is brought to its end; a full chunk is split on the way */
    for (uint64_t n = 0; n < KAMRDUCH_TASKS; n++)
        while (host.tasks[n * KAMRDUCH_TASK_WORDS + KAMRDUCH_TASK_STAGE] != 0) {
            uint64_t key = host.tasks[n * KAMRDUCH_TASK_WORDS + KAMRDUCH_TASK_KEY], report = turn(n, 0);
            if (report == KAMRDUCH_RESTARTED_FULL || report == KAMRDUCH_RESTARTED_FROZEN)
                balance(key);
        }
    while (host.directory[KAMRDUCH_DIRECTORY_STAGE] != KAMRDUCH_TO_BEGIN)
        balance(0);

    printf("operations    asked  value absent   done   true  false\n");
    for (int i = 1; i < KINDS; i++)
        printf("%-12s %6lu %6lu %6lu %6lu %6lu %6lu\n", operations[i], asked[i], value[i], absent[i], done[i], yes[i], no[i]);
    printf("restarts: %lu frozen, %lu full, %lu lost; pairs: %lu\n", frozen, full, lost, pairs);
    printf("rebalances: %lu begun, %lu released, %lu waits\n", begun, released, waited);
    unsigned long refusals = 0;
    for (int i = 1; i <= 10; i++)
        refusals += refused[i];
    unsigned long live = 0, used = 0;
    for (int c = 0; c < KAMRDUCH_CHUNKS; c++) {
        live += host.chunks[c * KAMRDUCH_CHUNK_WORDS + KAMRDUCH_CHUNK_STATUS] == KAMRDUCH_LIVE;
        used += host.chunks[c * KAMRDUCH_CHUNK_WORDS + KAMRDUCH_CHUNK_USED];
    }
    printf("refusals: %lu; chunks: %lu live, %" PRIu64 " indexed, ", refusals, live, host.directory[KAMRDUCH_DIRECTORY_INDEXED]);
    printf("%lu slots used\n", used);

    if (!list(KAMRDUCH_SCAN, 0, UINT64_MAX, ANY) || !list(KAMRDUCH_SCAN_DOWN, 0, UINT64_MAX, ANY))
        return 1;
    /* what was replaced: a put of a new key and one over it, a remove of a present key and one of an absent */
    if (!tells(KAMRDUCH_PUT, 400, 7, KAMRDUCH_FINISHED_ABSENT, 0) || !tells(KAMRDUCH_PUT, 400, 8, KAMRDUCH_FINISHED_VALUE, 7) ||
        !tells(KAMRDUCH_REMOVE, 400, 0, KAMRDUCH_FINISHED_VALUE, 8) || !tells(KAMRDUCH_REMOVE, 400, 0, KAMRDUCH_FINISHED_ABSENT, 0))
        return 1;
    /* a sentinel under the largest key: a scan's upper end counts, so that one of all keys ends with it or begins there */
    if (!tells(KAMRDUCH_PUT, UINT64_MAX, 9, KAMRDUCH_FINISHED_ABSENT, 0) || !list(KAMRDUCH_SCAN, 399, UINT64_MAX, 2) ||
        !list(KAMRDUCH_SCAN, UINT64_MAX, UINT64_MAX, 1) || !list(KAMRDUCH_SCAN_DOWN, UINT64_MAX, UINT64_MAX, 1) ||
        !list(KAMRDUCH_SCAN_DOWN, 400, UINT64_MAX - 1, 0))
        return 1;
    printf("calls: %lu, interrupts are %s\n", masks, masked ? "masked" : "unmasked");
    return 0;
}
