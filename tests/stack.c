/* How much stack a call takes: each is made on a stack of its own that was painted before, and takes as much as the paint is gone,
 * less what a function that makes none takes there. The calls go through every stage of a task and of a rebalance. */
#define _XOPEN_SOURCE 700
#include "../include/kamrduch.h"

#include <stdio.h>
#include <stdlib.h>
#include <ucontext.h>

/* in bytes: a thread of a kernel may have no more than 8 KiB of stack, and a call leaves its host half of that */
enum { LIMIT = 4096 };
enum { WORDS = 8192 };
#define PAINT UINT64_C(0x9d3f5b71c2e8a604)

static uint64_t directory[KAMRDUCH_DIRECTORY_LENGTH], tasks[KAMRDUCH_TASKS_LENGTH], chunks[KAMRDUCH_CHUNKS_LENGTH];
static uint64_t entries[KAMRDUCH_ENTRIES_LENGTH], values[KAMRDUCH_VALUES_LENGTH], marks[KAMRDUCH_MARKS_LENGTH];
static uint64_t answer[KAMRDUCH_ANSWER_LENGTH];
#define LENT(table) table, sizeof table / sizeof *table
#define TABLES LENT(directory), LENT(tasks), LENT(chunks), LENT(entries), LENT(values), LENT(marks)

static void expect(int right, const char *what)
{
    if (!right) {
        fprintf(stderr, "stack: %s\n", what);
        exit(1);
    }
}

enum call { NOTHING, FRESH, START, STEP, BEGIN, REBALANCE };
static const char *const names[] = {"nothing", "kamrduch_fresh", "kamrduch_start", "kamrduch_step", "kamrduch_begin", "kamrduch_rebalance"};

/* the call to make, its numbers, and what it returned */
static enum call asked;
static uint64_t task, operation, key, argument, report;

static void make(void)
{
    switch (asked) {
    case NOTHING: break;
    case FRESH: report = kamrduch_fresh(TABLES, LENT(answer)); break;
    case START: report = kamrduch_start(TABLES, task, operation, key, argument, KAMRDUCH_ADD, LENT(answer)); break;
    case STEP: report = kamrduch_step(TABLES, task, LENT(answer)); break;
    case BEGIN: report = kamrduch_begin(TABLES, key, LENT(answer)); break;
    case REBALANCE: report = kamrduch_rebalance(TABLES, LENT(answer)); break;
    }
}

/* makes a call on the painted stack: as many bytes as the paint is gone */
static size_t gone(enum call call)
{
    static uint64_t stack[WORDS];
    static ucontext_t host, lent;
    for (size_t i = 0; i < WORDS; i++)
        stack[i] = PAINT;
    asked = call;
    expect(getcontext(&lent) == 0, "no context");
    lent.uc_stack.ss_sp = stack;
    lent.uc_stack.ss_size = sizeof stack;
    lent.uc_link = &host;
    makecontext(&lent, make, 0);
    expect(swapcontext(&host, &lent) == 0, "no context");
    size_t left = 0;
    while (left < WORDS && stack[left] == PAINT)
        left++;
    expect(left > 0 && left < WORDS, "the paint");
    return sizeof stack - left * sizeof *stack;
}

/* what no call takes; the most that a call took beyond it, which call, at which stages; and the stages that were done */
static size_t base, most;
static enum call deepest;
static uint64_t stages, done;

static uint64_t makes(enum call call)
{
    uint64_t stage = call == STEP ? tasks[task * KAMRDUCH_TASK_WORDS] : call == REBALANCE ? directory[KAMRDUCH_DIRECTORY_STAGE] : 0;
    size_t bytes = gone(call) - base;
    done |= call == STEP ? UINT64_C(1) << stage : 0;
    if (bytes > most)
        most = bytes, deepest = call, stages = 0;
    if (bytes == most && call == deepest)
        stages |= UINT64_C(1) << stage;
    return report;
}

/* task n does an operation to its end, or up to a stage */
static uint64_t does(uint64_t n, uint64_t o, uint64_t k, uint64_t a, uint64_t stage)
{
    task = n, operation = o, key = k, argument = a;
    for (makes(START); (report == KAMRDUCH_MOVED_ON || report == KAMRDUCH_PAIR) && tasks[n * KAMRDUCH_TASK_WORDS] != stage;)
        makes(STEP);
    return report;
}

int main(void)
{
    base = gone(NOTHING);
    expect(makes(FRESH) == KAMRDUCH_FINISHED_DONE, "fresh");
    for (uint64_t k = 1; k <= 20; k++)
        expect(does(0, KAMRDUCH_PUT, k, k, 0) == KAMRDUCH_FINISHED_ABSENT, "put");
    expect(does(0, KAMRDUCH_PUT, 3, 3, 0) == KAMRDUCH_FINISHED_VALUE, "put over a present key");
    expect(does(0, KAMRDUCH_REMOVE, 5, 0, 0) == KAMRDUCH_FINISHED_VALUE, "remove");
    expect(does(1, KAMRDUCH_REMOVE, 4, 0, 16) == KAMRDUCH_MOVED_ON, "a remove halfway");
    expect(does(0, KAMRDUCH_COMPUTE, 4, 1, 0) == KAMRDUCH_FINISHED_FALSE, "compute beside it");
    expect(does(0, KAMRDUCH_SCAN, 0, UINT64_MAX, 0) == KAMRDUCH_FINISHED_DONE, "scan");
    for (makes(BEGIN); report == KAMRDUCH_MOVED_ON;)
        makes(REBALANCE);
    expect(report == KAMRDUCH_REBALANCE_FINISHED, "rebalance");
    expect(does(0, KAMRDUCH_SCAN_DOWN, 0, UINT64_MAX, 0) == KAMRDUCH_FINISHED_DONE, "scan down");
    expect(done == (UINT64_C(1) << 24) - 2, "a stage that no task did");
    printf("stack: the deepest call takes %zu bytes (%s at %s", most, names[deepest], stages == done ? "any stage" : "stage");
    for (int i = 0; stages != done && i < 24; i++)
        if (stages >> i & 1)
            printf(" %d", i);
    puts(")");
    expect(most <= LIMIT, "a call takes more than the limit");
}
