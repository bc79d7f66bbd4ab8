/* A host whose tables nobody has written: each is memory of its own, of exactly its length, so that a checker of memory sees a word
 * read before it is written, and any past a table's end. It makes the fresh directory there, works it, and splits a chunk. */
#include "../include/kamrduch.h"

#include <stdio.h>
#include <stdlib.h>

static uint64_t *directory, *tasks, *chunks, *entries, *values, *marks, *answer;

#define TABLES                                                                                               \
    directory, KAMRDUCH_DIRECTORY_LENGTH, tasks, KAMRDUCH_TASKS_LENGTH, chunks, KAMRDUCH_CHUNKS_LENGTH, entries, \
        KAMRDUCH_ENTRIES_LENGTH, values, KAMRDUCH_VALUES_LENGTH, marks, KAMRDUCH_MARKS_LENGTH
#define ANSWER answer, KAMRDUCH_ANSWER_LENGTH

static void expect(int right, const char *what)
{
    if (!right) {
        fprintf(stderr, "fresh: %s\n", what);
        exit(1);
    }
}

static uint64_t *words(size_t length)
{
    uint64_t *made = malloc(length * sizeof *made);
    expect(made != NULL, "no memory");
    return made;
}

/* task 0 does an operation: its last report, and how many steps it took */
static unsigned steps;

static uint64_t does(uint64_t operation, uint64_t key, uint64_t argument, uint64_t function)
{
    uint64_t report = kamrduch_start(TABLES, 0, operation, key, argument, function, ANSWER);
    for (steps = 0; report == KAMRDUCH_MOVED_ON; steps++)
        report = kamrduch_step(TABLES, 0, ANSWER);
    return report;
}

static uint64_t in_chunk(uint64_t c, int word)
{
    return chunks[c * KAMRDUCH_CHUNK_WORDS + (uint64_t)word];
}

/* the index has as many rows, and row i is of that chunk */
static void indexes(uint64_t rows, uint64_t i, uint64_t c)
{
    const uint64_t *row = directory + KAMRDUCH_INDEX + i * KAMRDUCH_INDEX_WORDS;
    expect(directory[KAMRDUCH_DIRECTORY_INDEXED] == rows, "the index's count");
    expect(row[KAMRDUCH_INDEX_CHUNK] == c && row[KAMRDUCH_INDEX_MINIMUM] == in_chunk(c, KAMRDUCH_CHUNK_MINIMUM), "a row of the index");
}

/* every row past the count is 0 and none */
static void indexes_no_more(void)
{
    for (uint64_t i = directory[KAMRDUCH_DIRECTORY_INDEXED]; i < KAMRDUCH_CHUNKS; i++) {
        const uint64_t *row = directory + KAMRDUCH_INDEX + i * KAMRDUCH_INDEX_WORDS;
        expect(row[KAMRDUCH_INDEX_MINIMUM] == 0 && row[KAMRDUCH_INDEX_CHUNK] == KAMRDUCH_NONE, "a row past the index's count");
    }
}

static void works(void)
{
    expect(does(KAMRDUCH_GET, 5, 0, 0) == KAMRDUCH_FINISHED_ABSENT && steps == 2, "get of an absent key");
    expect(does(KAMRDUCH_PUT_IF_ABSENT, 5, 50, 0) == KAMRDUCH_FINISHED_TRUE && steps == 9, "putIfAbsent");
    expect(does(KAMRDUCH_PUT, 5, 60, 0) == KAMRDUCH_FINISHED_VALUE && steps == 5 && answer[0] == 50, "put over a present key");
    expect(does(KAMRDUCH_PUT, 6, 1, 0) == KAMRDUCH_FINISHED_ABSENT && steps == 9 && answer[0] == 0, "put of a new key");
    expect(does(KAMRDUCH_COMPUTE, 5, 7, KAMRDUCH_ADD) == KAMRDUCH_FINISHED_TRUE, "compute");
    expect(does(KAMRDUCH_GET, 5, 0, 0) == KAMRDUCH_FINISHED_VALUE && steps == 4 && answer[0] == 67, "get");
}

/* keys 1 to 17 split into 9 and 8 */
static void splits(void)
{
    for (uint64_t key = 1; key <= 17; key++)
        expect(does(KAMRDUCH_UPSERT, key, key, KAMRDUCH_LARGER) == KAMRDUCH_FINISHED_DONE, "upsert");
    expect(kamrduch_begin(TABLES, 3, ANSWER) == KAMRDUCH_MOVED_ON, "begin");
    uint64_t old = directory[KAMRDUCH_DIRECTORY_OLD];
    for (int i = 0; i < 3; i++)
        expect(kamrduch_rebalance(TABLES, ANSWER) == KAMRDUCH_MOVED_ON, "drain, copy or swap in");
    /* the index still has the old chunk, and a key is found past it */
    expect(directory[KAMRDUCH_DIRECTORY_STAGE] == KAMRDUCH_TO_INDEX, "to index");
    expect(in_chunk(old, KAMRDUCH_CHUNK_STATUS) == KAMRDUCH_RETIRED, "the old chunk");
    indexes(1, 0, old);
    expect(does(KAMRDUCH_GET, 17, 0, 0) == KAMRDUCH_FINISHED_VALUE && answer[0] == 17, "get through the old chunk's row");
    expect(kamrduch_rebalance(TABLES, ANSWER) == KAMRDUCH_MOVED_ON, "index");
    expect(directory[KAMRDUCH_DIRECTORY_STAGE] == KAMRDUCH_TO_RELEASE, "to release");
    expect(kamrduch_rebalance(TABLES, ANSWER) == KAMRDUCH_REBALANCE_FINISHED, "release");
    uint64_t first = directory[KAMRDUCH_DIRECTORY_FIRST], second = in_chunk(first, KAMRDUCH_CHUNK_NEXT);
    indexes(2, 0, first);
    indexes(2, 1, second);
    indexes_no_more();
    expect(in_chunk(first, KAMRDUCH_CHUNK_USED) == 9 && in_chunk(first, KAMRDUCH_CHUNK_MINIMUM) == 0, "the first new chunk");
    expect(in_chunk(second, KAMRDUCH_CHUNK_USED) == 8 && in_chunk(second, KAMRDUCH_CHUNK_MINIMUM) == 10, "the second new chunk");
}

/* every key but 5, in order */
static void scans(void)
{
    expect(does(KAMRDUCH_REMOVE, 5, 0, 0) == KAMRDUCH_FINISHED_VALUE && steps == 11 && answer[0] == 67, "remove");
    expect(does(KAMRDUCH_REMOVE, 5, 0, 0) == KAMRDUCH_FINISHED_ABSENT && steps == 3 && answer[0] == 0, "remove of an absent key");
    uint64_t report = does(KAMRDUCH_SCAN, 0, UINT64_MAX, 0);
    for (uint64_t key = 1; key <= 17; key++)
        if (key != 5) {
            while (report == KAMRDUCH_MOVED_ON)
                report = kamrduch_step(TABLES, 0, ANSWER);
            expect(report == KAMRDUCH_PAIR && answer[0] == key && answer[1] == key, "a pair");
            report = kamrduch_step(TABLES, 0, ANSWER);
        }
    expect(report == KAMRDUCH_FINISHED_DONE, "the scan's end");
}

/* the same keys from the top down: a fill, eight pairs, a fill, eight pairs, the end */
static void scans_down(void)
{
    uint64_t report = does(KAMRDUCH_SCAN_DOWN, 0, UINT64_MAX, 0);
    const uint64_t *stack = tasks + KAMRDUCH_STACKS;
    expect(stack[0] == 0 && stack[6] == 6 && stack[7] == KAMRDUCH_NONE, "the stack");
    for (uint64_t key = 17; key >= 1; key--)
        if (key != 5) {
            while (report == KAMRDUCH_MOVED_ON)
                report = kamrduch_step(TABLES, 0, ANSWER);
            expect(report == KAMRDUCH_PAIR && answer[0] == key && answer[1] == key, "a pair");
            report = kamrduch_step(TABLES, 0, ANSWER);
        }
    expect(report == KAMRDUCH_FINISHED_DONE && stack[0] == KAMRDUCH_NONE, "the downward scan's end");
    expect(does(KAMRDUCH_SCAN_DOWN, 6, 5, 0) == KAMRDUCH_REFUSED && answer[0] == KAMRDUCH_SCAN_BACKWARDS, "refusal 4");
    expect(does(9, 5, 6, 0) == KAMRDUCH_REFUSED && answer[0] == KAMRDUCH_NO_OPERATION, "refusal 5");
}

int main(void)
{
    directory = words(KAMRDUCH_DIRECTORY_LENGTH);
    tasks = words(KAMRDUCH_TASKS_LENGTH);
    chunks = words(KAMRDUCH_CHUNKS_LENGTH);
    entries = words(KAMRDUCH_ENTRIES_LENGTH);
    values = words(KAMRDUCH_VALUES_LENGTH);
    marks = words(KAMRDUCH_MARKS_LENGTH);
    answer = words(KAMRDUCH_ANSWER_LENGTH);
    expect(kamrduch_fresh(TABLES, ANSWER) == KAMRDUCH_FINISHED_DONE, "fresh");
    for (int h = 0; h < KAMRDUCH_HANDLES; h++)
        expect(values[h] == 0 && marks[h] == 0, "a value or a mark");
    for (int i = KAMRDUCH_STACKS; i < KAMRDUCH_TASKS_LENGTH; i++)
        expect(tasks[i] == KAMRDUCH_NONE, "a stack");
    indexes(1, 0, 0);
    indexes_no_more();
    works();
    splits();
    scans();
    scans_down();
    uint64_t *made[] = {directory, tasks, chunks, entries, values, marks, answer};
    for (int i = 0; i < 7; i++)
        free(made[i]);
    return 0;
}
