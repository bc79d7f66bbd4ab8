/* Kamrduch: an ordered map from a 64-bit key to a 64-bit value in tables that the host lends, worked by eight tasks a step at a time.
 * C11, and usable from C++. Every number here is that of docs/PROMISES.md, and every call keeps the promise named there.
 *
 * The library allocates nothing, has no state of its own, leaves no name for the host to define, and takes less than 4 KiB of
 * stack. No length and no word of a table is wrong to pass: a call on tables of another length is refused by 10 and changes
 * nothing, and so is any call but fresh on tables without the shape. fresh looks at the lengths alone: it reads no word, and
 * writes every one. Three things are the host's to see to: a pointer reads and writes as many words as its length says, is not
 * null even where the length is 0, and no two of a call's slices share a word; and nothing else touches the tables while a call
 * runs (mask interrupts, or hold a lock, around each call). */
#ifndef KAMRDUCH_H
#define KAMRDUCH_H

#include <stddef.h>
#include <stdint.h>

#ifdef __cplusplus
extern "C" {
#endif

/* ---- the limits, and the tables' lengths in words */
enum {
    KAMRDUCH_TASKS = 8,
    KAMRDUCH_CHUNKS = 32,
    KAMRDUCH_ENTRIES = 32, /* in each chunk, and as many words in a task's stack */
    KAMRDUCH_HANDLES = 560,

    KAMRDUCH_INDEX_WORDS = 2, /* of a row */
    KAMRDUCH_TASK_WORDS = 11,
    KAMRDUCH_CHUNK_WORDS = 6,
    KAMRDUCH_ENTRY_WORDS = 3,

    KAMRDUCH_INDEX = 6, /* where the index begins, after the directory's row */
    KAMRDUCH_DIRECTORY_LENGTH = KAMRDUCH_INDEX + KAMRDUCH_CHUNKS * KAMRDUCH_INDEX_WORDS,
    KAMRDUCH_STACKS = KAMRDUCH_TASKS * KAMRDUCH_TASK_WORDS, /* where the stacks begin, after every task's row */
    KAMRDUCH_TASKS_LENGTH = KAMRDUCH_STACKS + KAMRDUCH_TASKS * KAMRDUCH_ENTRIES,
    KAMRDUCH_CHUNKS_LENGTH = KAMRDUCH_CHUNKS * KAMRDUCH_CHUNK_WORDS,
    KAMRDUCH_ENTRIES_LENGTH = KAMRDUCH_CHUNKS * KAMRDUCH_ENTRIES * KAMRDUCH_ENTRY_WORDS,
    KAMRDUCH_VALUES_LENGTH = KAMRDUCH_HANDLES,
    KAMRDUCH_MARKS_LENGTH = KAMRDUCH_HANDLES,
    KAMRDUCH_ANSWER_LENGTH = 2
};

/* stands for no chunk, no entry or no handle */
#define KAMRDUCH_NONE UINT64_MAX

/* ---- the words of a row */
enum kamrduch_directory_word {
    KAMRDUCH_DIRECTORY_FIRST = 0, /* the first live chunk */
    KAMRDUCH_DIRECTORY_STAGE = 1, /* the rebalance's */
    KAMRDUCH_DIRECTORY_OLD = 2,
    KAMRDUCH_DIRECTORY_NEW = 3,
    KAMRDUCH_DIRECTORY_SECOND = 4,
    KAMRDUCH_DIRECTORY_INDEXED = 5 /* how many rows of the index are in use */
};

/* The index: after its row the directory's table has 32 rows of two words, row i from word KAMRDUCH_INDEX + i * KAMRDUCH_INDEX_WORDS
 * on. The rows in use stand first, minimum keys strictly rising, each with a live or retired chunk and that chunk's minimum key; in
 * every row past them the key is 0 and the chunk KAMRDUCH_NONE. The calls find a key's chunk from there, and answer as a walk along
 * the chain from the first live chunk would, whichever rows there are. From fresh on the rows are those of the live chunks in the
 * chain's order, but between a rebalance's swap in and its index step those of before the swap in. */
enum kamrduch_index_word { KAMRDUCH_INDEX_MINIMUM = 0, KAMRDUCH_INDEX_CHUNK = 1 };

enum kamrduch_task_word {
    KAMRDUCH_TASK_STAGE = 0, /* 0 is idle */
    KAMRDUCH_TASK_OPERATION = 1,
    KAMRDUCH_TASK_FUNCTION = 2,
    KAMRDUCH_TASK_KEY = 3,      /* an upward scan's cursor; a downward one's lower end */
    KAMRDUCH_TASK_ARGUMENT = 4, /* a scan's upper end */
    KAMRDUCH_TASK_CHUNK = 5,
    KAMRDUCH_TASK_ENTRY = 6,
    KAMRDUCH_TASK_OLD = 7,
    KAMRDUCH_TASK_NEW = 8,
    KAMRDUCH_TASK_PUBLISHED = 9,
    KAMRDUCH_TASK_SWAPPED = 10
};

/* A task's stack: after the eight rows the tasks' table has eight stacks of 32 words, task n's from word
 * KAMRDUCH_STACKS + n * KAMRDUCH_ENTRIES on. It has the entries of the held chunk that a downward scan has yet to look at, the
 * bottom first, keys rising to the top; the first word that is KAMRDUCH_NONE ends it. At any stage but 23 every word is
 * KAMRDUCH_NONE. */

enum kamrduch_chunk_word {
    KAMRDUCH_CHUNK_STATUS = 0,
    KAMRDUCH_CHUNK_FROZEN = 1,
    KAMRDUCH_CHUNK_MINIMUM = 2,
    KAMRDUCH_CHUNK_NEXT = 3,
    KAMRDUCH_CHUNK_HEAD = 4,
    KAMRDUCH_CHUNK_USED = 5
};

enum kamrduch_entry_word { KAMRDUCH_ENTRY_KEY = 0, KAMRDUCH_ENTRY_HANDLE = 1, KAMRDUCH_ENTRY_NEXT = 2 };

/* a chunk's status */
enum kamrduch_status { KAMRDUCH_UNUSED = 0, KAMRDUCH_LIVE = 1, KAMRDUCH_NEW = 2, KAMRDUCH_RETIRED = 3 };

/* the rebalance's stage: what its next call does */
enum kamrduch_rebalance_stage {
    KAMRDUCH_TO_BEGIN = 0, /* idle */
    KAMRDUCH_TO_DRAIN = 1,
    KAMRDUCH_TO_COPY = 2,
    KAMRDUCH_TO_SWAP_IN = 3,
    KAMRDUCH_TO_INDEX = 4,
    KAMRDUCH_TO_RELEASE = 5
};

/* ---- what a task is asked to do */
enum kamrduch_operation {
    KAMRDUCH_GET = 1,           /* answers a value or absent */
    KAMRDUCH_PUT = 2,           /* the value that it replaced, or absent */
    KAMRDUCH_PUT_IF_ABSENT = 3, /* true or false */
    KAMRDUCH_UPSERT = 4,        /* done; stores the argument where the key is absent, else applies the function with it */
    KAMRDUCH_COMPUTE = 5,       /* true or false */
    KAMRDUCH_REMOVE = 6,        /* the value that it removed, or absent */
    KAMRDUCH_SCAN = 7,          /* pairs from the key up to the argument, both counted; then done */
    KAMRDUCH_SCAN_DOWN = 8      /* the same range, from the largest key down */
};

/* A scan's two ends are keys of its range: 0 to UINT64_MAX is every key, and a key to itself is that key alone. An upward scan's
 * cursor, the task's key, is one above the key of the last pair that it gave, or the minimum key of the chunk that it has gone on
 * to; past a pair at UINT64_MAX there is no such key, so the cursor stays there and the upper end, the task's argument, becomes
 * UINT64_MAX - 1. With its cursor above its upper end an upward scan finishes at its next step. A range without a present key takes
 * steps too, so many where nobody else is at work: with m live chunks that have keys of the range, upward m, and one more unless the
 * last of them is the last live chunk; downward m + 1, and one more for each linked entry in range, whose key has been removed. */

/* A put and a remove answer the value that the key had just before the step that decides: stage 5 of either, or a put's swap at stage
 * 11, where it had none. What other tasks stored up to that step counts, and nothing that they do after it. A remove that answers
 * absent has removed nothing. */

/* of upsert and compute; other operations take any number */
enum kamrduch_function { KAMRDUCH_ADD = 1 /* modulo 2^64 */, KAMRDUCH_LARGER = 2, KAMRDUCH_OR = 3 };

/* ---- what a call returns, and what it leaves in answer[0] and answer[1] (0 where nothing is said) */
enum kamrduch_report {
    KAMRDUCH_REFUSED = 0, /* answer[0]: the number of refusal */
    KAMRDUCH_MOVED_ON = 1,
    KAMRDUCH_RESTARTED_FROZEN = 2,
    KAMRDUCH_RESTARTED_FULL = 3,
    KAMRDUCH_RESTARTED_LOST = 4,
    KAMRDUCH_PAIR = 5,           /* answer[0]: the key; answer[1]: the value */
    KAMRDUCH_FINISHED_VALUE = 6, /* answer[0]: the value; of a put or a remove the former one */
    KAMRDUCH_FINISHED_ABSENT = 7,
    KAMRDUCH_FINISHED_DONE = 8,
    KAMRDUCH_FINISHED_TRUE = 9,
    KAMRDUCH_FINISHED_FALSE = 10,
    KAMRDUCH_WAITING = 11,            /* the rebalance: a task is in its way */
    KAMRDUCH_REBALANCE_FINISHED = 12 /* the rebalance: the old chunk is released */
};

/* the numbers of refusal, in answer[0] of a refused call */
enum kamrduch_refusal {
    KAMRDUCH_NO_TASK = 1,           /* start, step: task number 8 or more */
    KAMRDUCH_TASK_AT_WORK = 2,      /* start */
    KAMRDUCH_TASK_IDLE = 3,         /* step */
    KAMRDUCH_SCAN_BACKWARDS = 4,    /* start: a scan's lower end above its upper, whichever way it goes */
    KAMRDUCH_NO_OPERATION = 5,      /* start: operation not 1 to 8, or function not 1 to 3 where one is used */
    KAMRDUCH_REBALANCE_AT_WORK = 6, /* begin */
    KAMRDUCH_NO_CHUNKS = 7,         /* begin: fewer than two unused chunks */
    KAMRDUCH_REBALANCE_IDLE = 8,    /* rebalance */
    KAMRDUCH_NO_HANDLE = 9,         /* step at stage 8: the task becomes idle, all else is as it was */
    KAMRDUCH_NO_SHAPE = 10          /* any call: a table of another length; any but fresh: tables that fail the shape. No call
                                       on tables that fresh made and only these calls have changed is refused so */
};

/* ---- the calls
 * Each takes the six tables in one order, each as its first word and its length, then its numbers, then the answer.
 * With an answer of another length than two words a call returns 0, as a refused one does, and writes no word anywhere, the
 * answer's included: nobody is told a number of refusal then.
 * A refused call leaves every word of every table as it found it, save a step refused by 9. A table lent as const is never written. */

/* Makes the fresh directory over whatever the tables held, words that nobody has written too: chunk 0 live and empty, with the one
 * row of the index; all else unused and idle, every value and mark 0. Whatever was at work there is gone: the directory's history
 * begins anew.
 * Returns done; refused by 10 where a table's length is another. */
uint64_t kamrduch_fresh(uint64_t *directory, size_t directory_length, uint64_t *tasks, size_t tasks_length,
                        uint64_t *chunks, size_t chunks_length, uint64_t *entries, size_t entries_length,
                        uint64_t *values, size_t values_length, uint64_t *marks, size_t marks_length,
                        uint64_t *answer, size_t answer_length);

/* Task n starts an operation: its row holds the operation, the key, the argument (0 for get and remove) and the function
 * (0 where none is used), at stage 22 for a scan, 23 for a scan down and 1 for all others. No other word changes.
 * Returns moved on; refused by 10, 1, 2, 5, 4, the first that is met. */
uint64_t kamrduch_start(const uint64_t *directory, size_t directory_length, uint64_t *tasks, size_t tasks_length,
                        const uint64_t *chunks, size_t chunks_length, const uint64_t *entries, size_t entries_length,
                        const uint64_t *values, size_t values_length, const uint64_t *marks, size_t marks_length,
                        uint64_t n, uint64_t operation, uint64_t key, uint64_t argument, uint64_t function,
                        uint64_t *answer, size_t answer_length);

/* Task n does one stage. Its own row moves on, or is cleared where it finishes, and with it its stack: stage 23 fills an empty one
 * from the next chunk, or takes one entry off. Elsewhere at most one thing changes:
 * stage 5 a value or a mark; 6 a slot of a chunk; 7 a link in a chunk's list; 8 a handle's value and mark, to 0; 9 a value;
 * 11, 14 and 20 the handle that an entry names.
 * Returns moved on, restarted, a pair, or finished with its answer; refused by 10, 1, 3, 9, the first that is met. */
uint64_t kamrduch_step(const uint64_t *directory, size_t directory_length, uint64_t *tasks, size_t tasks_length,
                       uint64_t *chunks, size_t chunks_length, uint64_t *entries, size_t entries_length,
                       uint64_t *values, size_t values_length, uint64_t *marks, size_t marks_length,
                       uint64_t n, uint64_t *answer, size_t answer_length);

/* A rebalance begins: the live chunk that has the key is frozen and is the directory's old one, to drain.
 * Returns moved on; refused by 10, 6, 7, the first that is met. */
uint64_t kamrduch_begin(uint64_t *directory, size_t directory_length, const uint64_t *tasks, size_t tasks_length,
                        uint64_t *chunks, size_t chunks_length, const uint64_t *entries, size_t entries_length,
                        const uint64_t *values, size_t values_length, const uint64_t *marks, size_t marks_length,
                        uint64_t key, uint64_t *answer, size_t answer_length);

/* The rebalance does its next stage. Drain writes only its stage. Copy fills one or two new chunks and their entries, and names
 * them in the directory's row. Swap in puts them in the old one's place in the chain, live, and retires it. Index makes the index's
 * rows those of the live chunks, and never waits. Release clears the old chunk's row and entries, and the directory's rebalance.
 * Returns moved on, waiting (no word changes), or rebalance finished; refused by 10, 8, the first that is met. */
uint64_t kamrduch_rebalance(uint64_t *directory, size_t directory_length, const uint64_t *tasks, size_t tasks_length,
                            uint64_t *chunks, size_t chunks_length, uint64_t *entries, size_t entries_length,
                            const uint64_t *values, size_t values_length, const uint64_t *marks, size_t marks_length,
                            uint64_t *answer, size_t answer_length);

#ifdef __cplusplus
}
#endif

#endif
