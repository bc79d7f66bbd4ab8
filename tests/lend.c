/* Makes the calls that come in on standard input and gives back what they leave, so that an archive for another machine can be compared too.
 * In: which call, its five numbers, seven lengths, the tables' words and the answer's. Out: what it returned, and those words. */
#include "../include/kamrduch.h"

#include <stdio.h>

enum { MOST = 1 << 14 };
static uint64_t slices[7][MOST];

int main(void)
{
    uint64_t head[13];
    while (fread(head, sizeof head, 1, stdin) == 1) {
        const uint64_t *x = head + 1, *n = head + 6;
        uint64_t told = 0;
        for (int i = 0; i < 7; i++)
            if (n[i] > MOST || fread(slices[i], 8, n[i], stdin) != n[i])
                return 1;
#define TABLES slices[0], n[0], slices[1], n[1], slices[2], n[2], slices[3], n[3], slices[4], n[4], slices[5], n[5]
        switch (head[0]) {
        case 0: told = kamrduch_fresh(TABLES, slices[6], n[6]); break;
        case 1: told = kamrduch_start(TABLES, x[0], x[1], x[2], x[3], x[4], slices[6], n[6]); break;
        case 2: told = kamrduch_step(TABLES, x[0], slices[6], n[6]); break;
        case 3: told = kamrduch_begin(TABLES, x[0], slices[6], n[6]); break;
        case 4: told = kamrduch_rebalance(TABLES, slices[6], n[6]); break;
        default: return 1;
        }
        fwrite(&told, 8, 1, stdout);
        for (int i = 0; i < 7; i++)
            fwrite(slices[i], 8, n[i], stdout);
        fflush(stdout);
    }
    return 0;
}
