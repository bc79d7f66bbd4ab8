/* The limit that a call which looks at every word is measured against: one pass over the six tables that only sums their words. */
#include <stddef.h>
#include <stdint.h>

enum { TABLES = 6 };

uint64_t PASS(const uint64_t *const tables[TABLES], const size_t lengths[TABLES])
{
    uint64_t sum = 0;
    for (size_t t = 0; t < TABLES; t++)
        for (size_t i = 0; i < lengths[t]; i++)
            sum += tables[t][i];
    return sum;
}
