/* Prefixes that nest as in real tables, for the benches that need some: most of them /24, some in shorter ones. */
#ifndef NESTED_H
#define NESTED_H

#include "measure.h"

static int ascending(const void *a, const void *b)
{
    uint64_t x = *(const uint64_t *)a, y = *(const uint64_t *)b;
    return (x > y) - (x < y);
}

/* n keys in order, some of them more than once. */
static void nested(uint64_t *keys, size_t n)
{
    static const unsigned lengths[10] = {24, 24, 24, 24, 24, 24, 22, 20, 18, 16};
    size_t i;
    for (i = 0; i < n; i++) {
        unsigned length = lengths[any() % 10];
        uint32_t near = i > 0 && any() % 2 ? (uint32_t)(keys[i - 1] >> 6) + (any() % 65536) : any();
        keys[i] = (uint64_t)(near >> (32 - length) << (32 - length)) << 6 | length;
    }
    qsort(keys, n, sizeof keys[0], ascending);
}

/* At most `most` keys in order, each once: how many. */
static inline size_t nested_once(uint64_t *keys, size_t most)
{
    size_t i, n = 0;
    nested(keys, most);
    for (i = 0; i < most; i++)
        if (n == 0 || keys[n - 1] != keys[i]) keys[n++] = keys[i];
    return n;
}

#endif
