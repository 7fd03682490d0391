/* The check of a list with its run table, for the C sides that make it. */
#ifndef PAIR_H
#define PAIR_H

#include "list.h"

/* Whether runs are those of the list: the sweep of build.c, which compares where that writes. */
static int its_runs(size_t count, const uint64_t *keys, const uint16_t *hops, size_t runs, const uint32_t *starts, const uint16_t *run_hops)
{
    uint64_t ends[33], at = 0;
    uint16_t labels[33];
    size_t depth = 0, row = 0, run = 0;
    for (;;) {
        while (depth > 0 && ends[depth - 1] <= at) depth--;
        while (row < count && keys[row] >> 6 == at) {
            ends[depth] = at + (1ull << (32 - (keys[row] & 63)));
            labels[depth++] = hops[row++];
        }
        uint16_t hop = depth > 0 ? labels[depth - 1] : 0;
        if (run == 0 || run_hops[run - 1] != hop) {
            if (run == runs || starts[run] != at || run_hops[run] != hop) return 0;
            run++;
        }
        uint64_t opens = row < count ? keys[row] >> 6 : 1ull << 32, closes = depth > 0 ? ends[depth - 1] : 1ull << 32;
        at = opens < closes ? opens : closes;
        if (at == 1ull << 32) return run == runs;
    }
}

/* The number of a pair: 0, 11 or 14. */
static size_t pair_number(size_t count, const uint64_t *keys, size_t keys_length, const uint16_t *hops, size_t hops_length, size_t runs,
                          const uint32_t *starts, size_t starts_length, const uint16_t *run_hops, size_t run_hops_length)
{
    if (!list_ok(count, keys, keys_length, hops, hops_length)) return 11;
    if (runs > starts_length || runs > run_hops_length || runs > 2097153) return 11;
    return its_runs(count, keys, hops, runs, starts, run_hops) ? 0 : 14;
}

#endif
