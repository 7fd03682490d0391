/* The same sweep as a C programmer writes it: the list is checked, and the open prefixes stand on a stack. */
#include "../in_c.h"
#include "list.h"

uint64_t c_build(size_t count, const uint64_t *keys, size_t keys_length, const uint16_t *hops, size_t hops_length, uint32_t *starts,
                 size_t starts_length, uint16_t *run_hops, size_t run_hops_length)
{
    uint64_t ends[33], at = 0;
    uint16_t labels[33];
    size_t depth = 0, row = 0, runs = 0;
    if (!list_ok(count, keys, keys_length, hops, hops_length)) return 11ull << 32;
    if (starts_length < 2 * count + 1 || run_hops_length < 2 * count + 1) return 13ull << 32;
    for (;;) {
        while (depth > 0 && ends[depth - 1] <= at) depth--;
        while (row < count && keys[row] >> 6 == at) {
            ends[depth] = at + (1ull << (32 - (keys[row] & 63)));
            labels[depth++] = hops[row++];
        }
        uint16_t hop = depth > 0 ? labels[depth - 1] : 0;
        if (runs == 0 || run_hops[runs - 1] != hop) {
            starts[runs] = (uint32_t)at;
            run_hops[runs++] = hop;
        }
        uint64_t opens = row < count ? keys[row] >> 6 : 1ull << 32, closes = depth > 0 ? ends[depth - 1] : 1ull << 32;
        at = opens < closes ? opens : closes;
        if (at == 1ull << 32) return runs;
    }
}
