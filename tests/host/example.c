/* A feed in, its counts, the next hop of the address 10.64.0.1, and how far that holds. */
#include <stdio.h>
#include "whelkhollow.h"

int main(void)
{
    const uint8_t feed[] = "10.0.0.0/8 7\n10.64.0.0/10 9\n";
    uint64_t keys[8];
    uint16_t hops[8], run_hops[17];
    uint32_t starts[17], last;
    uint8_t report[8];
    struct whelk_counts c = whelk_import(feed, sizeof feed - 1, keys, 8, hops, 8, report, 8);
    if (c.number != WHELK_DONE) return 1;
    uint64_t built = whelk_build(c.taken, keys, 8, hops, 8, starts, 17, run_hops, 17);
    if (whelk_build_number(built) != WHELK_DONE) return 1;
    uint64_t found = whelk_run_lookup_slices(whelk_build_runs(built), starts, 17, run_hops, 17, 0x0a400001, &last);
    if (whelk_lookup_number(found) != WHELK_DONE) return 1;
    printf("taken %zu of %zu, %zu runs, 10.64.0.1 goes to hop %u, and so do all up to %u.%u.%u.%u\n", c.taken, c.rows, whelk_build_runs(built),
           whelk_lookup_hop(found), last >> 24, last >> 16 & 255, last >> 8 & 255, last & 255);
    return 0;
}
