/* Packed lookup at random addresses and at local ones, each within 32,768 of the one before, over all segments of a list whose prefixes
   nest as in real tables; and packing them, beside C by blocks as ours goes and beside C by runs. Then one segment of 65,536 blocks. */
#include "in_c.h"
#include "measure.h"
#include "nested.h"
#include "packing.h"
#include "whelkhollow.h"

#define MOST 1000000u
#define LOOKUPS 100000u

static uint64_t keys[MOST];
static uint16_t hops[MOST];
static uint32_t addresses[LOOKUPS];
static size_t n;

#define OVER_ADDRESSES(lookup)                           \
    {                                                    \
        uint64_t sum = 0;                                \
        size_t i;                                        \
        for (i = 0; i < LOOKUPS; i++) {                  \
            uint32_t a = addresses[i];                   \
            struct segment s = segments[a >> 16];        \
            sum = sum * 31 + IN_SEGMENT(lookup, s, a);   \
        }                                                \
        return sum;                                      \
    }

static uint64_t ours(void) OVER_ADDRESSES(whelk_packed_lookup)
static uint64_t in_c(void) OVER_ADDRESSES(c_packed_lookup)

#define ALL_SEGMENTS(pack)                                                                  \
    {                                                                                       \
        uint64_t sum = pack_all(pack);                                                      \
        return sum + 3 * written(arena, agreeing ? arena_length * sizeof arena[0] : 0);     \
    }

static uint64_t packed(void) ALL_SEGMENTS(our_pack)
static uint64_t packed_in_c(void) ALL_SEGMENTS(c_pack)
static uint64_t packed_in_c_by_runs(void) ALL_SEGMENTS(c_pack_by_runs)

/* One segment, of as many blocks as there can be. */
#define ONE_SEGMENT(pack)                                                                                                         \
    {                                                                                                                             \
        struct whelk_packed p = pack_part(pack, 0, arena, WHELK_PACKED_WORDS, arena + WHELK_PACKED_WORDS, WHELK_PACKED_WORDS,              \
                                          arena + 2 * WHELK_PACKED_WORDS, WHELK_PACKED_HOPS);                                           \
        return p.number + 3 * p.width + 5 * p.words + 7 * p.hops + 11 * written(arena, arena_length * sizeof arena[0]);           \
    }

static uint64_t one(void) ONE_SEGMENT(our_pack)
static uint64_t one_in_c(void) ONE_SEGMENT(c_pack)
static uint64_t one_in_c_by_runs(void) ONE_SEGMENT(c_pack_by_runs)

int main(void)
{
    size_t most, i;
    for (most = 1000; most <= MOST; most *= 10) {
        n = nested_once(keys, most);
        for (i = 0; i < n; i++) hops[i] = (uint16_t)(1 + any() % 200);
        part_list(keys, hops, n);
        lay_out();
        row("packing, each block", n, "nested", packed, packed_in_c, blocks);
        row("packing, C by runs", n, "nested", packed, packed_in_c_by_runs, blocks);
        for (i = 0; i < LOOKUPS; i++) addresses[i] = any();
        row("packed lookup", n, "random", ours, in_c, LOOKUPS);
        for (i = 1; i < LOOKUPS; i++) addresses[i] = addresses[i - 1] + any() % 65536 - 32768;
        row("packed lookup", n, "local", ours, in_c, LOOKUPS);
    }
    for (n = 0; n < 1000; n++) keys[n] = (uint64_t)(65 * n) << 6 | 32;
    part_list(keys, hops, n);
    free(arena);
    arena_length = 2 * WHELK_PACKED_WORDS + WHELK_PACKED_HOPS;
    arena = calloc(arena_length, sizeof arena[0]);
    row("packing, each block", n, "one", one, one_in_c, 65536);
    row("packing, C by runs", n, "one", one, one_in_c_by_runs, 65536);
    return 0;
}
