/* All 65,536 segments of a list, packed into one arena with an index by segment, for the benches that look up there. A segment's packing
   needs only the rows that lie in it or hold it, so it is packed from those: the check of a pair goes through all that it is handed. */
#ifndef PACKING_H
#define PACKING_H

#include "in_c.h"
#include "measure.h"

/* Where C hands the place for a returned struct over otherwise than x86-64 does, the library's code has it as the first argument still. */
#ifdef __x86_64__
#define our_pack whelk_pack
#else
struct whelk_packed *pack_at(struct whelk_packed *, uint16_t, size_t, const uint64_t *, size_t, const uint16_t *, size_t, size_t,
                             const uint32_t *, size_t, const uint16_t *, size_t, uint16_t *, size_t, uint16_t *, size_t, uint16_t *, size_t)
    __asm__("whelk_pack");
static struct whelk_packed our_pack(uint16_t q, size_t count, const uint64_t *keys, size_t keys_length, const uint16_t *hops,
                                    size_t hops_length, size_t runs, const uint32_t *starts, size_t starts_length,
                                    const uint16_t *run_hops, size_t run_hops_length, uint16_t *words, size_t words_length,
                                    uint16_t *bases, size_t bases_length, uint16_t *packed_hops, size_t packed_hops_length)
{
    struct whelk_packed p;
    pack_at(&p, q, count, keys, keys_length, hops, hops_length, runs, starts, starts_length, run_hops, run_hops_length, words, words_length,
            bases, bases_length, packed_hops, packed_hops_length);
    return p;
}
#endif

#define SEGMENTS 65536u

/* What stands of a segment in the arena: from `at` on its words, then as many bases, then its hops. */
static struct segment {
    uint32_t at, hops;
    uint16_t words, width;
} segments[SEGMENTS];

/* Each segment's own list and run table, side by side with those of all others: where they begin, and the last one's end. */
static struct part {
    size_t rows, runs;
} parts[SEGMENTS + 1];

static uint16_t *arena, *part_hops, *part_run_hops;
static uint64_t *part_keys;
static uint32_t *part_starts;
static size_t arena_length, blocks;

/* The place of the first key that isn't below this one. */
static size_t place_of(const uint64_t *keys, size_t n, uint64_t key)
{
    size_t low = 0, high = n;
    while (low < high) {
        size_t place = (low + high) / 2;
        if (keys[place] < key)
            low = place + 1;
        else
            high = place;
    }
    return low;
}

/* The rows of each segment and those that hold it, in key order, with their run tables. */
static inline void part_list(const uint64_t *keys, const uint16_t *hops, size_t n)
{
    size_t most = n + 17 * SEGMENTS, rows = 0, runs = 0, q, i;
    free(part_keys), free(part_hops), free(part_starts), free(part_run_hops);
    part_keys = malloc(most * sizeof part_keys[0]);
    part_hops = malloc(most * sizeof part_hops[0]);
    part_starts = malloc((2 * most + SEGMENTS) * sizeof part_starts[0]);
    part_run_hops = malloc((2 * most + SEGMENTS) * sizeof part_run_hops[0]);
    for (q = 0; q < SEGMENTS; q++) {
        uint64_t first = (uint64_t)q << 22, last = first + (1u << 22), length;
        size_t begin = rows;
        parts[q].rows = rows;
        parts[q].runs = runs;
        for (length = 0; length <= 16; length++) {
            uint64_t key = (q >> (16 - length) << (16 - length)) << 22 | length;
            i = place_of(keys, n, key);
            if (i == n || keys[i] != key) continue;
            part_keys[rows] = key;
            part_hops[rows++] = hops[i];
        }
        for (i = place_of(keys, n, first + 17); i < n && keys[i] < last; i++) {
            part_keys[rows] = keys[i];
            part_hops[rows++] = hops[i];
        }
        runs += whelk_build(rows - begin, part_keys + begin, rows - begin, part_hops + begin, rows - begin, part_starts + runs,
                            2 * (rows - begin) + 1, part_run_hops + runs, 2 * (rows - begin) + 1);
    }
    parts[SEGMENTS].rows = rows;
    parts[SEGMENTS].runs = runs;
}

/* One segment packed from its own rows into lent slices. */
static inline struct whelk_packed pack_part(packing *pack, size_t q, uint16_t *words, size_t words_length, uint16_t *bases,
                                            size_t bases_length, uint16_t *packed_hops, size_t packed_hops_length)
{
    size_t row = parts[q].rows, run = parts[q].runs, count = parts[q + 1].rows - row, runs = parts[q + 1].runs - run;
    return pack((uint16_t)q, count, part_keys + row, count, part_hops + row, count, runs, part_starts + run, runs, part_run_hops + run,
                runs, words, words_length, bases, bases_length, packed_hops, packed_hops_length);
}

/* The index, and an arena as long as all packed segments together. */
static inline void lay_out(void)
{
    static uint16_t words[WHELK_PACKED_WORDS], bases[WHELK_PACKED_WORDS], packed_hops[WHELK_PACKED_HOPS];
    size_t q;
    arena_length = blocks = 0;
    for (q = 0; q < SEGMENTS; q++) {
        struct whelk_packed p = pack_part(our_pack, q, words, WHELK_PACKED_WORDS, bases, WHELK_PACKED_WORDS, packed_hops, WHELK_PACKED_HOPS);
        if (p.number != 0) {
            printf("segment %lu: packing is refused, %lu\n", (unsigned long)q, (unsigned long)p.number);
            exit(1);
        }
        segments[q].at = (uint32_t)arena_length;
        segments[q].hops = (uint32_t)p.hops;
        segments[q].words = (uint16_t)p.words;
        segments[q].width = (uint16_t)p.width;
        arena_length += 2 * p.words + p.hops;
        blocks += (size_t)1 << p.width;
    }
    free(arena);
    arena = malloc(arena_length * sizeof arena[0]);
}

/* All segments into the arena, each into as many slots as it takes: a sum of the returned numbers. */
static inline uint64_t pack_all(packing *pack)
{
    uint64_t sum = 0;
    size_t q;
    for (q = 0; q < SEGMENTS; q++) {
        struct segment s = segments[q];
        uint16_t *words = arena + s.at;
        struct whelk_packed p = pack_part(pack, q, words, s.words, words + s.words, s.words, words + 2 * s.words, s.hops);
        sum = sum * 31 + p.number + 3 * p.width + 5 * p.words + 7 * p.hops;
    }
    return sum;
}

/* The answer of a lookup in the packed segment of an address. */
#define IN_SEGMENT(lookup, s, a) \
    lookup((s).width, arena + (s).at, (s).words, arena + (s).at + (s).words, (s).words, arena + (s).at + 2 * (s).words, (s).hops, a)

#endif
