/* The same packed lookup and packing as a C programmer writes them. Packing is there twice: by blocks, one after the other as ours goes, and
   by the runs of the segment alone, each of which sets one bit. */
#include "../in_c.h"
#include "pair.h"

#include <string.h>

uint32_t c_packed_lookup(uint32_t width, const uint16_t *words, size_t words_length, const uint16_t *bases, size_t bases_length,
                         const uint16_t *hops, size_t hops_length, uint32_t address)
{
    size_t block, at, past;
    if (width > 16) return 65536 * 19;
    block = (address & 65535) >> (16 - width);
    at = block / 16;
    if (at >= words_length || at >= bases_length) return 65536 * 19;
    past = (size_t)bases[at] + (size_t)__builtin_popcount(words[at] >> (15 - block % 16));
    if (past == 0 || past > hops_length) return 65536 * 19;
    return hops[past - 1];
}

/* The width of a segment: its keys are found by halving. */
static size_t width_of(uint32_t q, size_t count, const uint64_t *keys)
{
    uint64_t first = (uint64_t)q << 22;
    size_t low = 0, high = count, width = 0;
    while (low < high) {
        size_t place = (low + high) / 2;
        if (keys[place] < first)
            low = place + 1;
        else
            high = place;
    }
    for (; low < count && keys[low] < first + (1u << 22); low++)
        if ((keys[low] & 63) > 16 + width) width = (keys[low] & 63) - 16;
    return width;
}

/* The run of a segment's first address, by halving. */
static size_t first_run(uint32_t q, size_t runs, const uint32_t *starts)
{
    size_t low = 0, high = runs;
    while (high - low > 1) {
        size_t place = (low + high) / 2;
        if (starts[place] <= q << 16)
            low = place;
        else
            high = place;
    }
    return low;
}

struct whelk_packed c_pack(uint16_t q, size_t count, const uint64_t *keys, size_t keys_length, const uint16_t *hops, size_t hops_length,
                           size_t runs, const uint32_t *starts, size_t starts_length, const uint16_t *run_hops, size_t run_hops_length,
                           uint16_t *words, size_t words_length, uint16_t *bases, size_t bases_length, uint16_t *packed_hops,
                           size_t packed_hops_length)
{
    struct whelk_packed p = {0, 0, 0, 0};
    size_t width, n, size, t, run, kept, first;
    uint64_t at;
    p.number = pair_number(count, keys, keys_length, hops, hops_length, runs, starts, starts_length, run_hops, run_hops_length);
    if (p.number != 0) return p;
    width = width_of(q, count, keys);
    n = (size_t)1 << width;
    size = 65536 >> width;
    first = run = first_run(q, runs, starts);
    p.number = 13;
    if (words_length < (n + 15) / 16 || bases_length < (n + 15) / 16) return p;
    for (t = 0, kept = 0, at = (uint64_t)q << 16; t < n; t++, at += size) {
        size_t last = run;
        while (run + 1 < runs && starts[run + 1] <= at) run++;
        kept += t == 0 || run_hops[run] != run_hops[last];
    }
    if (packed_hops_length < kept) return p;
    run = first;
    kept = 0;
    at = (uint64_t)q << 16;
    for (t = 0; t < n; t += 16) {
        uint32_t word = 0;
        size_t i;
        bases[t / 16] = (uint16_t)kept;
        for (i = 0; i < 16 && t + i < n; i++, at += size) {
            size_t last = run;
            while (run + 1 < runs && starts[run + 1] <= at) run++;
            if (t + i == 0 || run_hops[run] != run_hops[last]) {
                word |= 0x8000 >> i;
                packed_hops[kept++] = run_hops[run];
            }
        }
        words[t / 16] = (uint16_t)word;
    }
    p.number = 0;
    p.width = width;
    p.words = (n + 15) / 16;
    p.hops = kept;
    return p;
}

struct whelk_packed c_pack_by_runs(uint16_t q, size_t count, const uint64_t *keys, size_t keys_length, const uint16_t *hops,
                                   size_t hops_length, size_t runs, const uint32_t *starts, size_t starts_length, const uint16_t *run_hops,
                                   size_t run_hops_length, uint16_t *words, size_t words_length, uint16_t *bases, size_t bases_length,
                                   uint16_t *packed_hops, size_t packed_hops_length)
{
    struct whelk_packed p = {0, 0, 0, 0};
    size_t width, n, i, run, end, ones;
    uint64_t base = (uint64_t)q << 16;
    p.number = pair_number(count, keys, keys_length, hops, hops_length, runs, starts, starts_length, run_hops, run_hops_length);
    if (p.number != 0) return p;
    width = width_of(q, count, keys);
    n = (((size_t)1 << width) + 15) / 16;
    run = first_run(q, runs, starts);
    for (end = run + 1; end < runs && starts[end] < base + 65536; end++) {}
    p.number = 13;
    if (words_length < n || bases_length < n || packed_hops_length < end - run) return p;
    memset(words, 0, n * sizeof words[0]);
    words[0] = 0x8000;
    packed_hops[0] = run_hops[run];
    for (i = 1; run + i < end; i++) {
        size_t block = (starts[run + i] - base) >> (16 - width);
        words[block / 16] |= (uint16_t)(0x8000 >> block % 16);
        packed_hops[i] = run_hops[run + i];
    }
    for (ones = 0, i = 0; i < n; i++) {
        bases[i] = (uint16_t)ones;
        ones += (size_t)__builtin_popcount(words[i]);
    }
    p.number = 0;
    p.width = width;
    p.words = n;
    p.hops = end - run;
    return p;
}
