/* A list: its check, and searches in it, for the C sides that make them. */
#ifndef LIST_H
#define LIST_H

#include <stddef.h>
#include <stdint.h>

static int list_ok(size_t count, const uint64_t *keys, size_t keys_length, const uint16_t *hops, size_t hops_length)
{
    size_t i;
    if (count > keys_length || count > hops_length || count > 1048576) return 0;
    for (i = 0; i < count; i++) {
        unsigned length = keys[i] & 63;
        uint64_t network = keys[i] >> 6;
        if (length > 32 || network > 0xffffffff || (network & ((1ull << (32 - length)) - 1)) != 0) return 0;
        if (hops[i] == 0 || (i + 1 < count && keys[i] >= keys[i + 1])) return 0;
    }
    return 1;
}

/* How many keys are below this one. */
static inline size_t keys_below(const uint64_t *keys, size_t count, uint64_t key)
{
    size_t low = 0, high = count;
    while (low < high) {
        size_t place = low + (high - low) / 2;
        if (keys[place] < key)
            low = place + 1;
        else
            high = place;
    }
    return low;
}

/* The hop of the longest listed prefix that is shorter than this length and holds the network, or 0. */
static inline uint16_t hop_around(uint64_t network, uint32_t length, size_t count, const uint64_t *keys, const uint16_t *hops)
{
    while (length-- > 0) {
        uint64_t key = (network >> (32 - length) << (32 - length)) << 6 | length;
        size_t place = keys_below(keys, count, key);
        if (place < count && keys[place] == key) return hops[place];
    }
    return 0;
}

#endif
