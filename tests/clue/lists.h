/* The lists of two routers and the packets between them: for two_routers.c, and for bench/clue.c, which takes the times of the same ones. Whoever
   includes this has a function `any` before it, which gives any 32 bits. */
#ifndef LISTS_H
#define LISTS_H

#include <stddef.h>
#include <stdint.h>
#include <stdlib.h>
#include <string.h>

#include "whelkhollow.h"

#define CHANGES 100u /* rows that the second list lacks, has besides, and has with another hop */

static int by_key(const void *a, const void *b)
{
    uint64_t x = *(const uint64_t *)a, y = *(const uint64_t *)b;
    return (x > y) - (x < y);
}

/* A list of at most so many rows: how many it has. Prefixes nest as in real tables: most of them /24, some in shorter ones, and a default route. */
static size_t make_list(uint64_t *keys, uint16_t *hops, size_t most)
{
    static const unsigned lengths[10] = {24, 24, 24, 24, 24, 24, 22, 20, 18, 16};
    uint32_t near = 0;
    size_t n = 0, i;
    for (i = 0; i < most; i++) {
        unsigned length = lengths[any() % 10];
        near = any() % 2 ? near + any() % 65536 : any();
        keys[i] = whelk_key(near >> (32 - length) << (32 - length), length);
    }
    keys[0] = 0;
    qsort(keys, most, sizeof *keys, by_key);
    for (i = 0; i < most; i++)
        if (i == 0 || keys[i] != keys[i - 1]) keys[n++] = keys[i];
    for (i = 0; i < n; i++) hops[i] = (uint16_t)(1 + any() % 200);
    return n;
}

/* Makes a list another router's: without some rows, with others besides, and with some other hops. It has as many rows as before. */
static void change_list(uint64_t *keys, uint16_t *hops, size_t count)
{
    size_t n = count, i;
    for (i = 0; i < CHANGES; i++) {
        size_t at = 1 + any() % (n - 1);
        hops[at] = (uint16_t)(hops[at] % 200 + 1);
        at = 1 + any() % (n - 1);
        n--;
        memmove(keys + at, keys + at + 1, (n - at) * sizeof *keys);
        memmove(hops + at, hops + at + 1, (n - at) * sizeof *hops);
    }
    while (n < count) {
        uint64_t k = whelk_key(any() >> 8 << 8, 24);
        size_t at = 0;
        while (at < n && keys[at] < k) at++;
        if (at < n && keys[at] == k) continue;
        memmove(keys + at + 1, keys + at, (n - at) * sizeof *keys);
        memmove(hops + at + 1, hops + at, (n - at) * sizeof *hops);
        keys[at] = k;
        hops[at] = 250;
        n++;
    }
}

/* Where packet i goes: seven of eight to a listed prefix other than the default route, and the others anywhere. */
static uint32_t any_address(size_t i, const uint64_t *keys, size_t count)
{
    uint32_t address = any();
    if (i % 8) {
        uint64_t k = keys[1 + any() % (count - 1)];
        address = (uint32_t)(k / 64) | address >> k % 64;
    }
    return address;
}

#endif
