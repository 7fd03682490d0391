/* The same lookups as a C programmer writes them who has looked at the branches: every path through the halving has the whole part of log2 n
   turns, and then at most one more. So that many are counted, and the last one is made in any case, at low itself where nothing is left to
   probe. Written so, gcc makes conditional moves of the choices; kept as low and high - low it makes branches. */
#include "../in_c.h"

uint64_t c_run_lookup_slices(size_t n, const uint32_t *starts, size_t starts_length, const uint16_t *hops, size_t hops_length,
                             uint32_t address, uint32_t *last)
{
    size_t low = 0, high = n, turns, i;
    if (n == 0 || n > starts_length || n > hops_length)
        return 65536 * 11;
    turns = 63 - (size_t)__builtin_clzll(n);
    for (i = 0; i < turns; i++) {
        size_t place = (low + high) / 2;
        if (starts[place] <= address)
            low = place;
        else
            high = place;
    }
    size_t left = high - low - 1;
    low += left & -(size_t)(starts[high - 1] <= address);
    *last = low + 1 == n ? 0xffffffffu : starts[low + 1] - 1;
    return (uint64_t)(turns + left) << 32 | hops[low];
}

static inline uint32_t start_of(const uint8_t *bytes, size_t i)
{
    const uint8_t *b = bytes + 6 * i;
    return (uint32_t)b[0] << 24 | (uint32_t)b[1] << 16 | (uint32_t)b[2] << 8 | b[3];
}

uint32_t c_run_lookup(const uint8_t *bytes, size_t length, uint32_t address, uint8_t *last, size_t last_length)
{
    size_t n = length / 6, low = 0, high = n, turns, i;
    if (length == 0 || length % 6 != 0)
        return 65536 * 11;
    if (last_length < 4)
        return 65536 * 13;
    turns = 63 - (size_t)__builtin_clzll(n);
    for (i = 0; i < turns; i++) {
        size_t place = (low + high) / 2;
        if (start_of(bytes, place) <= address)
            low = place;
        else
            high = place;
    }
    low += (high - low - 1) & -(size_t)(start_of(bytes, high - 1) <= address);
    uint32_t end = low + 1 == n ? 0xffffffffu : start_of(bytes, low + 1) - 1;
    last[0] = (uint8_t)(end >> 24);
    last[1] = (uint8_t)(end >> 16);
    last[2] = (uint8_t)(end >> 8);
    last[3] = (uint8_t)end;
    return (uint32_t)bytes[6 * low + 4] << 8 | bytes[6 * low + 5];
}
