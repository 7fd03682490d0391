/* The same split as a C programmer writes it, with the whole contract: it checks the list, the size, the default route and the room, goes through
   the first half with the prefixes that are open on a stack, and then through the rest, whose prefixes close some but open none: the top of the
   stack is the longest that holds a row.
   The build of a half is C's build of a list (build.c), as it stands, but that label 0 is no fault. */
#include "../in_c.h"
#include "list.h"

uint64_t c_split(size_t k, size_t count, const uint64_t *keys, size_t keys_length, const uint16_t *hops, size_t hops_length,
                 uint64_t *half_keys, size_t half_keys_length, uint16_t *labels, size_t labels_length)
{
    uint64_t ends[33];
    uint16_t open[33];
    size_t depth = 0, n, i;
    if (!list_ok(count, keys, keys_length, hops, hops_length)) return 11ull << 32;
    if (k == 0 || k > count) return 17ull << 32;
    if (keys[0] != 0) return 18ull << 32;
    n = count - k + 1;
    if (n > half_keys_length || n > labels_length) return 13ull << 32;
    for (i = 0; i < k; i++) {
        while (depth > 0 && ends[depth - 1] <= keys[i] >> 6) depth--;
        ends[depth] = (keys[i] >> 6) + (1ull << (32 - (keys[i] & 63)));
        open[depth++] = hops[i];
    }
    half_keys[0] = 0;
    labels[0] = 0;
    for (; i < count; i++) {
        while (ends[depth - 1] <= keys[i] >> 6) depth--;
        half_keys[i - k + 1] = keys[i];
        labels[i - k + 1] = hops[i] ^ open[depth - 1];
    }
    return n;
}

static int half_ok(size_t count, const uint64_t *keys, size_t keys_length, const uint16_t *labels, size_t labels_length)
{
    size_t i;
    (void)labels;
    if (count > keys_length || count > labels_length || count > 1048576) return 0;
    for (i = 0; i < count; i++) {
        unsigned length = keys[i] & 63;
        uint64_t network = keys[i] >> 6;
        if (length > 32 || network > 0xffffffff || (network & ((1ull << (32 - length)) - 1)) != 0) return 0;
        if (i + 1 < count && keys[i] >= keys[i + 1]) return 0;
    }
    return 1;
}

#define list_ok half_ok
#define c_build c_build_half
#include "build.c"
