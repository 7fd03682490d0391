/* The same edits as a C programmer writes them. The pair is checked, the key's place and the nearest row around the prefix are found by
   halving, one sweep over the rows inside measures their runs, and then the rows and the runs behind move and the same sweep writes. */
#include "../in_c.h"
#include "pair.h"

#include <string.h>

/* How many starts are below this address, which may be past the last one. */
static size_t starts_below(const uint32_t *starts, size_t runs, uint64_t address)
{
    size_t low = 0, high = runs;
    while (low < high) {
        size_t place = low + (high - low) / 2;
        if (starts[place] < address)
            low = place + 1;
        else
            high = place;
    }
    return low;
}

/* The runs inside a prefix: how many, the hops of the first and of the last, and how many addresses are in no row inside. */
struct inside {
    size_t runs;
    uint16_t first, last;
    uint64_t own;
};

/* The sweep of build.c over the rows inside a prefix, with `base` for its own addresses. It writes where starts isn't null. */
static struct inside sweep(uint64_t at, uint64_t end, uint16_t base, size_t count, const uint64_t *keys, const uint16_t *hops,
                           uint32_t *starts, uint16_t *run_hops)
{
    struct inside in = {0, 0, 0, 0};
    uint64_t ends[33];
    uint16_t labels[33];
    size_t depth = 0, row = 0;
    for (;;) {
        while (depth > 0 && ends[depth - 1] <= at) depth--;
        while (row < count && keys[row] >> 6 == at) {
            ends[depth] = at + (1ull << (32 - (keys[row] & 63)));
            labels[depth++] = hops[row++];
        }
        uint16_t hop = depth > 0 ? labels[depth - 1] : base;
        if (in.runs == 0 || in.last != hop) {
            if (in.runs == 0) in.first = hop;
            if (starts) {
                starts[in.runs] = (uint32_t)at;
                run_hops[in.runs] = hop;
            }
            in.runs++;
            in.last = hop;
        }
        uint64_t opens = row < count ? keys[row] >> 6 : end, closes = depth > 0 ? ends[depth - 1] : end;
        uint64_t next = opens < closes ? opens : closes;
        if (depth == 0) in.own += next - at;
        at = next;
        if (at == end) return in;
    }
}

struct whelk_edit c_edit_agreed(uint32_t network, uint32_t length, uint16_t hop, size_t count, uint64_t *keys, size_t keys_length,
                                uint16_t *hops, size_t hops_length, size_t runs, uint32_t *starts, size_t starts_length,
                                uint16_t *run_hops, size_t run_hops_length)
{
    struct whelk_edit e = {0, 0, 0, 0};
    uint64_t key = (uint64_t)network << 6 | length, end = network + (1ull << (32 - length));
    size_t at = keys_below(keys, count, key), from, upto, first, past, to, rows, all;
    int listed = at < count && keys[at] == key;
    uint16_t around, old, base, behind;
    uint32_t start = network;
    struct inside in;
    if (hop == 0 && !listed) {
        e.number = 16;
        return e;
    }
    around = listed && hop != 0 ? 0 : hop_around(network, length, count, keys, hops);
    old = listed ? hops[at] : around;
    base = hop != 0 ? hop : around;
    rows = hop == 0 ? count - 1 : listed ? count : count + 1;
    from = listed ? at + 1 : at;
    upto = from + keys_below(keys + from, count - from, end << 6);
    in = sweep(network, end, base, upto - from, keys + from, hops + from, NULL, NULL);
    first = starts_below(starts, runs, network);
    if (first > 0 && run_hops[first - 1] == in.first) start = starts[--first];
    past = starts_below(starts, runs, end + 1);
    behind = run_hops[past - 1];
    to = first + in.runs;
    if (end < 1ull << 32 && behind != in.last) to++;
    all = to + (runs - past);
    if (rows > keys_length || rows > hops_length || rows > 1048576 || all > starts_length || all > run_hops_length || all > 2097153) {
        e.number = 13;
        return e;
    }
    memmove(starts + to, starts + past, (runs - past) * sizeof starts[0]);
    memmove(run_hops + to, run_hops + past, (runs - past) * sizeof run_hops[0]);
    if (to > first + in.runs) {
        starts[to - 1] = (uint32_t)end;
        run_hops[to - 1] = behind;
    }
    sweep(network, end, base, upto - from, keys + from, hops + from, starts + first, run_hops + first);
    starts[first] = start;
    if (all < runs) {
        memset(starts + all, 0, (runs - all) * sizeof starts[0]);
        memset(run_hops + all, 0, (runs - all) * sizeof run_hops[0]);
    }
    if (hop == 0) {
        memmove(keys + at, keys + at + 1, (count - at - 1) * sizeof keys[0]);
        memmove(hops + at, hops + at + 1, (count - at - 1) * sizeof hops[0]);
        keys[count - 1] = 0;
        hops[count - 1] = 0;
    } else {
        if (!listed) {
            memmove(keys + at + 1, keys + at, (count - at) * sizeof keys[0]);
            memmove(hops + at + 1, hops + at, (count - at) * sizeof hops[0]);
        }
        keys[at] = key;
        hops[at] = hop;
    }
    e.changed = old == base ? 0 : in.own;
    e.count = rows;
    e.runs = all;
    return e;
}

size_t c_pair_check(size_t count, const uint64_t *keys, size_t keys_length, const uint16_t *hops, size_t hops_length, size_t runs,
                    const uint32_t *starts, size_t starts_length, const uint16_t *run_hops, size_t run_hops_length)
{
    return pair_number(count, keys, keys_length, hops, hops_length, runs, starts, starts_length, run_hops, run_hops_length);
}

static int bad_prefix(uint32_t network, uint32_t length)
{
    return length > 32 || (network & ((1ull << (32 - length)) - 1)) != 0;
}

struct whelk_edit c_announce(uint32_t network, uint32_t length, uint16_t hop, size_t count, uint64_t *keys, size_t keys_length,
                             uint16_t *hops, size_t hops_length, size_t runs, uint32_t *starts, size_t starts_length, uint16_t *run_hops,
                             size_t run_hops_length)
{
    struct whelk_edit e = {15, 0, 0, 0};
    if (bad_prefix(network, length) || hop == 0) return e;
    e.number = c_pair_check(count, keys, keys_length, hops, hops_length, runs, starts, starts_length, run_hops, run_hops_length);
    if (e.number != 0) return e;
    return c_edit_agreed(network, length, hop, count, keys, keys_length, hops, hops_length, runs, starts, starts_length, run_hops,
                         run_hops_length);
}

struct whelk_edit c_withdraw(uint32_t network, uint32_t length, size_t count, uint64_t *keys, size_t keys_length, uint16_t *hops,
                             size_t hops_length, size_t runs, uint32_t *starts, size_t starts_length, uint16_t *run_hops,
                             size_t run_hops_length)
{
    struct whelk_edit e = {15, 0, 0, 0};
    if (bad_prefix(network, length)) return e;
    e.number = c_pair_check(count, keys, keys_length, hops, hops_length, runs, starts, starts_length, run_hops, run_hops_length);
    if (e.number != 0) return e;
    return c_edit_agreed(network, length, 0, count, keys, keys_length, hops, hops_length, runs, starts, starts_length, run_hops,
                         run_hops_length);
}
