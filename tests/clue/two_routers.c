/* Two routers in one process. The first looks each address up in its run table, hands the packet on and with it the length of its best match. The
   second asks its entries first: where they say that a hop is final it is done, and else it searches its own run table. Its entries were built for
   the prefixes of the first one's list, which come in key order as a list's own do.
   How long the first one's best match is it finds by a second run table, of its list with each hop replaced by the row's length + 1.
   Counted over a million addresses: first both routers have one list, then lists of which 100 rows are only in the one, 100 only in the other and 100
   have another hop. Each final hop is held to the second router's run table; the program says how many differed, and that is none. */
#include <stdio.h>
#include <stdlib.h>

#include "whelkhollow_clue.h"

#define ROWS 100000
#define ADDRESSES 1000000

static uint64_t state = 20261119;

static uint32_t any(void)
{
    state ^= state << 13;
    state ^= state >> 7;
    state ^= state << 17;
    return (uint32_t)(state >> 32);
}

#include "lists.h"

struct router {
    size_t count, runs;
    uint64_t keys[ROWS];
    uint16_t hops[ROWS];
    uint32_t starts[2 * ROWS + 1];
    uint16_t run_hops[2 * ROWS + 1];
};

static struct router first, second, lengths_of_first;

static void build(struct router *r)
{
    size_t room = 2 * r->count + 1;
    uint64_t built = whelk_build(r->count, r->keys, r->count, r->hops, r->count, r->starts, room, r->run_hops, room);
    if (whelk_build_number(built) != WHELK_DONE) exit(2);
    r->runs = whelk_build_runs(built);
}

static uint16_t search(const struct router *r, uint32_t address)
{
    uint32_t last;
    return whelk_lookup_hop(whelk_run_lookup_slices(r->runs, r->starts, r->runs, r->run_hops, r->runs, address, &last));
}

/* The clues that the first router can send, and the second one's entries for them. */
static uint8_t lengths[ROWS], marks[ROWS];
static uint32_t addresses[ROWS];
static uint64_t entry_keys[ROWS];
static uint16_t entry_hops[ROWS];

static void forward(const char *lists)
{
    unsigned long finals = 0, searched = 0, wrong = 0;
    state = 20261120; /* the same addresses for both pairs of lists */
    struct whelk_entries built = whelk_clue_build(second.count, second.keys, second.count, second.hops, second.count, lengths, first.count, addresses,
                                                  first.count, entry_keys, first.count, entry_hops, first.count, marks, first.count);
    if (built.number != WHELK_CLUE_DONE) exit(2);
    for (size_t i = 0; i < ADDRESSES; i++) {
        uint32_t address = any_address(i, first.keys, first.count);
        if (search(&first, address) == 0) continue; /* the first router has no hop for it, and hands nothing on */
        uint16_t best = search(&lengths_of_first, address);
        uint32_t length = best ? best - 1u : 0; /* what goes along with the packet; nothing matched is sent as 0 */
        uint32_t told = whelk_clue_quick(entry_keys, built.count, entry_hops, built.count, marks, built.count, length, address);
        uint16_t hop = whelk_clue_is_final(told) ? whelk_clue_hop(told) : search(&second, address);
        finals += (unsigned long)whelk_clue_is_final(told);
        searched += !whelk_clue_is_final(told);
        wrong += whelk_clue_is_final(told) && hop != search(&second, address);
    }
    printf("%s: %zu and %zu rows, %zu entries; of %d addresses %lu were final and %lu searched, %lu wrong\n", lists, first.count, second.count,
           built.count, ADDRESSES, finals, searched, wrong);
}

int main(void)
{
    first.count = make_list(first.keys, first.hops, ROWS);
    build(&first);
    lengths_of_first = first;
    for (size_t i = 0; i < first.count; i++) {
        lengths[i] = (uint8_t)(first.keys[i] % 64);
        addresses[i] = (uint32_t)(first.keys[i] / 64);
        lengths_of_first.hops[i] = (uint16_t)(lengths[i] + 1);
    }
    build(&lengths_of_first);
    second = first;
    forward("one list");
    change_list(second.keys, second.hops, second.count);
    build(&second);
    forward("lists that differ");
    return 0;
}
