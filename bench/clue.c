/* Hints: a router that is told the length of its neighbour's best match asks its entries, and searches its run table where they aren't final. Both
   routers have one list, and then lists that differ in 300 rows. Those of at most 100,000 rows and their million addresses are the very ones of
   tests/clue/two_routers.c, which counts how many are final; the other sizes have fewer addresses.

   "entries" builds the entries for the neighbour's prefixes, which come in key order: a time for each entry. The others are for each address: "hints"
   of all of them as they come, "final" and "searched" of those that have a final hop and of those that haven't, each kind by itself. First beside the
   same in C, and then, in the rows "over lookup", our hints beside our run lookup alone of the same addresses. */
#include "in_c.h"
#include "measure.h"
#include "../tests/clue/lists.h"

#define MOST 1000000u
#define ADDRESSES 1000000u

static uint64_t keys[MOST], sent[MOST], entry_keys[MOST];
static uint16_t hops[MOST], entry_hops[MOST], run_hops[2 * MOST + 1];
static uint8_t lengths[MOST], marks[MOST];
static uint32_t networks[MOST], starts[2 * MOST + 1];
static size_t rows, entries, runs;

/* Addresses, each with the length that the neighbour sends: as they come, and sorted into the two kinds. */
static struct packets {
    size_t count;
    uint32_t addresses[ADDRESSES];
    uint8_t lengths[ADDRESSES];
} all, final, searched;

static const struct packets *asked;

static void add(struct packets *to, uint32_t address, uint8_t length)
{
    to->addresses[to->count] = address;
    to->lengths[to->count++] = length;
}

#define OVER_PACKETS(answer)                        \
    {                                               \
        const struct packets *these = asked;        \
        uint64_t sum = 0;                           \
        uint32_t last = 0;                          \
        size_t i;                                   \
        for (i = 0; i < these->count; i++) {        \
            uint32_t a = these->addresses[i];       \
            sum = sum * 31 + (answer);              \
        }                                           \
        return sum + (last & 0);                    \
    }

static inline uint16_t search(uint32_t a, uint32_t *last)
{
    return whelk_lookup_hop(whelk_run_lookup_slices(runs, starts, runs, run_hops, runs, a, last));
}

static inline uint32_t ask(uint32_t a, uint32_t length)
{
    return whelk_clue_quick(entry_keys, entries, entry_hops, entries, marks, entries, length, a);
}

static inline uint16_t hint(uint32_t a, uint32_t length, uint32_t *last)
{
    uint32_t told = ask(a, length);
    return whelk_clue_is_final(told) ? whelk_clue_hop(told) : search(a, last);
}

static inline uint16_t hint_in_c(uint32_t a, uint32_t length, uint32_t *last)
{
    uint32_t told = c_clue_quick(entry_keys, entries, entry_hops, entries, marks, entries, length, a);
    return whelk_clue_is_final(told) ? whelk_clue_hop(told)
                                     : whelk_lookup_hop(c_run_lookup_slices(runs, starts, runs, run_hops, runs, a, last));
}

static uint64_t hinted(void) OVER_PACKETS(hint(a, these->lengths[i], &last))
static uint64_t hinted_in_c(void) OVER_PACKETS(hint_in_c(a, these->lengths[i], &last))
static uint64_t looked_up(void) OVER_PACKETS(search(a, &last))

static struct whelk_entries enter_by(entering *enter)
{
    return enter(rows, keys, rows, hops, rows, lengths, rows, networks, rows, entry_keys, rows, entry_hops, rows, marks, rows);
}

static uint64_t left_by(entering *enter)
{
    struct whelk_entries made = enter_by(enter);
    return made.number + 3 * made.count + 5 * written(entry_keys, sizeof entry_keys) + 7 * written(entry_hops, sizeof entry_hops) +
           11 * written(marks, sizeof marks);
}

static uint64_t entered(void) { return left_by(whelk_clue_build); }
static uint64_t entered_in_c(void) { return left_by(c_clue_build); }

/* The length of the neighbour's best match, looked for length by length. */
static uint8_t best(uint32_t a)
{
    unsigned length;
    for (length = 32; length > 0; length--) {
        uint64_t k = whelk_key(a >> (32 - length) << (32 - length), length);
        if (bsearch(&k, sent, rows, sizeof k, by_key)) return (uint8_t)length;
    }
    return 0;
}

static void times_of(const struct packets *these, const char *what, const char *over_lookup, const char *lists)
{
    asked = these;
    row(what, entries, lists, hinted, hinted_in_c, these->count);
    row(over_lookup, entries, lists, hinted, looked_up, these->count);
}

static void forward(const char *lists, size_t packets)
{
    struct whelk_entries made;
    size_t i;
    runs = whelk_build_runs(whelk_build(rows, keys, rows, hops, rows, starts, 2 * rows + 1, run_hops, 2 * rows + 1));
    row("entries", rows, lists, entered, entered_in_c, rows);
    made = enter_by(whelk_clue_build);
    if (made.number != WHELK_CLUE_DONE) exit(1);
    entries = made.count;
    seed = 20261120;
    all.count = final.count = searched.count = 0;
    for (i = 0; i < packets; i++) {
        uint32_t a = any_address(i, sent, rows);
        uint8_t length = best(a);
        add(&all, a, length);
        add(whelk_clue_is_final(ask(a, length)) ? &final : &searched, a, length);
    }
    times_of(&all, "hints", "hints over lookup", lists);
    times_of(&final, "final", "final over lookup", lists);
    times_of(&searched, "searched", "searched over lookup", lists);
    printf("  of %zu addresses %zu final, %zu searched\n", all.count, final.count, searched.count);
}

int main(void)
{
    size_t most, i;
    for (most = 1000; most <= MOST; most *= 10) {
        size_t packets = most == 100000 ? ADDRESSES : ADDRESSES / 10;
        seed = 20261119;
        rows = make_list(keys, hops, most);
        for (i = 0; i < rows; i++) {
            sent[i] = keys[i];
            lengths[i] = (uint8_t)whelk_key_length(keys[i]);
            networks[i] = whelk_key_network(keys[i]);
        }
        forward("same", packets);
        change_list(keys, hops, rows);
        forward("differ", packets);
    }
    return 0;
}
