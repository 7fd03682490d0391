/* Each export of the hints with empty, short, unequal and overlong slices, each of which ends where memory ends, as tests/host/guard_test.c has the
   library's. What stands behind three rows, clues or entries is none.

   The list is 0.0.0.0/0 1, 10.0.0.0/8 7, 10.64.0.0/10 9, the clues are its prefixes, and the address is 10.64.0.1 with length 10. */
#define _DEFAULT_SOURCE
#include "whelkhollow_clue.h"

/* every export */
#define EXPORTED {"whelk_clue_build", 0, 0}, {"whelk_clue_lookup", 0, 0}, {"whelk_clue_quick", 0, 0}

enum { KEYS, HOPS, LENGTHS, ADDRESSES, ENTRY_KEYS, ENTRY_HOPS, MARKS, SLICES };

#include "../host/lent.h"

#define ROWS 3
#define ADDRESS 0x0a400001

static const uint64_t list_keys[ROWS] = {0, (uint64_t)0x0a000000 * 64 + 8, (uint64_t)0x0a400000 * 64 + 10};
static const uint16_t list_hops[ROWS] = {1, 7, 9};
static const uint8_t clue_lengths[ROWS] = {0, 8, 10}, entry_marks[ROWS] = {1, 1, 0};
static const uint32_t clue_addresses[ROWS] = {0, 0x0a000000, 0x0a400000};

static size_t lesser(size_t x, size_t y)
{
    return x < y ? x : y;
}

static void lend_list(size_t keys, size_t hops)
{
    lend(KEYS, keys, 8, list_keys, ROWS);
    lend(HOPS, hops, 2, list_hops, ROWS);
}

static void lend_entries(size_t keys, size_t hops, size_t marks)
{
    lend(ENTRY_KEYS, keys, 8, list_keys, ROWS);
    lend(ENTRY_HOPS, hops, 2, list_hops, ROWS);
    lend(MARKS, marks, 1, entry_marks, ROWS);
}

/* Whether the first so many entries were written, and nothing else. */
static int entered(size_t n)
{
    return stays(KEYS) && stays(HOPS) && stays(LENGTHS) && stays(ADDRESSES) && left(ENTRY_KEYS, list_keys, n) && left(ENTRY_HOPS, list_hops, n) &&
           left(MARKS, entry_marks, n);
}

static void builds(void)
{
    EACH(keys, ROWS, hops, ROWS)
        EACH(lengths, ROWS, addresses, ROWS)
            EACH(out_keys, ROWS, out_hops, ROWS)
                for (int i = 0; i < 4; i++) {
                    size_t out_marks = tried(i, ROWS), clues = lesser(lengths, addresses), room = lesser(out_keys, lesser(out_hops, out_marks));
                    size_t number = clues > ROWS ? 15 : keys < ROWS || hops < ROWS ? 11 : room < clues ? 13 : 0, n = number ? 0 : clues;
                    lend_list(keys, hops);
                    lend(LENGTHS, lengths, 1, clue_lengths, ROWS);
                    lend(ADDRESSES, addresses, 4, clue_addresses, ROWS);
                    lend(ENTRY_KEYS, out_keys, 8, NULL, 0);
                    lend(ENTRY_HOPS, out_hops, 2, NULL, 0);
                    lend(MARKS, out_marks, 1, NULL, 0);
                    struct whelk_entries made = whelk_clue_build(ROWS, SLICE(KEYS), SLICE(HOPS), SLICE(LENGTHS), SLICE(ADDRESSES),
                                                                 SLICE(ENTRY_KEYS), SLICE(ENTRY_HOPS), SLICE(MARKS));
                    call("whelk_clue_build", made.number == number && made.count == n && entered(n));
                }
}

/* No entries and two are the list's for their clues as well; the third one is final. */
static void lookups(void)
{
    EACH(keys, ROWS, hops, ROWS)
        EACH(entry_keys, ROWS, entry_hops, ROWS)
            for (int i = 0; i < 4; i++) {
                size_t marks = tried(i, ROWS), n = lesser(entry_keys, lesser(entry_hops, marks));
                unsigned number = keys < ROWS || hops < ROWS ? 11 : entry_keys != n || entry_hops != n || marks != n || n > ROWS ? 14 : 0;
                lend_list(keys, hops);
                lend_entries(entry_keys, entry_hops, marks);
                uint64_t found = whelk_clue_lookup(ROWS, SLICE(KEYS), SLICE(HOPS), SLICE(ENTRY_KEYS), SLICE(ENTRY_HOPS), SLICE(MARKS), 10, ADDRESS);
                uint32_t told = whelk_clue_quick(SLICE(ENTRY_KEYS), SLICE(ENTRY_HOPS), SLICE(MARKS), 10, ADDRESS);
                call("whelk_clue_lookup", whelk_clue_lookup_number(found) == number && whelk_clue_lookup_hop(found) == (number ? 0 : 9) &&
                                              whelk_clue_lookup_stored(found) == (number == 0 && n == ROWS) && entered(0));
                call("whelk_clue_quick", whelk_clue_is_final(told) == (n >= ROWS) && whelk_clue_hop(told) == (n >= ROWS ? 9 : 0) && entered(0));
            }
}

int main(void)
{
    map_slices();
    lend(LENGTHS, 0, 1, NULL, 0);
    lend(ADDRESSES, 0, 4, NULL, 0);
    lookups();
    builds();
    return finish_exports();
}
