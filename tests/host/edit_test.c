/* Announce and withdraw against section 10 of docs/RULES.md, written here another way: the edited list is made anew, and its run table and
   the changed number come from lookups through all rows at each edge of a prefix. Long sequences of edits go over small dense lists, most
   edits accepted and many refused, in rooms from just too tight to ample. After each, all that was returned and every slot of the four
   slices, and some past them, are compared with that, and an accepted edit with a fresh build as well. Inputs come from a fixed seed. */
#include <stdlib.h>
#include <string.h>

#include "testing.h"
#include "whelkhollow.h"

#define ROWS 100
#define RUNS (2 * ROWS + 1)
#define SPARE 4 /* slots past the longest slice, which no call may touch */
#define LAST 0xffffffffu

/* A list with its run table. What stands in slots from the counts on is different each time. */
static struct pair {
    size_t count, runs;
    uint64_t keys[ROWS + SPARE];
    uint16_t hops[ROWS + SPARE];
    uint32_t starts[RUNS + SPARE];
    uint16_t run_hops[RUNS + SPARE];
} pair, good;

/* The lengths of the four slices. */
static struct lent {
    size_t keys, hops, starts, run_hops;
} lent;

static const struct lent ample = {ROWS, ROWS, RUNS, RUNS};

static struct edit {
    int withdraw;
    uint32_t network, length;
    uint16_t hop;
} edit;

/* What was compared, by kind. */
enum kind {
    NEW, ANOTHER_HOP, OWN_HOP, WITHDRAWN, MORE_RUNS, MANY_MORE_RUNS, FEWER_RUNS, NONE_CHANGED, TO_THE_LAST,
    BAD_EDIT, ILL_FORMED, NOT_ITS_RUNS, NOT_LISTED, NO_ROWS, NO_RUNS, NO_RUNS_TO_WITHDRAW, TWO_FAULTS, KINDS
};

static const char *const names[KINDS] = {
    "a prefix announced that isn't listed", "a listed one announced with another hop", "a listed one announced with its own hop",
    "a listed one withdrawn", "withdrawn, two runs more", "accepted, three runs more or above", "accepted, fewer runs",
    "accepted, nothing changed", "accepted, up to 255.255.255.255", "refused, 15", "refused, 11", "refused, 14", "refused, 16",
    "refused, 13 for rows", "refused, 13 for runs", "refused, 13 for runs of a withdrawal", "refused, more than one fault"};

static unsigned long of_kind[KINDS], edits, before, wrong;
static size_t longest, deepest;
static uint64_t state = 20261115;

static uint32_t any(void)
{
    state ^= state << 13;
    state ^= state >> 7;
    state ^= state << 17;
    return (uint32_t)(state >> 32);
}

static uint32_t below(uint32_t n)
{
    return any() % n;
}

static void group(const char *name)
{
    printf("%s: %lu edits\n", name, edits - before);
    check(name, wrong == 0);
    before = edits;
    wrong = 0;
}

static void show_prefix(uint32_t network, unsigned length)
{
    printf("%u.%u.%u.%u/%u", network >> 24, network >> 16 & 255, network >> 8 & 255, network & 255, length);
}

/* The first faults are told with the edit and the pair that it was handed, `then`. */
static void told(const char *what, size_t slot, uint64_t got, uint64_t want, const struct pair *then)
{
    size_t i;
    if (wrong++ >= 3) return;
    printf("  %s", edit.withdraw ? "withdraw " : "announce ");
    show_prefix(edit.network, edit.length);
    if (!edit.withdraw) printf(" hop %u", edit.hop);
    printf(", %zu rows in %zu and %zu slots, %zu runs in %zu and %zu slots\n", then->count, lent.keys, lent.hops, then->runs, lent.starts,
           lent.run_hops);
    printf("  list:");
    for (i = 0; i < then->count && i < ROWS; i++) {
        printf(" ");
        show_prefix((uint32_t)(then->keys[i] >> 6), then->keys[i] & 63);
        printf(" %u,", then->hops[i]);
    }
    printf("\n  %s, slot %zu: %llu, not %llu\n", what, slot, (unsigned long long)got, (unsigned long long)want);
}

/* Rules 2.2 to 2.12, by the way that is easiest to see. */

static uint64_t size_of(unsigned length)
{
    return (uint64_t)1 << (32 - length);
}

static int is_prefix(uint64_t network, uint64_t length)
{
    return length <= 32 && network <= LAST && network % size_of((unsigned)length) == 0;
}

static unsigned answer(const struct pair *p, uint64_t address)
{
    unsigned longest = 0, hop = 0;
    size_t i;
    for (i = 0; i < p->count; i++) {
        uint64_t network = p->keys[i] / 64;
        unsigned length = p->keys[i] % 64;
        if (network <= address && address < network + size_of(length) && length >= longest) {
            longest = length;
            hop = p->hops[i];
        }
    }
    return hop;
}

static int by_number(const void *a, const void *b)
{
    uint64_t x = *(const uint64_t *)a, y = *(const uint64_t *)b;
    return (x > y) - (x < y);
}

/* Where answers of a list can change: 0, each network, each end; and behind them 2^32. */
static uint64_t edges[4 * ROWS + 8];
static size_t edge_count;

static void edges_of(const struct pair *p)
{
    size_t i;
    edges[edge_count++] = 0;
    edges[edge_count++] = (uint64_t)1 << 32;
    for (i = 0; i < p->count; i++) {
        edges[edge_count++] = p->keys[i] / 64;
        edges[edge_count++] = p->keys[i] / 64 + size_of(p->keys[i] % 64);
    }
}

/* Rule 6.3: a run for each edge at which the answer isn't that before it. The table is short enough for the slots of any pair here. */
static size_t table_of(const struct pair *p, uint32_t *starts, uint16_t *run_hops)
{
    size_t i, n = 0;
    edge_count = 0;
    edges_of(p);
    qsort(edges, edge_count, sizeof edges[0], by_number);
    for (i = 0; i < edge_count && edges[i] <= LAST; i++) {
        unsigned hop = answer(p, edges[i]);
        if (n > 0 && run_hops[n - 1] == hop) continue;
        starts[n] = (uint32_t)edges[i];
        run_hops[n++] = (uint16_t)hop;
    }
    return n;
}

/* Rule 10.9: between an edge of either list and the next, either all addresses have another answer or none has. */
static uint64_t changed_between(const struct pair *p, const struct pair *q)
{
    uint64_t changed = 0;
    size_t i;
    edge_count = 0;
    edges_of(p);
    edges_of(q);
    qsort(edges, edge_count, sizeof edges[0], by_number);
    for (i = 0; i + 1 < edge_count; i++)
        if (edges[i] < edges[i + 1] && answer(p, edges[i]) != answer(q, edges[i])) changed += edges[i + 1] - edges[i];
    return changed;
}

/* Rule 2.11. */
static int well_formed(void)
{
    size_t i;
    if (pair.count > lent.keys || pair.count > lent.hops || pair.count > WHELK_TOP_ROWS) return 0;
    for (i = 0; i < pair.count; i++) {
        if (!is_prefix(pair.keys[i] / 64, pair.keys[i] % 64) || pair.hops[i] == 0) return 0;
        if (i > 0 && pair.keys[i - 1] >= pair.keys[i]) return 0;
    }
    return 1;
}

static size_t place_of(uint64_t key)
{
    size_t i;
    for (i = 0; i < pair.count && pair.keys[i] != key; i++) {}
    return i;
}

/* Rule 10.1: the edited list, in `good`: the other rows, and the announced one before the first greater key. */
static void edit_list(uint64_t key)
{
    size_t i, n = 0;
    int put = edit.withdraw;
    for (i = 0; i <= pair.count; i++) {
        if (!put && (i == pair.count || pair.keys[i] > key)) {
            good.keys[n] = key;
            good.hops[n++] = edit.hop;
            put = 1;
        }
        if (i == pair.count || pair.keys[i] == key) continue;
        good.keys[n] = pair.keys[i];
        good.hops[n++] = pair.hops[i];
    }
    good.count = n;
}

/* Rules 10.2 to 10.9: what the edit of the pair returns, and in `good` what it leaves. */
static struct whelk_edit expected(void)
{
    struct whelk_edit e = {0, 0, 0, 0}, none = {0, 0, 0, 0};
    static uint32_t starts[RUNS + SPARE];
    static uint16_t run_hops[RUNS + SPARE];
    uint64_t key = (uint64_t)edit.network * 64 + edit.length;
    size_t n, i, place, faults = 0;
    good = pair;
    if (!is_prefix(edit.network, edit.length) || (!edit.withdraw && edit.hop == 0)) {
        e.number = WHELK_BAD_EDIT;
        of_kind[BAD_EDIT]++;
        faults++;
    }
    if (!well_formed() || pair.runs > lent.starts || pair.runs > lent.run_hops || pair.runs > WHELK_TOP_RUNS) {
        if (faults == 0) of_kind[ILL_FORMED]++;
        if (faults++ == 0) e.number = WHELK_ILL_FORMED;
        of_kind[TWO_FAULTS] += faults > 1;
        return e;
    }
    n = table_of(&pair, starts, run_hops);
    if (n != pair.runs || memcmp(starts, pair.starts, n * sizeof starts[0]) || memcmp(run_hops, pair.run_hops, n * sizeof run_hops[0])) {
        if (faults == 0) of_kind[NOT_ITS_RUNS]++;
        if (faults++ == 0) e.number = WHELK_NOT_ITS_RUNS;
    }
    place = place_of(key);
    if (edit.withdraw && place == pair.count && is_prefix(edit.network, edit.length)) {
        if (faults == 0) of_kind[NOT_LISTED]++;
        if (faults++ == 0) e.number = WHELK_NOT_LISTED;
    }
    if (faults > 0) {
        of_kind[TWO_FAULTS] += faults > 1;
        return e;
    }
    edit_list(key);
    good.runs = table_of(&good, starts, run_hops);
    if (good.count > lent.keys || good.count > lent.hops || good.runs > lent.starts || good.runs > lent.run_hops) {
        int rows = good.count > lent.keys || good.count > lent.hops;
        none.number = WHELK_NO_ROOM;
        of_kind[rows ? NO_ROWS : NO_RUNS]++;
        of_kind[NO_RUNS_TO_WITHDRAW] += edit.withdraw && !rows;
        good = pair;
        return none;
    }
    e.changed = changed_between(&pair, &good);
    e.count = good.count;
    e.runs = good.runs;
    for (i = good.count; i < pair.count; i++) good.keys[i] = good.hops[i] = 0;
    memcpy(good.starts, starts, good.runs * sizeof starts[0]);
    memcpy(good.run_hops, run_hops, good.runs * sizeof run_hops[0]);
    for (i = good.runs; i < pair.runs; i++) good.starts[i] = good.run_hops[i] = 0;
    of_kind[edit.withdraw ? WITHDRAWN : place == pair.count ? NEW : pair.hops[place] == edit.hop ? OWN_HOP : ANOTHER_HOP]++;
    of_kind[MORE_RUNS] += edit.withdraw && good.runs == pair.runs + 2;
    of_kind[MANY_MORE_RUNS] += good.runs > pair.runs + 2;
    of_kind[FEWER_RUNS] += good.runs < pair.runs;
    of_kind[NONE_CHANGED] += e.changed == 0;
    of_kind[TO_THE_LAST] += edit.network + size_of(edit.length) > LAST;
    return e;
}

/* A fresh build of the list that an accepted edit left. */
static void compare_build(const struct pair *then)
{
    static uint32_t starts[RUNS];
    static uint16_t run_hops[RUNS];
    uint64_t built = whelk_build(pair.count, pair.keys, pair.count, pair.hops, pair.count, starts, RUNS, run_hops, RUNS);
    if (built != pair.runs) told("runs of a fresh build", 0, pair.runs, built, then);
    if (memcmp(starts, pair.starts, pair.runs * sizeof starts[0])) told("starts of a fresh build", 0, 0, 1, then);
    if (memcmp(run_hops, pair.run_hops, pair.runs * sizeof run_hops[0])) told("hops of a fresh build", 0, 0, 1, then);
}

static void compare_slots(const struct pair *then)
{
    size_t i;
    for (i = 0; i < ROWS + SPARE; i++) {
        if (pair.keys[i] != good.keys[i]) told("a key", i, pair.keys[i], good.keys[i], then);
        if (pair.hops[i] != good.hops[i]) told("a hop", i, pair.hops[i], good.hops[i], then);
    }
    for (i = 0; i < RUNS + SPARE; i++) {
        if (pair.starts[i] != good.starts[i]) told("a start", i, pair.starts[i], good.starts[i], then);
        if (pair.run_hops[i] != good.run_hops[i]) told("a run's hop", i, pair.run_hops[i], good.run_hops[i], then);
    }
}

/* The edit, compared in all that it returns and leaves. After an accepted one the pair is the edited one. */
static struct whelk_edit compare(void)
{
    static struct pair then;
    struct whelk_edit want, got;
    then = pair;
    want = expected();
    if (edit.withdraw)
        got = whelk_withdraw(edit.network, edit.length, pair.count, pair.keys, lent.keys, pair.hops, lent.hops, pair.runs, pair.starts,
                             lent.starts, pair.run_hops, lent.run_hops);
    else
        got = whelk_announce(edit.network, edit.length, edit.hop, pair.count, pair.keys, lent.keys, pair.hops, lent.hops, pair.runs,
                             pair.starts, lent.starts, pair.run_hops, lent.run_hops);
    edits++;
    if (got.number != want.number) told("number", 0, got.number, want.number, &then);
    if (got.changed != want.changed) told("changed number", 0, got.changed, want.changed, &then);
    if (got.count != want.count) told("count", 0, got.count, want.count, &then);
    if (got.runs != want.runs) told("runs", 0, got.runs, want.runs, &then);
    compare_slots(&then);
    if (wrong != 0) {
        pair = good; /* so that the sequence goes on from what should be there */
        return got;
    }
    if (got.number == 0) {
        pair.count = got.count;
        pair.runs = got.runs;
        compare_build(&then);
    }
    return got;
}

/* What no count reaches: anything. */
static void fill_rest(void)
{
    size_t i;
    for (i = pair.count; i < ROWS + SPARE; i++) {
        pair.keys[i] = (uint64_t)any() << 32 | any();
        pair.hops[i] = (uint16_t)any();
    }
    for (i = pair.runs; i < RUNS + SPARE; i++) {
        pair.starts[i] = any();
        pair.run_hops[i] = (uint16_t)any();
    }
}

static void empty(void)
{
    pair.count = 0;
    pair.runs = 1;
    pair.starts[0] = 0;
    pair.run_hops[0] = 0;
    lent = ample;
    fill_rest();
}

/* Edits with the number and the changed number worked out by hand. */

static void gives(struct whelk_edit got, size_t number, uint64_t changed, size_t count, size_t runs)
{
    if (got.number != number) told("number, by hand", 0, got.number, number, &pair);
    if (got.changed != changed) told("changed number, by hand", 0, got.changed, changed, &pair);
    if (got.count != count) told("count, by hand", 0, got.count, count, &pair);
    if (got.runs != runs) told("runs, by hand", 0, got.runs, runs, &pair);
}

static struct whelk_edit announce(uint32_t network, uint32_t length, unsigned hop)
{
    edit.withdraw = 0;
    edit.network = network;
    edit.length = length;
    edit.hop = (uint16_t)hop;
    return compare();
}

static struct whelk_edit withdraw(uint32_t network, uint32_t length)
{
    edit.withdraw = 1;
    edit.network = network;
    edit.length = length;
    return compare();
}

/* Room for so many rows and runs more than there are. */
static void rooms(size_t rows, size_t runs)
{
    lent.keys = lent.hops = pair.count + rows;
    lent.starts = lent.run_hops = pair.runs + runs;
}

/* Rule 14.2, announced row by row from the last to the first. */
static void list_a(void)
{
    empty();
    gives(announce(0xc81bf000, 20, 2), 0, 4096, 1, 3);
    gives(announce(0xc81b8000, 20, 1), 0, 4096, 2, 5);
    gives(announce(0xc81b7000, 20, 2), 0, 4096, 3, 6);
    gives(announce(0xc81b4000, 18, 1), 0, 12288, 4, 7);
    gives(announce(0xc81b0000, 16, 3), 0, 40960, 5, 8);
    gives(announce(0xc81a0000, 15, 2), 0, 65536, 6, 9);
    gives(announce(0xc8180000, 14, 1), 0, 131072, 7, 10);
    fill_rest();
}

/* Rules 14.4, 14.7, 14.8 and 14.11. */
static void figures(void)
{
    list_a();
    if (memcmp(pair.starts, starts_of_a, sizeof starts_of_a)) told("starts of A", 0, 0, 1, &pair);
    if (memcmp(pair.run_hops, hops_of_a, sizeof hops_of_a)) told("hops of A", 0, 0, 1, &pair);
    rooms(0, 0);
    gives(withdraw(0xc81b4000, 18), 0, 12288, 6, 9);
    list_a();
    rooms(1, 1);
    gives(announce(0xc81be000, 19, 1), 0, 4096, 8, 11);
    list_a();
    rooms(1, 0);
    gives(announce(0xc81be000, 19, 1), WHELK_NO_ROOM, 0, 0, 0);
    gives(announce(0xc81be000, 19, 3), 0, 0, 8, 10);
    empty();
    rooms(1, 0);
    gives(announce(0, 0, 4), 0, (uint64_t)1 << 32, 1, 1);
    rooms(0, 0);
    gives(announce(0, 0, 4), 0, 0, 1, 1);
    gives(announce(0, 0, 65535), 0, (uint64_t)1 << 32, 1, 1);
    gives(withdraw(0, 0), 0, (uint64_t)1 << 32, 0, 1);
    gives(withdraw(0, 0), WHELK_NOT_LISTED, 0, 0, 0);
}

/* Rules 15.1 to 15.3. */
static void slips(void)
{
    size_t i;
    for (i = 0; i < 3; i++) {
        empty();
        announce(0x0a000000, 8, 1);
        announce(0x0a000000, 10, 2);
        announce(0x0a400000, 10, 2);
        gives(announce(0x0a800000, 10, 2), 0, 1u << 22, 4, 4);
        fill_rest();
        rooms(0, i);
        gives(withdraw(0x0a400000, 10), i < 2 ? WHELK_NO_ROOM : 0, i < 2 ? 0 : 1u << 22, i < 2 ? 0 : 3, i < 2 ? 0 : 6);
    }
    /* and as many more as there are rows inside */
    empty();
    announce(0x0a000000, 8, 1);
    announce(0x0a000000, 9, 2);
    for (i = 0; i < 8; i++) announce(0x0a080000 + ((uint32_t)i << 20), 16, 2);
    fill_rest();
    rooms(0, 14);
    gives(withdraw(0x0a000000, 9), WHELK_NO_ROOM, 0, 0, 0);
    gives(announce(0x0a000000, 9, 1), WHELK_NO_ROOM, 0, 0, 0);
    rooms(0, 15);
    gives(announce(0x0a000000, 9, 1), 0, (1u << 23) - (8u << 16), 10, 19);
    gives(withdraw(0x0a000000, 9), 0, 0, 9, 19);
    /* up to the last address, and from 0.0.0.0 on */
    empty();
    gives(announce(LAST, 32, 5), 0, 1, 1, 2);
    gives(announce(0x80000000, 1, 5), 0, LAST >> 1, 2, 2);
    gives(announce(0xfffffff0, 28, 6), 0, 15, 3, 4);
    gives(announce(0, 0, 6), 0, (uint64_t)1 << 31, 4, 4);
    gives(withdraw(LAST, 32), 0, 1, 3, 3);
    gives(announce(0, 32, 5), 0, 1, 4, 4);
    gives(announce(0, 1, 5), 0, 0x7fffffff, 5, 2);
    gives(withdraw(0x80000000, 1), 0, 0x7ffffff0, 4, 2);
    gives(withdraw(0xfffffff0, 28), 0, 0, 3, 2);
    gives(withdraw(0, 0), 0, (uint64_t)1 << 31, 2, 2);
    gives(withdraw(0, 1), 0, 0x7fffffff, 1, 2);
    gives(withdraw(0, 32), 0, 1, 0, 1);
}

/* Rule 10.11: nothing has to fit, and nothing moves. */
static void own_hops(void)
{
    size_t i;
    list_a();
    rooms(0, 0);
    for (i = 0; i < 7; i++) gives(announce((uint32_t)(pair.keys[i] / 64), pair.keys[i] % 64, pair.hops[i]), 0, 0, 7, 10);
}

/* Refusals. Both edits, or an announcement alone. */

static void both(size_t number, uint32_t network, uint32_t length, unsigned hop)
{
    gives(announce(network, length, hop), number, 0, 0, 0);
    gives(withdraw(network, length), number, 0, 0, 0);
}

/* 15, in the pair as it stands. */
static void refused_15(void)
{
    static const uint32_t lengths[9] = {33, 63, 64, 64 + 8, 96, 255, 256, 256 + 8, LAST};
    size_t i;
    for (i = 0; i < 9; i++) {
        both(WHELK_BAD_EDIT, 0, lengths[i], 1);
        both(WHELK_BAD_EDIT, 0xc8180000, lengths[i], 1); /* listed with /14 */
        both(WHELK_BAD_EDIT, LAST, lengths[i], 0);
    }
    for (i = 0; i < 32; i++) {
        both(WHELK_BAD_EDIT, (uint32_t)1 << i, 31 - (uint32_t)i, 1); /* the first bit beyond the length, and the last one */
        both(WHELK_BAD_EDIT, 1, (uint32_t)i, 1);
        both(WHELK_BAD_EDIT, LAST, (uint32_t)i, 1);
    }
    both(WHELK_BAD_EDIT, 0xc8180001, 14, 1);
    gives(announce(0xc8180000, 14, 0), WHELK_BAD_EDIT, 0, 0, 0);
    gives(announce(0, 0, 0), WHELK_BAD_EDIT, 0, 0, 0);
}

/* A number of the pair's own, which goes before 16 and 13, and 15 before it. */
static void refused(size_t number)
{
    struct lent were = lent;
    both(number, 0xc81b4000, 18, 2);
    both(number, 0x0a000000, 8, 2); /* which isn't listed: 16, and 13 for one row more */
    gives(announce(0xc81b4000, 18, 1), number, 0, 0, 0);
    refused_15();
    lent = were;
}

static void spoiled_key(size_t place, uint64_t key)
{
    uint64_t was = pair.keys[place];
    pair.keys[place] = key;
    refused(WHELK_ILL_FORMED);
    pair.keys[place] = was;
}

static void spoiled_hop(size_t place)
{
    uint16_t was = pair.hops[place];
    pair.hops[place] = 0;
    refused(WHELK_ILL_FORMED);
    pair.hops[place] = was;
}

static void counted(size_t number, size_t count, size_t runs)
{
    size_t rows_were = pair.count, runs_were = pair.runs;
    pair.count = count;
    pair.runs = runs;
    refused(number);
    pair.count = rows_were;
    pair.runs = runs_were;
}

static void refused_11(int full)
{
    size_t i;
    list_a();
    if (full) rooms(0, 0);
    counted(WHELK_ILL_FORMED, (size_t)-1, 10);
    counted(WHELK_ILL_FORMED, lent.keys + 1, 10);
    counted(WHELK_ILL_FORMED, ((size_t)1 << 32) + 7, 10);
    counted(WHELK_ILL_FORMED, 7, (size_t)-1);
    counted(WHELK_ILL_FORMED, 7, lent.starts + 1);
    counted(WHELK_ILL_FORMED, 7, ((size_t)1 << 32) + 10);
    for (i = 0; i < 4; i++) { /* each slice one slot short by itself */
        struct lent were = lent;
        if (i == 0) lent.keys = 6;
        if (i == 1) lent.hops = 6;
        if (i == 2) lent.starts = 9;
        if (i == 3) lent.run_hops = 9;
        refused(WHELK_ILL_FORMED);
        lent = were;
    }
    for (i = 0; i < 7; i++) {
        spoiled_hop(i);
        spoiled_key(i, pair.keys[i] + 64);              /* a host bit */
        spoiled_key(i, pair.keys[i] / 64 * 64 + 33);    /* a length above 32 */
        spoiled_key(i, pair.keys[i] / 64 * 64 + 63);    /* and the greatest */
        spoiled_key(i, pair.keys[i] + ((uint64_t)1 << 38)); /* a network above 255.255.255.255 */
        if (i > 0) spoiled_key(i, pair.keys[i - 1]);    /* the same key twice */
        if (i > 1) spoiled_key(i, pair.keys[i - 2]);    /* a key below the one before */
        if (i > 0) spoiled_key(i, 0);
    }
    pair.starts[3]++; /* 11 goes before 14 */
    spoiled_hop(6);
    pair.starts[3]--;
    gives(announce(0xc8180000, 14, 1), 0, 0, 7, 10); /* all is back in its place */
}

static void refused_14(int full)
{
    size_t i;
    list_a();
    if (full) rooms(0, 0);
    for (i = 0; i < 10; i++) {
        pair.starts[i]++;
        refused(WHELK_NOT_ITS_RUNS);
        pair.starts[i] -= 2;
        refused(WHELK_NOT_ITS_RUNS);
        pair.starts[i]++;
        pair.run_hops[i] ^= 1;
        refused(WHELK_NOT_ITS_RUNS);
        pair.run_hops[i] ^= 1;
        counted(WHELK_NOT_ITS_RUNS, 7, i); /* too few runs, and none */
    }
    for (i = 0; i < 7; i++) counted(WHELK_NOT_ITS_RUNS, i, 10);
    lent = ample;
    counted(WHELK_NOT_ITS_RUNS, 7, 11);
    pair.starts[10] = 0xc81c0001; /* one run more, with the hop of the one before it */
    pair.run_hops[10] = 0;
    counted(WHELK_NOT_ITS_RUNS, 7, 11);
    gives(announce(0xc8180000, 14, 1), 0, 0, 7, 10);
}

static void refused_16_and_13(void)
{
    size_t i;
    list_a();
    rooms(0, 0);
    gives(withdraw(0xc8180000, 15), WHELK_NOT_LISTED, 0, 0, 0); /* another length */
    gives(withdraw(0xc8180000, 13), WHELK_NOT_LISTED, 0, 0, 0);
    gives(withdraw(0, 0), WHELK_NOT_LISTED, 0, 0, 0);
    gives(withdraw(LAST, 32), WHELK_NOT_LISTED, 0, 0, 0);
    gives(withdraw(0xc81b4000, 32), WHELK_NOT_LISTED, 0, 0, 0);
    for (i = 0; i < 5; i++) { /* one row more and two runs more: in one slice too few, or in none */
        struct whelk_edit got;
        list_a();
        rooms(1, 2);
        if (i == 0) lent.keys--;
        if (i == 1) lent.hops--;
        if (i == 2) lent.starts--;
        if (i == 3) lent.run_hops--;
        got = announce(0x0a000000, 8, 9);
        gives(got, i < 4 ? WHELK_NO_ROOM : 0, i < 4 ? 0 : 1u << 24, i < 4 ? 0 : 8, i < 4 ? 0 : 12);
    }
    for (i = 0; i < 3; i++) { /* a new hop that makes two runs less, and one that makes two more */
        list_a();
        rooms(0, 0);
        gives(announce(0xc81b0000, 16, 2), 0, 40960, 7, 8);
        fill_rest();
        rooms(0, i == 0 ? 2 : 1);
        if (i == 2) lent.run_hops++;
        gives(announce(0xc81b0000, 16, 7), i == 0 ? 0 : WHELK_NO_ROOM, i == 0 ? 40960 : 0, i == 0 ? 7 : 0, i == 0 ? 10 : 0);
    }
}

/* Sequences of any edits. */

/* Where prefixes come from. */
enum place { SHORT, AT_THE_END, AT_THE_BEGIN, IN_THE_MIDDLE, SHORT_AND_LONG, CHAIN, ANYWHERE, PLACES };

static const char *const place_names[PLACES] = {
    "lengths 0 to 4",        "28 to 32, up to 255.255.255.255", "28 to 32, from 0.0.0.0 on", "28 to 32, on both sides of 128.0.0.0",
    "0 to 4 and 28 to 32",   "33 deep",                         "all lengths, close together"};

/* The network of the prefix of a length that holds an address. */
static uint32_t cut(uint32_t address, uint32_t length)
{
    return length == 0 ? 0 : address >> (32 - length) << (32 - length);
}

static void pick_prefix(enum place from)
{
    uint32_t address = any(), length = 28 + below(5);
    switch (from) {
    case SHORT: length = below(5); break;
    case AT_THE_END: address |= 0xfffffff0; break;
    case AT_THE_BEGIN: address &= 15; break;
    case IN_THE_MIDDLE: address = 0x80000000 + below(32) - 16; break;
    case SHORT_AND_LONG:
        if (below(2)) length = below(5);
        address = below(3) == 0 ? address | 0xfffffff0 : below(2) ? address & 15 : 0x80000000 + below(32) - 16;
        break;
    case CHAIN: /* all lengths of one address, and now and then a sibling */
        length = below(33);
        address = 0xfffffffe;
        if (length > 0 && below(4) == 0) address ^= (uint32_t)1 << (32 - length);
        break;
    default:
        length = below(33);
        address = 0x7fffff00 + below(512);
    }
    edit.length = length;
    edit.network = cut(address, length);
}

static void pick_edit(enum place from, unsigned hops_of, unsigned of_eight)
{
    edit.withdraw = below(8) >= of_eight;
    edit.hop = (uint16_t)(1 + below(hops_of));
    pick_prefix(from);
    if (pair.count > 0 && below(edit.withdraw ? 8 : 3) > 0 && (edit.withdraw || below(3) == 0)) { /* a listed one */
        size_t place = below((uint32_t)pair.count);
        edit.network = (uint32_t)(pair.keys[place] / 64);
        edit.length = pair.keys[place] % 64;
        if (below(5) == 0) edit.hop = pair.hops[place];
    }
}

static size_t any_room(size_t count, size_t most)
{
    size_t more = below(4) == 0 ? below(40) : below(4);
    return count + more < most ? count + more : most;
}

static void pick_rooms(void)
{
    lent = ample;
    if (below(3) > 0) {
        lent.keys = any_room(pair.count, ROWS);
        lent.hops = any_room(pair.count, ROWS);
    }
    if (below(3) > 0) {
        lent.starts = any_room(pair.runs, RUNS);
        lent.run_hops = below(2) ? lent.starts : any_room(pair.runs, RUNS);
    }
}

/* Something of the edit or of the pair is spoiled, for one edit; it may turn out to be no fault. */
static void spoil(void)
{
    size_t row = pair.count - 1 < ROWS ? below((uint32_t)pair.count) : 0, run = pair.runs - 1 < RUNS ? below((uint32_t)pair.runs) : 0;
    switch (below(14)) {
    case 0: edit.length = below(2) ? 33 + below(300) : any(); break;
    case 1: edit.network ^= (uint32_t)1 << below(32); break;
    case 2: edit.hop = 0; break;
    case 3: pair.hops[row] = 0; break;
    case 4: pair.keys[row] ^= (uint64_t)1 << below(40); break;
    case 5: pair.keys[row] = pair.keys[row + 1 - below(3) % (row + 2)]; break; /* a neighbour's */
    case 6: pair.count = pair.count + below(3) - 1; break; /* to 2^64 - 1 from 0 */
    case 7: pair.runs = pair.runs + below(3) - 1; break;
    case 8: lent.keys = lent.keys < 2 ? 0 : lent.keys - below(3); break;
    case 9: lent.run_hops -= below(2); break;
    case 10: pair.starts[run] ^= (uint32_t)1 << below(32); break;
    case 11: pair.run_hops[run] ^= (uint16_t)(1 << below(3)); break;
    case 12: pair.hops[row] = (uint16_t)(1 + below(3)); break;
    case 13: pair.starts[run] = pair.starts[below((uint32_t)run + 1)]; break;
    }
}

/* All 33 prefixes that hold an address. Each of them gets other hops, goes out and comes back while all others are there. */
static void deep(uint32_t address, unsigned hops_of)
{
    uint32_t length, network;
    empty();
    for (length = 0; length <= 32; length++) announce(cut(address, length), length, 1 + below(hops_of));
    for (length = 0; length <= 32; length++) {
        network = cut(address, length);
        announce(network, length, 1 + below(hops_of));
        withdraw(network, length);
        announce(network, length, 1 + below(hops_of));
        deepest = pair.count > deepest ? pair.count : deepest;
    }
}

/* Sequences that grow and shrink again. */
static void sequence(enum place from, unsigned hops_of, unsigned long length)
{
    unsigned long i;
    empty();
    if (from == CHAIN) {
        deep(any(), hops_of);
        deep(0, hops_of);
        deep(LAST, hops_of);
        deep(0xfffffffe, hops_of);
    }
    for (i = 0; i < length && wrong == 0; i++) {
        unsigned growth = pair.count > ROWS - 8 ? 1 : i / 500 % 2 ? 3 : i / 1000 % 2 ? 7 : 8;
        int spoils = below(6) == 0;
        static struct pair were;
        fill_rest();
        pick_rooms();
        pick_edit(from, hops_of, growth);
        were = pair;
        if (spoils) spoil();
        if (spoils && below(3) == 0) spoil();
        compare();
        if (spoils) pair = were;
        longest = pair.count > longest ? pair.count : longest;
    }
}

/* As many rows and runs as there can be: a /32 for each odd address. Compared slot by slot with what the edit moves. */
static uint64_t many_keys[WHELK_TOP_ROWS + 2];
static uint16_t many_hops[WHELK_TOP_ROWS + 2], many_run_hops[WHELK_TOP_RUNS + 4];
static uint32_t many_starts[WHELK_TOP_RUNS + 4];

static void same_many(const char *what, struct whelk_edit got, size_t number, uint64_t changed, size_t count, size_t runs, size_t without)
{
    size_t i, j;
    edits++;
    if (got.number != number || got.changed != changed || got.count != count || got.runs != runs) {
        wrong++;
        printf("  %s: number %zu, changed %llu, %zu rows, %zu runs\n", what, got.number, (unsigned long long)got.changed, got.count,
               got.runs);
    }
    for (i = 0, j = 0; j < WHELK_TOP_ROWS; j++) {
        if (j == without) continue;
        if (many_keys[i] != ((uint64_t)(2 * j + 1) << 6 | 32) || many_hops[i] != 1 || many_starts[2 * i + 1] != 2 * j + 1 ||
            many_run_hops[2 * i + 1] != 1 || many_starts[2 * i + 2] != 2 * j + 2 || many_run_hops[2 * i + 2] != 0) {
            if (wrong++ < 3) printf("  %s: row %zu or its runs\n", what, i);
            return;
        }
        i++;
    }
    for (; i < WHELK_TOP_ROWS; i++)
        if (many_keys[i] || many_hops[i] || many_starts[2 * i + 1] || many_starts[2 * i + 2] || many_run_hops[2 * i + 1]) wrong++;
    for (i = WHELK_TOP_ROWS; i < WHELK_TOP_ROWS + 2; i++)
        if (many_keys[i] != 77 || many_hops[i] != 77) wrong++;
    for (i = WHELK_TOP_RUNS; i < WHELK_TOP_RUNS + 4; i++)
        if (many_starts[i] != 77 || many_run_hops[i] != 77) wrong++;
}

#define MANY(count, runs)                                                                                                       \
    count, many_keys, WHELK_TOP_ROWS + 2, many_hops, WHELK_TOP_ROWS + 2, runs, many_starts, WHELK_TOP_RUNS + 4, many_run_hops,  \
        WHELK_TOP_RUNS + 4

static void top_room(void)
{
    const size_t n = WHELK_TOP_ROWS, m = WHELK_TOP_RUNS;
    size_t i;
    for (i = 0; i < n; i++) {
        many_keys[i] = (uint64_t)(2 * i + 1) << 6 | 32;
        many_hops[i] = 1;
    }
    for (i = 0; i < m; i++) {
        many_starts[i] = (uint32_t)i;
        many_run_hops[i] = i % 2;
    }
    for (i = n; i < n + 2; i++) many_keys[i] = many_hops[i] = 77;
    for (i = m; i < m + 4; i++) many_starts[i] = many_run_hops[i] = 77;
    same_many("one row more than the top room", whelk_announce(0, 32, 1, MANY(n, m)), WHELK_NO_ROOM, 0, 0, 0, n);
    same_many("a count above the top room", whelk_announce(1, 32, 1, MANY(n + 1, m)), WHELK_ILL_FORMED, 0, 0, 0, n);
    same_many("a count of runs above the top room", whelk_withdraw(1, 32, MANY(n, m + 1)), WHELK_ILL_FORMED, 0, 0, 0, n);
    same_many("its own hop", whelk_announce(5, 32, 1, MANY(n, m)), 0, 0, n, m, n);
    same_many("withdrawn in the middle", whelk_withdraw((uint32_t)n + 1, 32, MANY(n, m)), 0, 1, n - 1, m - 2, n / 2);
    same_many("announced again", whelk_announce((uint32_t)n + 1, 32, 1, MANY(n - 1, m - 2)), 0, 1, n, m, n);
    same_many("the last withdrawn", whelk_withdraw(2 * (uint32_t)n - 1, 32, MANY(n, m)), 0, 1, n - 1, m - 2, n - 1);
    same_many("the last announced again", whelk_announce(2 * (uint32_t)n - 1, 32, 1, MANY(n - 1, m - 2)), 0, 1, n, m, n);
    same_many("the first withdrawn", whelk_withdraw(1, 32, MANY(n, m)), 0, 1, n - 1, m - 2, 0);
    same_many("the first announced again", whelk_announce(1, 32, 1, MANY(n - 1, m - 2)), 0, 1, n, m, n);
    same_many("16 in the longest list", whelk_withdraw(0, 0, MANY(n, m)), WHELK_NOT_LISTED, 0, 0, 0, n);
}

int main(void)
{
    int place, i;
    figures();
    group("figures of list A and of the empty list");
    slips();
    group("runs that a withdrawal adds, both ends of the addresses");
    own_hops();
    group("own hops in full slices");
    for (i = 0; i < 2; i++) {
        list_a();
        if (i) rooms(0, 0);
        refused_15();
    }
    group("15");
    refused_11(0);
    refused_11(1);
    group("11, and 15 before it");
    refused_14(0);
    refused_14(1);
    group("14, and 15 and 11 before it");
    refused_16_and_13();
    group("16, and 13 in each slice");
    top_room();
    group("the longest list");
    for (place = 0; place < PLACES; place++) {
        for (i = 0; i < 4; i++) sequence((enum place)place, i == 3 ? 65535 : 1 + (unsigned)i, 6000);
        group(place_names[place]);
    }
    for (i = 0; i < KINDS; i++) printf("%9lu %s\n", of_kind[i], names[i]);
    for (i = 0; i < KINDS; i++) check(names[i], of_kind[i] > 100);
    printf("the longest list had %zu rows, the deepest %zu\n", longest, deepest);
    check("lists were long and deep", longest > 80 && deepest == 33);
    return finish();
}
