/* The split, half lookup and the build of a half against section 11 of docs/RULES.md, written here another way: each row of the first half is
   asked whether it holds a prefix or an address, and a run table has the answers at all edges. Every k of a list is split at, the halves are
   looked up at each edge of a prefix and at random addresses, by half lookup and in their run tables, and the labels XOR to the list's answer,
   which holds up to the lesser of the two last addresses. Inputs come from a fixed seed. What is counted is the groups below. */
#include <stdlib.h>
#include <string.h>

#include "testing.h"
#include "whelkhollow.h"

#define MOST (WHELK_TOP_ROWS + 1)
#define SPARE 3        /* slots past what a call needs, which it leaves alone */
#define SMALL 400      /* rows of a list that is split at each k */
#define UNWRITTEN 0x55 /* each byte of a slot that no call wrote */
#define UNWRITTEN16 0x5555
#define UNWRITTEN32 0x55555555u
#define UNWRITTEN64 0x5555555555555555u

/* a list, and what it was before a call */
static uint64_t keys[MOST + SPARE], keys_then[MOST + SPARE];
static uint16_t hops[MOST + SPARE], hops_then[MOST + SPARE];
static size_t count;

/* what a split is lent, and what it should leave there */
static uint64_t half_keys[MOST + SPARE], good_keys[MOST + SPARE];
static uint16_t labels[MOST + SPARE], good_labels[MOST + SPARE];

/* the same of a build of the first half and of the second */
static struct table {
    size_t runs;
    uint32_t starts[2 * SMALL + 1 + SPARE];
    uint16_t labels[2 * SMALL + 1 + SPARE];
} built[2], good;

static unsigned long splits, lookups, zeros, before, before_lookups, wrong;
static uint64_t state = 20261117;

static uint32_t any(void)
{
    state ^= state << 13;
    state ^= state >> 7;
    state ^= state << 17;
    return (uint32_t)(state >> 32);
}

static uint32_t below(uint32_t n)
{
    return any() % n;
}

static void same(const char *what, uint64_t got, uint64_t want)
{
    if (got == want) return;
    if (wrong++ < 5) printf("  %s: %llu, not %llu\n", what, (unsigned long long)got, (unsigned long long)want);
}

static void group(const char *name)
{
    printf("%s: %lu splits, %lu lookups\n", name, splits - before, lookups - before_lookups);
    check(name, wrong == 0);
    before = splits;
    before_lookups = lookups;
    wrong = 0;
}

static uint64_t refusal(unsigned number)
{
    return (uint64_t)number << 32;
}

/* Lists. */

static void row(uint32_t address, unsigned length, unsigned hop)
{
    keys[count] = (uint64_t)(length == 0 ? 0 : address >> (32 - length) << (32 - length)) << 6 | length;
    hops[count++] = (uint16_t)hop;
}

static int by_key(const void *a, const void *b)
{
    uint64_t x = *(const uint64_t *)a, y = *(const uint64_t *)b;
    return (x > y) - (x < y);
}

/* The rows in order; of a prefix that is named twice one stays. What stands behind the list is no part of it, and is a default route. */
static void listed(void)
{
    static uint64_t pairs[MOST][2];
    size_t i, n = 0;
    for (i = 0; i < count; i++) {
        pairs[i][0] = keys[i];
        pairs[i][1] = hops[i];
    }
    qsort(pairs, count, sizeof pairs[0], by_key);
    for (i = 0; i < count; i++)
        if (n == 0 || keys[n - 1] != pairs[i][0]) {
            keys[n] = pairs[i][0];
            hops[n++] = (uint16_t)pairs[i][1];
        }
    count = n;
    for (i = 0; i < SPARE; i++) keys[n + i] = hops[n + i] = 0;
}

static uint64_t last_of(uint64_t key)
{
    return (key >> 6) + (1ull << (32 - key % 64)) - 1;
}

/* Rules 11.4 to 11.6, and 2.12. */

/* The first half's row whose prefix is the longest that holds the prefix of row i. */
static size_t holder(size_t k, size_t i)
{
    size_t j, best = 0;
    for (j = 0; j < k; j++)
        if (keys[j] >> 6 <= keys[i] >> 6 && last_of(keys[i]) <= last_of(keys[j]) && keys[j] % 64 >= keys[best] % 64) best = j;
    return best;
}

static size_t expected(size_t k)
{
    size_t i, n = 1;
    memset(good_keys, UNWRITTEN, (count + 1 + SPARE) * sizeof good_keys[0]);
    memset(good_labels, UNWRITTEN, (count + 1 + SPARE) * sizeof good_labels[0]);
    good_keys[0] = good_labels[0] = 0;
    for (i = k; i < count; i++) {
        good_keys[n] = keys[i];
        good_labels[n] = hops[i] ^ hops[holder(k, i)];
        if (good_labels[n++] == 0) zeros++;
    }
    return n;
}

static uint16_t longest(size_t n, const uint64_t *of_keys, const uint16_t *of_labels, uint32_t address)
{
    size_t i;
    int length = -1;
    uint16_t label = 0;
    for (i = 0; i < n; i++)
        if (of_keys[i] >> 6 <= address && address <= last_of(of_keys[i]) && (int)(of_keys[i] % 64) > length) {
            length = (int)(of_keys[i] % 64);
            label = of_labels[i];
        }
    return label;
}

static int by_start(const void *a, const void *b)
{
    uint32_t x = *(const uint32_t *)a, y = *(const uint32_t *)b;
    return (x > y) - (x < y);
}

/* The run table of a half, from its answers at the edges. */
static void expected_table(size_t n, const uint64_t *of_keys, const uint16_t *of_labels)
{
    static uint32_t edges[2 * SMALL + 1];
    size_t i, m = 0;
    memset(&good, UNWRITTEN, sizeof good);
    edges[m++] = 0;
    for (i = 0; i < n; i++) {
        edges[m++] = (uint32_t)(of_keys[i] >> 6);
        if (last_of(of_keys[i]) < 0xffffffff) edges[m++] = (uint32_t)(last_of(of_keys[i]) + 1);
    }
    qsort(edges, m, sizeof edges[0], by_start);
    for (i = 0, good.runs = 0; i < m; i++) {
        uint16_t label = longest(n, of_keys, of_labels, edges[i]);
        if (good.runs > 0 && good.labels[good.runs - 1] == label) continue;
        good.starts[good.runs] = edges[i];
        good.labels[good.runs++] = label;
    }
}

/* Calls, and what they left. */

static void wipe(size_t n)
{
    memset(half_keys, UNWRITTEN, n * sizeof half_keys[0]);
    memset(labels, UNWRITTEN, n * sizeof labels[0]);
}

static void untouched(size_t n)
{
    size_t i;
    for (i = 0; i < n; i++)
        if (half_keys[i] != UNWRITTEN64 || labels[i] != UNWRITTEN16) same("a written slot of a refused split", i, n);
}

static uint64_t split_into(size_t k, size_t keys_length, size_t labels_length)
{
    splits++;
    return whelk_split(k, count, keys, count + below(SPARE + 1), hops, count + below(SPARE + 1), half_keys, keys_length, labels,
                       labels_length);
}

/* The second half in just enough slots of both, of one and of the other; refused in one slot less and in none. The list stays. */
static size_t split_at(size_t k)
{
    size_t n = expected(k), all = n + SPARE, i;
    memcpy(keys_then, keys, (count + SPARE) * sizeof keys[0]);
    memcpy(hops_then, hops, (count + SPARE) * sizeof hops[0]);
    wipe(all);
    same("one key slot too few", split_into(k, n - 1, all), refusal(WHELK_NO_ROOM));
    same("one label slot too few", split_into(k, all, n - 1), refusal(WHELK_NO_ROOM));
    same("no slots", split_into(k, 0, 0), refusal(WHELK_NO_ROOM));
    untouched(all);
    for (i = 0; i < 3; i++) {
        uint64_t got;
        wipe(all);
        got = split_into(k, i == 1 ? all : n, i == 2 ? all : n);
        same("what a split returns", got, n);
        same("its number", whelk_split_number(got), WHELK_DONE);
        same("its count", whelk_split_count(got), count - k + 1);
        same("keys", (uint64_t)memcmp(half_keys, good_keys, all * sizeof half_keys[0]), 0);
        same("labels", (uint64_t)memcmp(labels, good_labels, all * sizeof labels[0]), 0);
    }
    same("the list's keys", (uint64_t)memcmp(keys, keys_then, (count + SPARE) * sizeof keys[0]), 0);
    same("the list's hops", (uint64_t)memcmp(hops, hops_then, (count + SPARE) * sizeof hops[0]), 0);
    return n;
}

/* The run table of a half: refused in one slot less, then built in just enough of them and in as many as are always enough. */
static void build(struct table *t, size_t n, const uint64_t *of_keys, const uint16_t *of_labels)
{
    size_t i;
    expected_table(n, of_keys, of_labels);
    memset(t, UNWRITTEN, sizeof *t);
    same("one start too few", whelk_build_half(n, of_keys, n, of_labels, n, t->starts, good.runs - 1, t->labels, good.runs),
         refusal(WHELK_NO_ROOM));
    same("one label too few", whelk_build_half(n, of_keys, n, of_labels, n, t->starts, good.runs, t->labels, good.runs - 1),
         refusal(WHELK_NO_ROOM));
    for (i = 0; i < 2 * SMALL + 1 + SPARE; i++)
        if (t->starts[i] != UNWRITTEN32 || t->labels[i] != UNWRITTEN16) same("a written slot of a refused build", i, sizeof *t);
    same("runs", whelk_build_half(n, of_keys, n, of_labels, n, t->starts, good.runs, t->labels, good.runs + SPARE), good.runs);
    t->runs = good.runs;
    same("the run table", (uint64_t)memcmp(t, &good, sizeof good), 0);
    memset(t, UNWRITTEN, sizeof *t);
    same("runs in 2n + 1 slots", whelk_build_half(n, of_keys, n, of_labels, n, t->starts, 2 * n + 1, t->labels, 2 * n + 1), good.runs);
    t->runs = good.runs;
    same("the run table in them", (uint64_t)memcmp(t, &good, sizeof good), 0);
}

/* The label of the first half and of the second, and their XOR, by half lookup. */
static void labels_at(size_t k, size_t n, uint32_t address)
{
    uint32_t one = whelk_half_lookup(k, keys, count, hops, count, address), other = whelk_half_lookup(n, half_keys, n, labels, n, address);
    same("a label of the first half", one, longest(k, keys, hops, address));
    same("a label of the second", other, longest(n, good_keys, good_labels, address));
    same("their XOR", one ^ other, longest(count, keys, hops, address));
    lookups += 2;
}

/* The same in the run tables, without the probes. The list's answer is the same up to the lesser of the two last addresses. */
static void run_labels_at(uint32_t address)
{
    uint32_t first, second, until;
    uint64_t one = whelk_run_lookup_slices(built[0].runs, built[0].starts, built[0].runs, built[0].labels, built[0].runs, address, &first);
    uint64_t other = whelk_run_lookup_slices(built[1].runs, built[1].starts, built[1].runs, built[1].labels, built[1].runs, address, &second);
    uint16_t hop = longest(count, keys, hops, address);
    lookups += 2;
    same("the XOR in the run tables", (one ^ other) & 0xffffffff, hop);
    until = first < second ? first : second;
    same("a last address below the one asked for", until < address, 0);
    if (until < address) return;
    same("the list's answer at the lesser last address", longest(count, keys, hops, until), hop);
    same("the list's answer before it", longest(count, keys, hops, address + (uint32_t)(any() % ((uint64_t)until - address + 1))), hop);
}

static void at(size_t k, size_t n, uint32_t address)
{
    labels_at(k, n, address);
    run_labels_at(address);
}

/* Both halves at both sides of each edge of a prefix, and anywhere. */
static void halves_at(size_t k)
{
    size_t n = split_at(k), i;
    if (wrong != 0) return;
    build(&built[0], k, keys, hops);
    build(&built[1], n, half_keys, labels);
    if (wrong != 0) return;
    for (i = 0; i < count; i++) {
        uint32_t first = (uint32_t)(keys[i] >> 6), last = (uint32_t)last_of(keys[i]);
        at(k, n, first);
        at(k, n, first - 1); /* which goes round, to the last address */
        at(k, n, last);
        at(k, n, last + 1);
        at(k, n, first + (uint32_t)(any() % ((uint64_t)last - first + 1)));
        at(k, n, any());
    }
}

static void every_k(void)
{
    size_t k;
    for (k = 1; k <= count && wrong == 0; k++) halves_at(k);
}

/* Rule 14.2, with 0.0.0.0/0 or without. */
static void list_a(int with_default)
{
    count = 0;
    if (with_default) row(0, 0, 4);
    row(0xc8180000, 14, 1);
    row(0xc81a0000, 15, 2);
    row(0xc81b0000, 16, 3);
    row(0xc81b4000, 18, 1);
    row(0xc81b7000, 20, 2);
    row(0xc81b8000, 20, 1);
    row(0xc81bf000, 20, 2);
    listed();
}

/* Rule 14.9. */
static void figure(void)
{
    static const uint16_t of_a[5] = {0, 2, 1, 2, 1};
    list_a(1);
    wipe(8);
    same("the count of A's second half", split_into(4, 5, 5), 5);
    same("its labels", (uint64_t)memcmp(labels, of_a, sizeof of_a), 0);
    same("its first key", half_keys[0], 0);
    same("its other keys", (uint64_t)memcmp(half_keys + 1, keys + 4, 4 * sizeof keys[0]), 0);
    every_k();
}

/* Rule 11.6: 10.0.0.0/10 has the hop of 10.0.0.0/8, so label 0, and without its row the label of 10.0.0.0/9 would show. */
static void label_0(void)
{
    static const uint16_t of_half[3] = {0, 5 ^ 7, 0};
    static const uint32_t starts[3] = {0, 0x0a400000, 0x0a800000};
    static const uint16_t of_runs[3] = {0, 5 ^ 7, 0};
    count = 0;
    row(0, 0, 4);
    row(0x0a000000, 8, 7);
    row(0x0a000000, 9, 5);
    row(0x0a000000, 10, 7);
    listed();
    same("two rows and 0.0.0.0/0", split_into(2, 3, 3), 3);
    same("labels", (uint64_t)memcmp(labels, of_half, sizeof of_half), 0);
    same("label 0 by half lookup", whelk_half_lookup(3, half_keys, 3, labels, 3, 0x0a000000), 0);
    same("label 2 beside it", whelk_half_lookup(3, half_keys, 3, labels, 3, 0x0a400000), 2);
    same("label 0 is a fault of a list", whelk_plain_lookup(3, half_keys, 3, labels, 3, 0), 65536 * WHELK_ILL_FORMED);
    same("runs", whelk_build_half(3, half_keys, 3, labels, 3, good.starts, 3, good.labels, 3), 3);
    same("starts", (uint64_t)memcmp(good.starts, starts, sizeof starts), 0);
    same("labels of runs", (uint64_t)memcmp(good.labels, of_runs, sizeof of_runs), 0);
    same("label 0 is a fault of a list", whelk_build(3, half_keys, 3, labels, 3, good.starts, 7, good.labels, 7), refusal(WHELK_ILL_FORMED));
    every_k();
}

/* Halves that are no second half: no rows, no default route, labels 0 alone. */
static void other_halves(void)
{
    uint16_t none[7] = {0, 0, 0, 0, 0, 0, 0};
    list_a(0);
    same("nothing matches", whelk_half_lookup(7, keys, 7, hops, 7, 0xc81c0000), 0);
    same("the longest match", whelk_half_lookup(7, keys, 7, hops, 7, 0xc81b70aa), 2);
    same("labels 0", whelk_half_lookup(7, keys, 7, none, 7, 0xc81b70aa), 0);
    same("no rows", whelk_half_lookup(0, keys, 0, hops, 0, 5), 0);
    build(&built[0], 7, keys, hops);
    same("runs of A", built[0].runs, 10);
    same("starts of A", (uint64_t)memcmp(built[0].starts, starts_of_a, sizeof starts_of_a), 0);
    same("hops of A", (uint64_t)memcmp(built[0].labels, hops_of_a, sizeof hops_of_a), 0);
    build(&built[0], 7, keys, none);
    same("one run of label 0", built[0].runs, 1);
    build(&built[0], 0, keys, hops);
    same("one run of no rows", built[0].runs, 1);
    lookups += 4;
}

/* One of each kind: a chain of all lengths, twigs on both sides of it, both ends of the addresses. */
static void nested(void)
{
    unsigned i;
    count = 0;
    row(0, 0, 65535);
    listed();
    every_k(); /* 0.0.0.0/0 alone */
    for (i = 1; i <= 32; i++) row(0xffffffff, i, 1 + i % 3);
    listed();
    every_k();
    for (i = 1; i <= 32; i++) row(0, i, 65536 - i);
    listed();
    every_k();
    count = 0;
    row(0, 0, 1);
    for (i = 1; i <= 32; i++) {
        row(0x0a4d1234, i, 1 + i % 2);
        row(0x0a4d1234 ^ 1u << (32 - i), i, 1 + i % 3); /* its sibling */
    }
    listed();
    every_k();
}

/* Up to `most` rows of all lengths, anywhere or close together, of few hops or of all. */
static void random_list(size_t most, int close, unsigned hops_of)
{
    uint32_t near = any();
    count = 0;
    row(0, 0, 1 + below(hops_of));
    while (count < most) row(close ? near ^ below(1u << below(25)) : any(), close ? 4 + below(29) : below(20), 1 + below(hops_of));
    listed();
}

static void random_lists(void)
{
    int i;
    for (i = 0; i < 240; i++) {
        random_list(1 + below(i % 20 < 2 ? SMALL / 4 : 40), i % 3, i % 2 ? 3 : 65535);
        every_k();
    }
    random_list(SMALL - 1, 1, 5);
    for (i = 0; i < 8; i++) halves_at(1 + below((uint32_t)count));
}

/* Some thousand rows; and as many as there can be: 0.0.0.0/0, 0.0.0.0/12, and a /32 for each address of that but the first two. */
static void long_lists(void)
{
    static const size_t cuts[4] = {1, 2, 500000, WHELK_TOP_ROWS};
    size_t i, j, n, k;
    random_list(6000, 1, 4);
    for (i = 0; i < 6; i++) split_at(i == 0 ? 1 : i == 1 ? count : 1 + below((uint32_t)count));
    count = 0;
    row(0, 0, 9);
    row(0, 12, 77);
    for (i = 2; i < WHELK_TOP_ROWS; i++) row((uint32_t)i, 32, 1 + (unsigned)i % 65535);
    for (j = 0; j < 4; j++) {
        uint16_t held_by = j == 0 ? 9 : 77;
        k = cuts[j];
        n = count - k + 1;
        wipe(count + SPARE);
        same("a count", split_into(k, n, n + 1), n);
        same("0.0.0.0/0", half_keys[0] + labels[0], 0);
        for (i = 1; i < n; i++) {
            same("a key", half_keys[i], keys[k + i - 1]);
            same("a label", labels[i], hops[k + i - 1] ^ held_by);
        }
        same("a slot past them", half_keys[n] == UNWRITTEN64 && labels[n] == UNWRITTEN16, 1);
        same("an address of the first half", whelk_half_lookup(k, keys, count, hops, count, 1), held_by);
        same("the last of the second", whelk_half_lookup(n, half_keys, n, labels, n, WHELK_TOP_ROWS - 1), n == 1 ? 0 : hops[count - 1] ^ held_by);
        lookups += 2;
    }
}

/* Whether a split is refused with this number, with slots and without, and leaves all that was lent. */
static void refused(unsigned number, size_t k, size_t n, size_t keys_length, size_t hops_length)
{
    int room;
    memcpy(keys_then, keys, 32 * sizeof keys[0]);
    memcpy(hops_then, hops, 32 * sizeof hops[0]);
    wipe(32);
    for (room = 0; room < 2; room++)
        same("a refusal", whelk_split(k, n, keys, keys_length, hops, hops_length, half_keys, room ? 32 : 0, labels, room ? 32 : 0),
             refusal(number));
    splits += 2;
    untouched(32);
    same("the list's keys", (uint64_t)memcmp(keys, keys_then, 32 * sizeof keys[0]), 0);
    same("the list's hops", (uint64_t)memcmp(hops, hops_then, 32 * sizeof hops[0]), 0);
}

/* 11 from all three; and from the split before 17, too, with a size of 0 and one above the count. */
static void ill_formed(size_t n, size_t keys_length, size_t hops_length)
{
    refused(WHELK_ILL_FORMED, 4, n, keys_length, hops_length);
    refused(WHELK_ILL_FORMED, 0, n, keys_length, hops_length);
    refused(WHELK_ILL_FORMED, (size_t)-1, n, keys_length, hops_length);
    memset(&good, UNWRITTEN, sizeof good);
    same("half lookup", whelk_half_lookup(n, keys, keys_length, hops, hops_length, 5), 65536 * WHELK_ILL_FORMED);
    same("build", whelk_build_half(n, keys, keys_length, hops, hops_length, good.starts, 32, good.labels, 32), refusal(WHELK_ILL_FORMED));
    same("build without slots", whelk_build_half(n, keys, keys_length, hops, hops_length, good.starts, 0, good.labels, 0),
         refusal(WHELK_ILL_FORMED));
    same("starts", good.starts[0], UNWRITTEN32);
    same("labels of runs", good.labels[0], UNWRITTEN16);
}

/* The same for one key of the list changed. */
static void spoiled(size_t place, uint64_t key)
{
    uint64_t was = keys[place];
    keys[place] = key;
    ill_formed(count, count, count);
    keys[place] = was;
    split_at(4);
}

static void refusals_11(int with_default)
{
    size_t n;
    list_a(with_default);
    n = count;
    ill_formed(n, n - 1, n);
    ill_formed(n, n, n - 1);
    ill_formed((size_t)-1, n, n);
    ill_formed(((size_t)1 << 32) + n, n, n);
    if (!with_default) return;
    spoiled(1, keys[0]);
    spoiled(7, keys[7] - 64 * 4096 * 12); /* below the one before */
    spoiled(3, keys[3] + 64);             /* a host bit */
    spoiled(0, 33);                       /* a length above 32 */
    spoiled(7, keys[7] / 64 * 64 + 63);   /* and the greatest */
    spoiled(7, (uint64_t)1 << 38);        /* a network above 255.255.255.255 */
    hops[5] = 0;                          /* hop 0 is a fault of the list, and none of a half */
    refused(WHELK_ILL_FORMED, 4, n, n, n);
    refused(WHELK_ILL_FORMED, 0, n, n, n);
    same("label 0", whelk_half_lookup(n, keys, n, hops, n, 0xc81b70aa), 0);
    hops[5] = 2;
    hops[7] = 0; /* in the last row as well */
    refused(WHELK_ILL_FORMED, 8, n, n, n);
    hops[7] = 2;
    hops[0] = 0; /* and in the first */
    refused(WHELK_ILL_FORMED, 1, n, n, n);
    refused(WHELK_ILL_FORMED, n + 1, n, n, n);
}

static void top_room(void)
{
    size_t i;
    for (i = 0; i < MOST; i++) {
        keys[i] = i == 0 ? 0 : (uint64_t)i << 6 | 32;
        hops[i] = 1;
    }
    ill_formed(MOST, MOST, MOST);
}

/* The sizes that no list of n rows can be split at, with its default route or without: 17 goes before 18. The first n are 18 without. */
static void sizes(int with_default)
{
    size_t n, k;
    list_a(with_default);
    n = count;
    refused(WHELK_BAD_SIZE, 0, n, n, n);
    refused(WHELK_BAD_SIZE, n + 1, n, n, n);
    refused(WHELK_BAD_SIZE, n + 1, n, 2 * n, 2 * n); /* slots past the count are no rows */
    refused(WHELK_BAD_SIZE, (size_t)-1, n, n, n);
    refused(WHELK_BAD_SIZE, (size_t)1 << 63, n, n, n);
    refused(WHELK_BAD_SIZE, ((size_t)1 << 63) + 1, n, n, n);
    refused(WHELK_BAD_SIZE, (size_t)1 << 32, n, n, n);
    refused(WHELK_BAD_SIZE, ((size_t)1 << 32) + 4, n, n, n);
    for (k = 1; k <= n; k++) {
        if (with_default)
            split_at(k);
        else
            refused(WHELK_NO_DEFAULT, k, n, n, n);
    }
    for (k = 0; k < 3; k++) refused(WHELK_BAD_SIZE, k, 0, n, n); /* the empty list */
}

/* 0.0.0.0 with another length is no default route. */
static void no_default(void)
{
    count = 0;
    row(0, 1, 3);
    row(0, 32, 4);
    row(0x80000000, 1, 5);
    listed(); /* a default route stands behind it */
    refused(WHELK_NO_DEFAULT, 1, 3, 3, 3);
    refused(WHELK_NO_DEFAULT, 3, 3, 4, 4);
    refused(WHELK_BAD_SIZE, 4, 3, 4, 4);
}

int main(void)
{
    figure();
    group("list A with 0.0.0.0/0, each k");
    label_0();
    group("a row of label 0 stays");
    other_halves();
    group("halves of other kinds");
    nested();
    group("nested lists, each k");
    random_lists();
    group("random lists, each k");
    long_lists();
    group("long lists");
    refusals_11(1);
    refusals_11(0);
    top_room();
    group("11 before all others");
    sizes(1);
    sizes(0);
    group("17 before 18 and 13");
    no_default();
    group("18 before 13");
    check("a label was 0 often", zeros > 10000);
    return finish();
}
