/* Packing and packed lookup against section 9 of docs/RULES.md, written here another way: a segment's answers are painted, row after row,
   and its bits are set one by one. Every address of a packed segment is looked up. Damaged segments are held to rules 9.10 to 9.13. Inputs come
   from a fixed seed. What is counted is the groups below. */
#include <stdlib.h>
#include <string.h>

#include "testing.h"
#include "whelkhollow.h"

#define SEGMENT 65536u
#define MOST 70000u
#define REFUSED (65536u * WHELK_OUTSIDE_PACKED)
#define UNWRITTEN 0x5555

/* a list and its run table */
static uint64_t keys[MOST];
static uint16_t hops[MOST], run_hops[2 * MOST + 1];
static uint32_t starts[2 * MOST + 1];
static size_t count, runs;

/* what packing is lent, with some slots more than it can need */
static uint16_t words[WHELK_PACKED_WORDS + 16], bases[WHELK_PACKED_WORDS + 16], packed_hops[WHELK_PACKED_HOPS + 16];

/* what it should leave there */
static uint16_t good_words[WHELK_PACKED_WORDS + 16], good_bases[WHELK_PACKED_WORDS + 16], good_hops[WHELK_PACKED_HOPS + 16];

static uint16_t painted[SEGMENT];
static unsigned long lookups, packings, before, before_packings, wrong;
static unsigned widths_seen;
static uint64_t state = 20261115;

static uint32_t any(void)
{
    state ^= state << 13;
    state ^= state >> 7;
    state ^= state << 17;
    return (uint32_t)(state >> 32);
}

static uint32_t below(uint32_t n)
{
    return any() % n;
}

static void same(const char *what, uint64_t got, uint64_t want)
{
    if (got == want) return;
    if (wrong++ < 5) printf("  %s: %llu, not %llu\n", what, (unsigned long long)got, (unsigned long long)want);
}

static void group(const char *name)
{
    printf("%s: %lu packings, %lu lookups\n", name, packings - before_packings, lookups - before);
    check(name, wrong == 0);
    before = lookups;
    before_packings = packings;
    wrong = 0;
}

/* a list is made of rows in any order, and of a prefix that is named twice one row stays */
static void row(uint32_t address, unsigned length, unsigned hop)
{
    uint64_t network = length == 0 ? 0 : address >> (32 - length) << (32 - length);
    keys[count] = network << 6 | length;
    hops[count++] = (uint16_t)hop;
}

static int by_key(const void *a, const void *b)
{
    uint64_t x = *(const uint64_t *)a, y = *(const uint64_t *)b;
    return (x > y) - (x < y);
}

static void listed(void)
{
    static uint64_t pairs[MOST][2];
    size_t i, n = 0;
    for (i = 0; i < count; i++) {
        pairs[i][0] = keys[i];
        pairs[i][1] = hops[i];
    }
    qsort(pairs, count, sizeof pairs[0], by_key);
    for (i = 0; i < count; i++)
        if (n == 0 || keys[n - 1] != pairs[i][0]) {
            keys[n] = pairs[i][0];
            hops[n++] = (uint16_t)pairs[i][1];
        }
    count = n;
    runs = (size_t)whelk_build(count, keys, MOST, hops, MOST, starts, 2 * MOST + 1, run_hops, 2 * MOST + 1);
    if (runs > 2 * count + 1) wrong++;
}

/* the answers of the segment: in key order a longer prefix comes after the shorter ones that hold it, and is painted over them */
static void paint(uint32_t q)
{
    uint64_t first = (uint64_t)q << 16, last = first + SEGMENT - 1;
    size_t i;
    memset(painted, 0, sizeof painted);
    for (i = 0; i < count; i++) {
        uint64_t from = keys[i] >> 6, to = from + (1ull << (32 - keys[i] % 64)) - 1, a;
        if (to < first || from > last) continue;
        for (a = from < first ? first : from; a <= to && a <= last; a++) painted[a - first] = hops[i];
    }
}

/* rules 9.2 to 9.8, over the painted answers */
static struct whelk_packed expected(uint32_t q)
{
    struct whelk_packed e = {0, 0, 0, 0};
    size_t i, t, size, ones = 0;
    for (i = 0; i < count; i++)
        if (keys[i] % 64 > 16 + e.width && keys[i] >> 22 == q) e.width = keys[i] % 64 - 16;
    size = SEGMENT >> e.width;
    e.words = e.width < 4 ? 1 : (size_t)1 << (e.width - 4);
    for (i = 0; i < sizeof good_words / sizeof good_words[0]; i++) good_words[i] = good_bases[i] = i < e.words ? 0 : UNWRITTEN;
    for (i = 0; i < sizeof good_hops / sizeof good_hops[0]; i++) good_hops[i] = UNWRITTEN;
    for (t = 0; t < SEGMENT / size; t++) {
        for (i = 1; i < size; i++) same("a block of two hops", painted[t * size + i], painted[t * size]);
        if (t % 16 == 0) good_bases[t / 16] = (uint16_t)ones;
        if (t > 0 && painted[t * size] == painted[t * size - 1]) continue;
        good_words[t / 16] |= (uint16_t)(0x8000 >> t % 16);
        good_hops[ones++] = painted[t * size];
    }
    e.hops = ones;
    return e;
}

static struct whelk_packed pack_into(uint32_t q, size_t room_words, size_t room_bases, size_t room_hops)
{
    packings++;
    return whelk_pack((uint16_t)q, count, keys, MOST, hops, MOST, runs, starts, 2 * MOST + 1, run_hops, 2 * MOST + 1, words, room_words,
                      bases, room_bases, packed_hops, room_hops);
}

static void wipe(void)
{
    memset(words, 0x55, sizeof words);
    memset(bases, 0x55, sizeof bases);
    memset(packed_hops, 0x55, sizeof packed_hops);
}

static void same_packed(struct whelk_packed got, struct whelk_packed want)
{
    same("number", got.number, want.number);
    same("width", got.width, want.width);
    same("count of words", got.words, want.words);
    same("count of hops", got.hops, want.hops);
}

static void as_expected(void)
{
    if (memcmp(words, good_words, sizeof words) != 0) same("words", 1, 0);
    if (memcmp(bases, good_bases, sizeof bases) != 0) same("bases", 1, 0);
    if (memcmp(packed_hops, good_hops, sizeof packed_hops) != 0) same("hops", 1, 0);
}

static void untouched(void)
{
    size_t i;
    for (i = 0; i < sizeof words / sizeof words[0]; i++)
        if (words[i] != UNWRITTEN || bases[i] != UNWRITTEN) same("a written word or base", i + 1, 0);
    for (i = 0; i < sizeof packed_hops / sizeof packed_hops[0]; i++)
        if (packed_hops[i] != UNWRITTEN) same("a written hop", i + 1, 0);
}

/* One segment: packed with more room than it needs and with just enough, looked up at every address, and refused in one slot less of each.
   The high half of the address has no say. */
static void segment(uint32_t q)
{
    struct whelk_packed p, e, none = {WHELK_NO_ROOM, 0, 0, 0};
    uint32_t a;
    paint(q);
    e = expected(q);
    wipe();
    p = pack_into(q, sizeof words / 2, sizeof bases / 2, sizeof packed_hops / 2);
    same_packed(p, e);
    as_expected();
    if (p.number != 0) return;
    widths_seen |= 1u << p.width;
    for (a = 0; a < SEGMENT; a++) {
        uint32_t high = a % 3 == 0 ? q : any() % 65536;
        uint32_t found = whelk_packed_lookup((uint32_t)p.width, words, p.words, bases, p.words, packed_hops, p.hops, high << 16 | a);
        same("an answer", found, painted[a]);
        lookups++;
    }
    wipe();
    same_packed(pack_into(q, e.words - 1, e.words, e.hops), none);
    same_packed(pack_into(q, e.words, e.words - 1, e.hops), none);
    same_packed(pack_into(q, e.words, e.words, e.hops - 1), none);
    same_packed(pack_into(q, 0, 0, 0), none);
    untouched();
    same_packed(pack_into(q, e.words, e.words, e.hops), e);
    as_expected();
}

/* Rows of a segment up to a width, one of just that width, beside rows of all lengths in the segments around it. */
static void random_rows(uint32_t q, unsigned width, unsigned rows, unsigned hops_of)
{
    uint32_t first = q << 16;
    unsigned i;
    count = 0;
    if (width > 0) row(first | below(SEGMENT), 16 + width, 1 + below(hops_of));
    for (i = 0; i < rows; i++) {
        unsigned length = width == 0 ? below(17) : 17 + below(width);
        row(first | below(SEGMENT), length, 1 + below(hops_of));
        row((q + below(5) - 2) << 16 | below(SEGMENT), 1 + below(16), 1 + below(hops_of));
        if (q > 0) row((first - 1) ^ below(256), 17 + below(16), 1 + below(hops_of));
        if (q < 65535) row((first + SEGMENT) | below(256), 17 + below(16), 1 + below(hops_of));
    }
    listed();
}

static void every_width(void)
{
    unsigned width, k;
    for (width = 0; width <= 16; width++)
        for (k = 0; k < 4; k++) {
            uint32_t q = k == 0 ? 0 : k == 1 ? 65535 : below(65536);
            random_rows(q, width, 1 + below(60), k == 3 ? 65535 : 3);
            segment(q);
            if ((widths_seen >> width & 1) == 0) same("a width that was not met", width, 0);
        }
}

/* 65,536 hops: a route for every address, with two hops by turns and with as many hops as there are. */
static void alternating(void)
{
    uint32_t a;
    count = 0;
    for (a = 0; a < SEGMENT; a++) row(0x0a400000 | a, 32, 1 + a % 2);
    listed();
    segment(0x0a40);
    count = 0;
    for (a = 0; a < SEGMENT; a++) row(0xffff0000 | a, 32, a == 0 ? 7 : a);
    listed();
    segment(65535);
    /* and from half as many routes under one of the segment */
    count = 0;
    row(0, 16, 9);
    for (a = 0; a < SEGMENT; a += 2) row(a, 32, 1);
    listed();
    segment(0);
    /* bits by turns in one word of two */
    count = 0;
    for (a = 0; a < SEGMENT; a += 32)
        if (a / 16 % 4 == 0) row(0x0a400000 | a, 32, 1 + a / 32 % 3);
    listed();
    segment(0x0a40);
}

/* Segments in which few rows or none lie. */
static void small_lists(void)
{
    count = 0;
    listed();
    segment(0);
    segment(65535);
    segment(1234);
    row(0x0a000000, 8, 7); /* a shorter prefix around it */
    listed();
    segment(0x0a40);
    segment(0x0b00);
    row(0x0a400000, 16, 9); /* the segment itself */
    listed();
    segment(0x0a40);
    segment(0x0a41);
    row(0x0a408000, 17, 9); /* as long a prefix as makes two blocks, with the hop that is there without it */
    listed();
    segment(0x0a40);
    row(0x0a40ff00, 32, 9);
    listed();
    segment(0x0a40);
    count = 0;
    row(0, 0, 4);
    row(0xffffffff, 32, 5);
    row(0, 32, 6);
    listed();
    segment(0);
    segment(65535);
    segment(32768);
}

static void list_a(int with_21)
{
    count = 0;
    row(0xc8180000, 14, 1);
    row(0xc81a0000, 15, 2);
    row(0xc81b0000, 16, 3);
    row(0xc81b4000, 18, 1);
    row(0xc81b7000, 20, 2);
    row(0xc81b8000, 20, 1);
    row(0xc81bf000, 20, 2);
    if (with_21) row(0xc81bf000, 21, 2);
    listed();
}

/* Rules 14.5 and 14.6: segment 51,227 of list A, and with 200.27.240.0/21 besides. */
static void figures(void)
{
    static const uint16_t of_a[6] = {3, 1, 2, 1, 3, 2};
    struct whelk_packed p;
    list_a(0);
    segment(51227);
    p = pack_into(51227, 1, 1, 6);
    same("width", p.width, 4);
    same("words", p.words * 65536 + words[0], 65536 + 35265);
    if (p.hops != 6 || memcmp(packed_hops, of_a, sizeof of_a) != 0) same("hops of A", 0, 1);
    same("200.27.112.170", whelk_packed_lookup(4, words, 1, bases, 1, packed_hops, 6, 0xc81b70aa), 2);
    list_a(1);
    segment(51227);
    p = pack_into(51227, 2, 2, 6);
    same("width", p.width, 5);
    same("words", words[0] * 65536u + words[1], 32898u * 65536 + 40962);
    same("bases", bases[0] * 65536u + bases[1], 3);
    if (p.hops != 6 || memcmp(packed_hops, of_a, sizeof of_a) != 0) same("hops with the /21", 0, 1);
    lookups++;
}

/* A refusal, with room and without: its number and zeros, and what was lent stays, what is read as well as what is written. */
static void refused(size_t number, size_t list_count, size_t keys_length, size_t hops_length, size_t run_count, size_t starts_length,
                    size_t run_hops_length)
{
    static uint64_t keys_then[16];
    static uint16_t hops_then[16], run_hops_then[32];
    static uint32_t starts_then[32];
    struct whelk_packed want = {number, 0, 0, 0};
    int room;
    memcpy(keys_then, keys, sizeof keys_then);
    memcpy(hops_then, hops, sizeof hops_then);
    memcpy(starts_then, starts, sizeof starts_then);
    memcpy(run_hops_then, run_hops, sizeof run_hops_then);
    for (room = 0; room < 2; room++) {
        wipe();
        same_packed(whelk_pack(51227, list_count, keys, keys_length, hops, hops_length, run_count, starts, starts_length, run_hops,
                               run_hops_length, words, room ? sizeof words / 2 : 0, bases, room ? sizeof bases / 2 : 0, packed_hops,
                               room ? sizeof packed_hops / 2 : 0),
                    want);
        packings++;
        untouched();
    }
    if (memcmp(keys_then, keys, sizeof keys_then) || memcmp(hops_then, hops, sizeof hops_then) ||
        memcmp(starts_then, starts, sizeof starts_then) || memcmp(run_hops_then, run_hops, sizeof run_hops_then))
        same("what was read is written", 1, 0);
}

static void refusals(void)
{
    struct whelk_packed p;
    list_a(0); /* 7 rows, 10 runs */
    refused(WHELK_ILL_FORMED, 7, 6, 7, 10, 10, 10);
    refused(WHELK_ILL_FORMED, 7, 7, 6, 10, 10, 10);
    refused(WHELK_ILL_FORMED, (size_t)-1, 7, 7, 10, 10, 10);
    refused(WHELK_ILL_FORMED, 7, 7, 7, 10, 9, 10);
    refused(WHELK_ILL_FORMED, 7, 7, 7, 10, 10, 9);
    refused(WHELK_ILL_FORMED, 7, 7, 7, (size_t)-1, 10, 10);
    hops[3] = 0;
    refused(WHELK_ILL_FORMED, 7, 7, 7, 10, 10, 10);
    hops[3] = 1;
    keys[6]++; /* 200.27.240.0/21, so another list */
    refused(WHELK_NOT_ITS_RUNS, 7, 7, 7, 10, 10, 10);
    keys[6] += 12; /* /33 */
    refused(WHELK_ILL_FORMED, 7, 7, 7, 10, 10, 10);
    keys[6] -= 13;
    keys[5] = keys[6];
    refused(WHELK_ILL_FORMED, 7, 7, 7, 10, 10, 10);
    list_a(0);
    refused(WHELK_NOT_ITS_RUNS, 7, 7, 7, 9, 10, 10);
    refused(WHELK_NOT_ITS_RUNS, 7, 7, 7, 0, 10, 10);
    refused(WHELK_NOT_ITS_RUNS, 6, 7, 7, 10, 10, 10);
    run_hops[4] = 2;
    refused(WHELK_NOT_ITS_RUNS, 7, 7, 7, 10, 10, 10);
    run_hops[4] = 1;
    starts[4]--;
    refused(WHELK_NOT_ITS_RUNS, 7, 7, 7, 10, 10, 10);
    starts[4]++;
    run_hops[9] = 1; /* a run outside the segment has a say too */
    refused(WHELK_NOT_ITS_RUNS, 7, 7, 7, 10, 10, 10);
    run_hops[9] = 0;
    starts[10] = starts[11] = 5; /* and one past the count has none */
    run_hops[10] = 77;
    p = pack_into(51227, 1, 1, 6);
    same("runs past the count", p.number * 65536 + p.width, 4);
    refused(WHELK_NOT_ITS_RUNS, 7, 7, 7, 11, 11, 11);
}

/* rules 9.10 to 9.13 */
static uint32_t by_rule(uint32_t width, const uint16_t *w, size_t w_length, const uint16_t *b, size_t b_length, const uint16_t *h,
                        size_t h_length, uint32_t address)
{
    uint32_t block = address % 65536, i;
    long place;
    if (width > 16) return REFUSED;
    for (i = width; i < 16; i++) block /= 2;
    if (block / 16 >= w_length || block / 16 >= b_length) return REFUSED;
    place = (long)b[block / 16] - 1;
    for (i = 0; i <= block % 16; i++)
        if (w[block / 16] & (0x8000 >> i)) place++;
    return place < 0 || place >= (long)h_length ? REFUSED : h[place];
}

static unsigned long hops_found, refusals_found;

static void by_the_rule(uint32_t width, size_t w_length, size_t b_length, size_t h_length, uint32_t address)
{
    uint32_t want = by_rule(width, words, w_length, bases, b_length, packed_hops, h_length, address);
    same("a damaged segment", whelk_packed_lookup(width, words, w_length, bases, b_length, packed_hops, h_length, address), want);
    lookups++;
    if (want == REFUSED)
        refusals_found++;
    else
        hops_found++;
}

/* a length up to n, and n itself as often as not */
static size_t some_of(size_t n)
{
    return any() % 2 ? n : below((uint32_t)n + 1);
}

/* Slices of any numbers: bases of about as many ones as are before them, small ones, and any. */
static void any_slices(void)
{
    int k, i;
    for (k = 0; k < 4000; k++) {
        uint32_t width = any() % 2 ? 4 + below(9) : below(21);
        size_t w = some_of(WHELK_PACKED_WORDS), b = some_of(WHELK_PACKED_WORDS), h = some_of(any() % 2 ? 300 : WHELK_PACKED_HOPS);
        int kind = k % 4;
        for (i = 0; i < WHELK_PACKED_WORDS; i++) {
            words[i] = (uint16_t)(kind == 0 ? 0 : kind == 1 ? any() & any() & any() : any());
            bases[i] = (uint16_t)(kind == 2 ? any() : kind == 1 ? 2u * (unsigned)i : below(20));
        }
        for (i = 0; i < 64; i++) packed_hops[below(WHELK_PACKED_HOPS)] = (uint16_t)any();
        for (i = 0; i < 200; i++) by_the_rule(width, w, b, h, any());
        by_the_rule(width, w, b, h, 0);
        by_the_rule(width, w, b, h, 0xffffffff);
    }
}

/* A packed segment with damage: another width, a bit, a base, a shorter slice. Whatever there is then, the rule says the answer. */
static void damaged(void)
{
    int k, i;
    for (k = 0; k < 400; k++) {
        uint32_t q = below(65536), width;
        struct whelk_packed p;
        size_t w, b, h;
        random_rows(q, below(17), 1 + below(40), 5);
        p = pack_into(q, WHELK_PACKED_WORDS, WHELK_PACKED_WORDS, WHELK_PACKED_HOPS);
        if (p.number != 0) same("refused", p.number, 0);
        width = (uint32_t)p.width;
        w = p.words;
        b = p.words;
        h = p.hops;
        switch (k % 7) {
        case 0: width = below(21); break;
        case 1: words[below((uint32_t)w)] ^= (uint16_t)(0x8000 >> below(16)); break;
        case 2: bases[below((uint32_t)b)] = (uint16_t)any(); break;
        case 3: w--; break;
        case 4: b--; break;
        case 5: h--; break;
        case 6: words[0] = 0; break;
        }
        for (i = 0; i < 3000; i++) by_the_rule(width, w, b, h, any());
    }
}

/* A place of up to 65,535 + 16 - 1 is counted without wrapping, and a width beyond 16 is 19 however far. */
static void edges(void)
{
    static uint16_t far_hops[65551];
    uint16_t word = 0xffff, base = 65535, hop = 0;
    uint32_t width, bit;
    size_t i;
    for (i = 0; i < 65551; i++) far_hops[i] = (uint16_t)(i + 1);
    for (bit = 0; bit < 16; bit++) {
        uint32_t at = bit << 12;
        same("a far place", whelk_packed_lookup(4, &word, 1, &base, 1, far_hops, 65551, at), (65535 + bit + 1) & 65535);
        same("past the hops", whelk_packed_lookup(4, &word, 1, &base, 1, far_hops, 65535 + bit, at), REFUSED);
        same("the last hop", whelk_packed_lookup(4, &word, 1, &base, 1, far_hops, 65535 + bit + 1, at), (65535 + bit + 1) & 65535);
        lookups += 3;
    }
    for (width = 17; width != 0; width = width < 100 ? width + 1 : width * 2) {
        same("a width beyond 16", whelk_packed_lookup(width, &word, 1, &base, 1, far_hops, 65551, 0), REFUSED);
        lookups++;
    }
    same("the widest", whelk_packed_lookup(0xffffffff, &word, 1, &base, 1, far_hops, 65551, 0), REFUSED);
    base = 0;
    word = 0x7fff;
    same("place -1", whelk_packed_lookup(4, &word, 1, &base, 1, far_hops, 65551, 0), REFUSED);
    same("place 0 after it", whelk_packed_lookup(4, &word, 1, &base, 1, far_hops, 65551, 4096), 1);
    word = 0x8000;
    same("hop 0", whelk_packed_lookup(0, &word, 1, &base, 1, &hop, 1, 0xffffffff), 0);
    same("no word", whelk_packed_lookup(0, &word, 0, &base, 1, &hop, 1, 0), REFUSED);
    same("no base", whelk_packed_lookup(0, &word, 1, &base, 0, &hop, 1, 0), REFUSED);
    same("no hop", whelk_packed_lookup(0, &word, 1, &base, 1, &hop, 0, 0), REFUSED);
    lookups += 7;
}

int main(void)
{
    small_lists();
    group("few rows or none");
    figures();
    group("list A");
    every_width();
    group("every width, at both ends of the addresses and between");
    alternating();
    group("65,536 hops");
    refusals();
    group("refusals");
    edges();
    group("edges of packed lookup");
    any_slices();
    group("any slices, by the rule");
    damaged();
    group("packed segments with damage, by the rule");
    check("every width from 0 to 16 was met", widths_seen == 0x1ffff);
    check("damaged segments gave hops and 19, each often", hops_found > 100000 && refusals_found > 100000);
    return finish();
}
