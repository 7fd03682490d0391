/* The C interface against docs/RULES.md, worked out by hand: import, plain lookup, run lookup on slices and on bytes, build, edits. */
#include <string.h>

#include "testing.h"
#include "whelkhollow.h"

static uint64_t key(uint32_t a, uint32_t b, uint32_t c, uint32_t d, uint32_t len)
{
    return (((uint64_t)a << 24 | b << 16 | c << 8 | d) << 6) | len;
}

static const char five[] = "10.0.0.0/8 7\n10.0.0.1/8 7\n10.0.0.0/8 9\n\n10.1.0.0/16 70000\n";

static void imports(void)
{
    uint64_t keys[4] = {77, 77, 77, 77};
    uint16_t hops[4] = {88, 88, 88, 88};
    uint8_t report[6] = {99, 99, 99, 99, 99, 99};
    struct whelk_counts c =
        whelk_import((const uint8_t *)five, strlen(five), keys, 4, hops, 4, report, 6);
    check("five rows: counts", c.number == 0 && c.rows == 5 && c.taken == 1 && c.shape == 1 && c.range == 1 && c.hostbits == 1 &&
                                   c.replaced == 1 && c.noroom == 0 && c.zeros == 0);
    const uint8_t numbers[6] = {0, 3, 4, 1, 2, 99};
    check("five rows: report", memcmp(report, numbers, 6) == 0);
    check("five rows: list", keys[0] == key(10, 0, 0, 0, 8) && hops[0] == 9 && keys[1] == 77 && hops[1] == 88);
    c = whelk_import((const uint8_t *)five, strlen(five), keys, 4, hops, 4, report, 4);
    check("a short report is 12, and nothing is written",
          c.number == WHELK_REPORT_SHORT && c.rows == 0 && c.taken == 0 && memcmp(report, numbers, 6) == 0 && keys[0] == key(10, 0, 0, 0, 8));
    c = whelk_import((const uint8_t *)five, 0, keys, 4, hops, 4, report, 0);
    check("an empty feed", c.number == 0 && c.rows == 0 && c.taken == 0);
    c = whelk_import((const uint8_t *)five, strlen(five), keys, 0, hops, 4, report, 6);
    check("no room", c.number == 0 && c.rows == 5 && c.taken == 0 && c.noroom == 2 && c.replaced == 0 && report[0] == 5 && report[2] == 5);
    /* places at both ends of the list: the last prefix first, each again, one between, no LF at the end */
    const char mixed[] = "255.255.255.255/32 5\n0.0.0.0/0 4\n255.255.255.255/32 6\n0.0.0.0/0 3\n10.0.0.0/8 7\n0.0.0.0/32 8";
    const uint8_t mixed_numbers[6] = {0, 0, 4, 4, 0, 0};
    c = whelk_import((const uint8_t *)mixed, strlen(mixed), keys, 4, hops, 4, report, 6);
    check("out of order, at both ends: counts", c.number == 0 && c.rows == 6 && c.taken == 4 && c.replaced == 2);
    check("out of order, at both ends: report", memcmp(report, mixed_numbers, 6) == 0);
    check("out of order, at both ends: list", keys[0] == 0 && keys[1] == 32 && keys[2] == key(10, 0, 0, 0, 8) &&
                                                  keys[3] == key(255, 255, 255, 255, 32) && hops[0] == 3 && hops[1] == 8 && hops[2] == 7 &&
                                                  hops[3] == 6);
}

/* A sorted feed of many rows, and lookups in the list that it leaves. */
static void many(void)
{
    enum { rows = 3000 };
    static char feed[rows * 24];
    static uint64_t keys[rows];
    static uint16_t hops[rows];
    static uint8_t report[rows];
    size_t n = 0;
    for (int i = 0; i < rows; i++) n += (size_t)sprintf(feed + n, "%d.%d.%d.0/24 %d\n", 1 + i / 256, i % 256, i % 7, 1 + i % 65535);
    struct whelk_counts c = whelk_import((const uint8_t *)feed, n, keys, rows, hops, rows, report, rows);
    check("many rows are all taken", c.number == 0 && c.rows == rows && c.taken == rows);
    int ok = 1;
    for (int i = 0; i < rows; i += 37) {
        uint32_t a = (uint32_t)(1 + i / 256) << 24 | (uint32_t)(i % 256) << 16 | (uint32_t)(i % 7) << 8;
        ok &= whelk_plain_lookup(c.taken, keys, rows, hops, rows, a + 255) == (uint32_t)(1 + i % 65535);
        ok &= whelk_plain_lookup(c.taken, keys, rows, hops, rows, a + 256) == 0;
    }
    check("each is found at its last address and not after it", ok);
}

static void lookups(void)
{
    const uint64_t keys[3] = {key(10, 0, 0, 0, 8), key(10, 64, 0, 0, 10), key(255, 255, 255, 255, 32)};
    const uint16_t hops[3] = {1, 2, 5};
    check("the longest match", whelk_plain_lookup(3, keys, 3, hops, 3, 0x0a400001) == 2);
    check("the shorter one outside it", whelk_plain_lookup(3, keys, 3, hops, 3, 0x0a800000) == 1);
    check("nothing matches", whelk_plain_lookup(3, keys, 3, hops, 3, 0) == 0);
    check("the last address", whelk_plain_lookup(3, keys, 3, hops, 3, 0xffffffff) == 5);
    check("a count beyond one slice is 11", whelk_plain_lookup(3, keys, 3, hops, 2, 0) == 11 * 65536);
    const uint16_t zero[3] = {1, 0, 5};
    check("hop 0 is 11", whelk_plain_lookup(3, keys, 3, zero, 3, 0) == 11 * 65536);
    const uint32_t starts[3] = {0, 0x0a000000, 0x0b000000};
    const uint16_t runs[3] = {0, 7, 0};
    uint32_t last = 99;
    check("run lookup: no runs is 11, and the lent number stays",
          whelk_run_lookup_slices(0, starts, 3, runs, 3, 0, &last) == 11 * 65536 && last == 99);
    check("run lookup: hop 7 after two probes, up to 10.255.255.255",
          whelk_run_lookup_slices(3, starts, 3, runs, 3, 0x0a000000, &last) == ((uint64_t)2 << 32) + 7 && last == 0x0affffff);
    check("run lookup: the last run holds up to 255.255.255.255",
          whelk_run_lookup_slices(3, starts, 3, runs, 3, 0x0b000000, &last) == ((uint64_t)2 << 32) && last == 0xffffffff);
    const uint8_t bytes[12] = {0, 0, 0, 0, 0, 0, 10, 0, 0, 0, 0, 7};
    uint8_t out[6] = {8, 8, 8, 8, 8, 8};
    const uint8_t eights[6] = {8, 8, 8, 8, 8, 8}, first[6] = {9, 255, 255, 255, 8, 8}, second[6] = {255, 255, 255, 255, 8, 8};
    check("run bytes: a length that 6 doesn't divide is 11, without room too, and the lent bytes stay",
          whelk_run_lookup(bytes, 11, 0, out, 6) == 11 * 65536 && whelk_run_lookup(bytes, 11, 0, out, 3) == 11 * 65536 &&
              memcmp(out, eights, 6) == 0);
    check("run bytes: three bytes are 13, and stay", whelk_run_lookup(bytes, 12, 0, out, 3) == 13 * 65536 && memcmp(out, eights, 6) == 0);
    check("run bytes: up to 9.255.255.255, bytes past four stay",
          whelk_run_lookup(bytes, 12, 0x09ffffff, out, 6) == 0 && memcmp(out, first, 6) == 0 && whelk_address_of(out) == 0x09ffffff);
    check("run bytes: the last run, in just four bytes",
          whelk_run_lookup(bytes, 12, 0x0affffff, out, 4) == 7 && memcmp(out, second, 6) == 0);
}

/* The run tables of list A, of the empty list and of only 255.255.255.255/32. */
static void builds(void)
{
    const uint64_t keys[7] = {key(200, 24, 0, 0, 14),   key(200, 26, 0, 0, 15),   key(200, 27, 0, 0, 16),  key(200, 27, 64, 0, 18),
                              key(200, 27, 112, 0, 20), key(200, 27, 128, 0, 20), key(200, 27, 240, 0, 20)};
    const uint16_t hops[7] = {1, 2, 3, 1, 2, 1, 2};
    uint32_t starts[16];
    uint16_t runs[16];
    memset(starts, 0x55, sizeof starts);
    memset(runs, 0x55, sizeof runs);
    check("runs of A do not fit nine slots, and nothing is written",
          whelk_build(7, keys, 7, hops, 7, starts, 9, runs, 16) == (uint64_t)13 << 32 && starts[0] == 0x55555555 && runs[0] == 0x5555);
    check("runs of A", whelk_build(7, keys, 7, hops, 7, starts, 16, runs, 10) == 10 && memcmp(starts, starts_of_a, sizeof starts_of_a) == 0 &&
                           memcmp(runs, hops_of_a, sizeof hops_of_a) == 0 && starts[10] == 0x55555555 && runs[10] == 0x5555);
    check("the empty list has one run", whelk_build(0, keys, 7, hops, 7, starts, 16, runs, 16) == 1 && starts[0] == 0 && runs[0] == 0);
    const uint64_t last[1] = {key(255, 255, 255, 255, 32)};
    const uint16_t five_hop[1] = {5};
    check("only 255.255.255.255/32 has two runs", whelk_build(1, last, 1, five_hop, 1, starts, 16, runs, 16) == 2 && starts[1] == 0xffffffff &&
                                                      runs[1] == 5);
    check("an ill-formed list is 11", whelk_build(2, keys, 7, five_hop, 1, starts, 16, runs, 16) == (uint64_t)11 << 32);
}

/* Rules 8.1 to 8.4, over the run table of 10.0.0.0/8 with 10.64.0.0/10 inside. */
static void pairs(void)
{
    const uint64_t keys[3] = {key(10, 0, 0, 0, 8), key(10, 64, 0, 0, 10), 77};
    const uint16_t hops[3] = {7, 9, 88}, run_hops[6] = {0, 7, 9, 7, 0, 5}, swapped[6] = {0, 7, 9, 9, 0, 5};
    const uint32_t starts[6] = {0, 0x0a000000, 0x0a400000, 0x0a800000, 0x0b000000, 5};
    check("a list and its run table", whelk_pair_check(2, keys, 3, hops, 3, 5, starts, 6, run_hops, 6) == 0);
    check("a run more is 14", whelk_pair_check(2, keys, 3, hops, 3, 6, starts, 6, run_hops, 6) == 14);
    check("a run less is 14", whelk_pair_check(2, keys, 3, hops, 3, 4, starts, 6, run_hops, 6) == 14);
    check("no runs is 14", whelk_pair_check(2, keys, 3, hops, 3, 0, starts, 6, run_hops, 6) == 14);
    check("another hop is 14", whelk_pair_check(2, keys, 3, hops, 3, 5, starts, 6, swapped, 6) == 14);
    check("another list is 14", whelk_pair_check(1, keys, 3, hops, 3, 5, starts, 6, run_hops, 6) == 14);
    check("an ill-formed list is 11", whelk_pair_check(3, keys, 3, hops, 3, 5, starts, 6, run_hops, 6) == 11);
    check("runs beyond a slice are 11", whelk_pair_check(2, keys, 3, hops, 3, 5, starts, 6, run_hops, 4) == 11);
    check("the empty list and its one run", whelk_pair_check(0, keys, 0, hops, 0, 1, starts, 1, run_hops, 1) == 0);
    check("the empty list and no runs, of no slots", whelk_pair_check(0, keys, 0, hops, 0, 0, starts, 0, run_hops, 0) == 14);
    const uint64_t ends[2] = {0, key(255, 255, 255, 255, 32)};
    const uint16_t end_hops[2] = {4, 5};
    const uint32_t end_starts[2] = {0, 0xffffffff}, before_end[2] = {0, 0xfffffffe};
    check("0.0.0.0/0 and 255.255.255.255/32", whelk_pair_check(2, ends, 2, end_hops, 2, 2, end_starts, 2, end_hops, 2) == 0);
    check("the last run one address early is 14", whelk_pair_check(2, ends, 2, end_hops, 2, 2, before_end, 2, end_hops, 2) == 14);
    check("the last run lost is 14", whelk_pair_check(2, ends, 2, end_hops, 2, 1, end_starts, 2, end_hops, 2) == 14);
}

/* Each number has words of its own, and whatever else has the same. */
static void texts(void)
{
    const size_t numbers[] = {0, 11, 12, 13, 14, 15, 16, 17, 18, 19, 20};
    size_t n = sizeof numbers / sizeof *numbers;
    int differ = 1;
    for (size_t i = 0; i < n; i++)
        for (size_t j = 0; j < i; j++) differ &= strcmp(whelk_number_text(numbers[i]), whelk_number_text(numbers[j])) != 0;
    check("each number has its text", differ);
    check("no other number has one", strcmp(whelk_number_text(10), whelk_number_text(20)) == 0 &&
                                         strcmp(whelk_number_text(SIZE_MAX), whelk_number_text(20)) == 0);
    uint64_t last = key(255, 255, 255, 255, 32);
    check("a key's parts", whelk_key_network(last) == 0xffffffff && whelk_key_length(last) == 32);
    check("a key of its parts", whelk_key(0xffffffff, 32) == last && whelk_key(0x0a000000, 8) == key(10, 0, 0, 0, 8));
}

static int gave(struct whelk_edit e, size_t number, uint64_t changed, size_t count, size_t runs)
{
    return e.number == number && e.changed == changed && e.count == count && e.runs == runs;
}

/* Rules 10.1 to 10.11, over 10.0.0.0/8 with 10.64.0.0/10 inside. The lengths are those of keys, hops, starts and hops of runs. */
static uint64_t edit_keys[3];
static uint16_t edit_hops[3], edit_run_hops[6];
static uint32_t edit_starts[6];

static int announces(uint32_t network, uint32_t length, uint16_t hop, size_t count, size_t runs, const size_t lengths[4], size_t number,
                     uint64_t changed, size_t rows, size_t runs_then)
{
    return gave(whelk_announce(network, length, hop, count, edit_keys, lengths[0], edit_hops, lengths[1], runs, edit_starts, lengths[2],
                               edit_run_hops, lengths[3]),
                number, changed, rows, runs_then);
}

static int withdraws(uint32_t network, uint32_t length, size_t count, size_t runs, const size_t lengths[4], size_t number,
                     uint64_t changed, size_t rows, size_t runs_then)
{
    return gave(whelk_withdraw(network, length, count, edit_keys, lengths[0], edit_hops, lengths[1], runs, edit_starts, lengths[2],
                               edit_run_hops, lengths[3]),
                number, changed, rows, runs_then);
}

static int left(const uint64_t *keys, const uint16_t *hops, const uint32_t *starts, const uint16_t *run_hops)
{
    return memcmp(edit_keys, keys, sizeof edit_keys) == 0 && memcmp(edit_hops, hops, sizeof edit_hops) == 0 &&
           memcmp(edit_starts, starts, sizeof edit_starts) == 0 && memcmp(edit_run_hops, run_hops, sizeof edit_run_hops) == 0;
}

static void edits(void)
{
    const uint64_t outer = key(10, 0, 0, 0, 8), inner = key(10, 64, 0, 0, 10);
    const uint64_t keys[3][3] = {{outer, 77, 77}, {outer, inner, 77}, {outer, 0, 77}};
    const uint16_t hops[3][3] = {{1, 88, 88}, {1, 2, 88}, {1, 0, 88}};
    const uint32_t starts[3][6] = {{0, 0x0a000000, 0x0b000000, 99, 99, 99},
                                   {0, 0x0a000000, 0x0a400000, 0x0a800000, 0x0b000000, 99},
                                   {0, 0x0a000000, 0x0b000000, 0, 0, 99}};
    const uint16_t run_hops[3][6] = {{0, 1, 0, 66, 66, 66}, {0, 1, 2, 1, 0, 66}, {0, 1, 0, 0, 0, 66}};
    const size_t all[4] = {3, 3, 6, 6}, full[4] = {2, 2, 5, 5};
    const size_t few_keys[4] = {2, 3, 6, 6}, few_hops[4] = {3, 1, 6, 6}, few_starts[4] = {3, 3, 5, 6};
    memcpy(edit_keys, keys[0], sizeof edit_keys);
    memcpy(edit_hops, hops[0], sizeof edit_hops);
    memcpy(edit_starts, starts[0], sizeof edit_starts);
    memcpy(edit_run_hops, run_hops[0], sizeof edit_run_hops);
    check("announce: a row and two runs more", announces(0x0a400000, 10, 2, 1, 3, all, 0, 1 << 22, 2, 5));
    check("announce: the list and the run table", left(keys[1], hops[1], starts[1], run_hops[1]));
    check("announce: its own hop", announces(0x0a400000, 10, 2, 2, 5, full, 0, 0, 2, 5));
    check("no prefix is 15", announces(0x0a400000, 9, 2, 2, 5, all, WHELK_BAD_EDIT, 0, 0, 0));
    check("length 72 is 15", withdraws(0x0a000000, 72, 2, 5, all, WHELK_BAD_EDIT, 0, 0, 0));
    check("hop 0 is 15", announces(0x0a400000, 10, 0, 2, 5, all, WHELK_BAD_EDIT, 0, 0, 0));
    check("a count beyond one slice is 11", withdraws(0x0a400000, 10, 2, 5, few_hops, WHELK_ILL_FORMED, 0, 0, 0));
    check("four of the five runs are 14", withdraws(0x0a400000, 10, 2, 4, all, WHELK_NOT_ITS_RUNS, 0, 0, 0));
    check("what isn't listed is 16", withdraws(0x0a400000, 11, 2, 5, all, WHELK_NOT_LISTED, 0, 0, 0));
    check("no room for a row is 13", announces(0, 0, 7, 2, 5, few_keys, WHELK_NO_ROOM, 0, 0, 0));
    check("no room for a run is 13", announces(0, 32, 7, 2, 5, few_starts, WHELK_NO_ROOM, 0, 0, 0));
    check("its own hop and refusals wrote nothing", left(keys[1], hops[1], starts[1], run_hops[1]));
    check("withdraw: a row and two runs less", withdraws(0x0a400000, 10, 2, 5, full, 0, 1 << 22, 1, 3));
    check("withdraw: what it freed holds 0", left(keys[2], hops[2], starts[2], run_hops[2]));
}

int main(void)
{
    imports();
    many();
    lookups();
    builds();
    pairs();
    texts();
    edits();
    return finish();
}
