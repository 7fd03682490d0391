/* Each export with empty, short, unequal and overlong slices. Each slice ends where memory ends: the page behind it can't be touched, so that
   a read or a write past the slice ends the test. What stands before a slice must stay, and so must every slot that a call has no business
   with: all slots at a refusal, those past the result where it is done. What a refusal's number must be is worked out here from the lengths.

   The list is 0.0.0.0/0 1, 10.0.0.0/8 7, 10.64.0.0/10 9, and the withdrawn and announced route is the last. */
#define _DEFAULT_SOURCE
#include "whelkhollow.h"

/* every export */
#define EXPORTED \
    {"whelk_import", 0, 0}, {"whelk_import_tally", 0, 0}, {"whelk_pull", 0, 0}, {"whelk_write", 0, 0}, \
    {"whelk_build", 0, 0}, {"whelk_pair_check", 0, 0}, {"whelk_plain_lookup", 0, 0}, {"whelk_run_lookup_slices", 0, 0}, \
    {"whelk_run_lookup", 0, 0}, {"whelk_pack", 0, 0}, {"whelk_packed_lookup", 0, 0}, {"whelk_announce", 0, 0}, \
    {"whelk_withdraw", 0, 0}, {"whelk_split", 0, 0}, {"whelk_half_lookup", 0, 0}, {"whelk_build_half", 0, 0}, \
    {"whelk_why", 0, 0}, {"whelk_why_text", 0, 0}

enum { FEED, KEYS, HOPS, REPORT, STARTS, RUN_HOPS, OUT_A, OUT_B, OUT_C, SLICES };

#include "lent.h"

#define ROWS 3
#define RUNS 5

static const uint64_t list_keys[ROWS] = {0, (uint64_t)0x0a000000 * 64 + 8, (uint64_t)0x0a400000 * 64 + 10};
static const uint16_t list_hops[ROWS] = {1, 7, 9};
static const uint32_t run_starts[RUNS] = {0, 0x0a000000, 0x0a400000, 0x0a800000, 0x0b000000};
static const uint16_t run_hops[RUNS] = {1, 7, 9, 7, 1};
static const char feed_text[] = "0.0.0.0/0 1\n10.0.0.0/8 7\n10.64.0.0/10 9\n";

static void lend_list(size_t keys, size_t hops)
{
    lend(KEYS, keys, 8, list_keys, ROWS);
    lend(HOPS, hops, 2, list_hops, ROWS);
}

static void lend_runs(size_t starts, size_t hops)
{
    lend(STARTS, starts, 4, run_starts, RUNS);
    lend(RUN_HOPS, hops, 2, run_hops, RUNS);
}

static int list_stays(void)
{
    return stays(KEYS) && stays(HOPS);
}

static int runs_stay(void)
{
    return stays(STARTS) && stays(RUN_HOPS);
}

static void imports(void)
{
    const uint8_t taken[ROWS] = {0, 0, 0};
    for (int tally = 0; tally < 2; tally++) {
        const char *name = tally ? "whelk_import_tally" : "whelk_import";
        EACH(keys, ROWS, hops, ROWS)
            for (int r = 0; r < 4; r++)
                for (size_t feed = 0; feed < sizeof feed_text; feed += sizeof feed_text - 1) {
                    size_t report = tried(r, ROWS), rows = feed ? ROWS : 0;
                    size_t room = keys < hops ? keys : hops, fit = room < rows ? room : rows;
                    uint8_t numbers[ROWS];
                    struct whelk_tally t = {1, 2, 3, 4, 5, 6, 7, 8};
                    const struct whelk_tally was = t;
                    struct whelk_counts c;
                    for (size_t i = 0; i < ROWS; i++) numbers[i] = i < fit ? taken[i] : 5;
                    lend(FEED, feed, 1, feed_text, feed);
                    lend(KEYS, keys, 8, NULL, 0);
                    lend(HOPS, hops, 2, NULL, 0);
                    lend(REPORT, report, 1, NULL, 0);
                    if (tally) {
                        memset(&c, 0, sizeof c);
                        c.number = whelk_import_tally(SLICE(FEED), SLICE(KEYS), SLICE(HOPS), SLICE(REPORT), &t);
                        call(name, c.number == 0 || memcmp(&t, &was, sizeof t) == 0);
                        if (c.number == 0) memcpy(&c.rows, &t, sizeof t);
                    } else {
                        c = whelk_import(SLICE(FEED), SLICE(KEYS), SLICE(HOPS), SLICE(REPORT));
                    }
                    if (report < rows) {
                        call(name, c.number == 12 && c.rows == 0 && c.taken == 0 && list_stays() && stays(REPORT));
                    } else {
                        call(name, c.number == 0 && c.rows == rows && c.taken == fit && c.noroom == rows - fit &&
                             c.shape + c.zeros + c.range + c.hostbits + c.replaced == 0 && left(KEYS, list_keys, fit) && left(HOPS, list_hops, fit) &&
                             left(REPORT, numbers, rows));
                    }
                    call(name, stays(FEED));
                }
    }
}

static void pulls(void)
{
    const size_t places[] = {0, 12, 25, 39, 40, 41, 42, SIZE_MAX};
    for (size_t i = 0; i < sizeof places / sizeof *places; i++)
        for (size_t length = 0; length < sizeof feed_text; length++) {
            lend(FEED, length, 1, feed_text, length);
            struct whelk_row row = whelk_pull(SLICE(FEED), places[i]);
            const char *lf = places[i] < length ? memchr(feed_text + places[i], '\n', length - places[i]) : NULL;
            size_t next = lf ? (size_t)(lf - feed_text) + 1 : places[i] < length ? length : places[i];
            call("whelk_pull", row.found == (places[i] < length) && row.next == next && stays(FEED));
            if (lf && i < 3) call("whelk_pull", row.number == 0 && row.key == list_keys[i] && row.hop == list_hops[i]);
        }
}

static void lists(void)
{
    const size_t counts[] = {0, ROWS, ROWS + 3, SIZE_MAX};
    EACH(keys, ROWS, hops, ROWS)
        for (int i = 0; i < 4; i++) {
            size_t count = counts[i];
            int ill = count > ROWS || count > keys || count > hops;
            uint32_t hop = ill ? 11 * 65536 : count ? 9 : 0;
            lend_list(keys, hops);
            call("whelk_plain_lookup", whelk_plain_lookup(count, SLICE(KEYS), SLICE(HOPS), 0x0a400001) == hop && list_stays());
            call("whelk_half_lookup", whelk_half_lookup(count, SLICE(KEYS), SLICE(HOPS), 0x0a400001) == hop && list_stays());
        }
}

static void writes(void)
{
    size_t text = strlen(feed_text);
    EACH(keys, ROWS, hops, ROWS)
        for (int b = 0; b < 4; b++) {
            size_t buffer = tried(b, text);
            unsigned number = keys < ROWS || hops < ROWS ? 11 : buffer < text ? 13 : 0;
            lend_list(keys, hops);
            lend(OUT_A, buffer, 1, NULL, 0);
            uint64_t wrote = whelk_write(ROWS, SLICE(KEYS), SLICE(HOPS), SLICE(OUT_A));
            call("whelk_write", whelk_write_number(wrote) == number && whelk_write_bytes(wrote) == (number ? 0 : text) && list_stays() &&
                                     (number ? stays(OUT_A) : left(OUT_A, feed_text, text)));
        }
    lend_list(0, 0);
    lend(OUT_A, 0, 1, NULL, 0);
    call("whelk_write", whelk_write(0, SLICE(KEYS), SLICE(HOPS), SLICE(OUT_A)) == 0 && stays(OUT_A));
}

/* All three rows hold 10.64.0.1. */
static void reasons(void)
{
    static const size_t all[ROWS] = {0, 1, 2};
    size_t text = strlen(feed_text);
    EACH(keys, ROWS, hops, ROWS)
        for (int b = 0; b < 4; b++) {
            int ill = keys < ROWS || hops < ROWS;
            size_t room = tried(b, ROWS), buffer = tried(b, text);
            size_t number = ill ? 11 : room < ROWS ? 13 : 0, of_text = ill ? 11 : buffer < text ? 13 : 0;
            lend_list(keys, hops);
            lend(OUT_A, room, sizeof *all, NULL, 0);
            struct whelk_reason r = whelk_why(ROWS, SLICE(KEYS), SLICE(HOPS), 0x0a400001, SLICE(OUT_A));
            call("whelk_why", r.number == number && r.listed == (number ? 0 : ROWS) && r.place == (number ? 0 : 2) && list_stays() &&
                                   (number ? stays(OUT_A) : left(OUT_A, all, ROWS)));
            lend(OUT_A, buffer, 1, NULL, 0);
            uint64_t wrote = whelk_why_text(ROWS, SLICE(KEYS), SLICE(HOPS), 0x0a400001, SLICE(OUT_A));
            call("whelk_why_text", whelk_write_number(wrote) == of_text && whelk_write_bytes(wrote) == (of_text ? 0 : text) && list_stays() &&
                                        (of_text ? stays(OUT_A) : left(OUT_A, feed_text, text)));
        }
    lend_list(0, 0);
    lend(OUT_A, 0, sizeof *all, NULL, 0);
    struct whelk_reason none = whelk_why(0, SLICE(KEYS), SLICE(HOPS), 0x0a400001, SLICE(OUT_A));
    call("whelk_why", none.number == 0 && none.listed == 0 && none.place == 0 && stays(OUT_A));
    call("whelk_why_text", whelk_why_text(0, SLICE(KEYS), SLICE(HOPS), 0x0a400001, SLICE(OUT_A)) == 0 && stays(OUT_A));
}

static void builds(void)
{
    for (int half = 0; half < 2; half++)
        EACH(keys, ROWS, hops, ROWS)
            EACH(starts, RUNS, rhops, RUNS) {
                unsigned number = keys < ROWS || hops < ROWS ? 11 : starts < RUNS || rhops < RUNS ? 13 : 0;
                lend_list(keys, hops);
                lend(STARTS, starts, 4, NULL, 0);
                lend(RUN_HOPS, rhops, 2, NULL, 0);
                uint64_t built = half ? whelk_build_half(ROWS, SLICE(KEYS), SLICE(HOPS), SLICE(STARTS), SLICE(RUN_HOPS))
                                      : whelk_build(ROWS, SLICE(KEYS), SLICE(HOPS), SLICE(STARTS), SLICE(RUN_HOPS));
                call(half ? "whelk_build_half" : "whelk_build",
                      whelk_build_number(built) == number && whelk_build_runs(built) == (number ? 0 : RUNS) && list_stays() &&
                          (number ? runs_stay() : left(STARTS, run_starts, RUNS) && left(RUN_HOPS, run_hops, RUNS)));
            }
}

static void pairs(void)
{
    const size_t counts[] = {0, RUNS - 1, RUNS, RUNS + 1, SIZE_MAX};
    EACH(keys, ROWS, hops, ROWS)
        EACH(starts, RUNS, rhops, RUNS)
            for (int i = 0; i < 5; i++) {
                size_t runs = counts[i];
                size_t number = keys < ROWS || hops < ROWS || runs > starts || runs > rhops ? 11 : runs != RUNS ? 14 : 0;
                lend_list(keys, hops);
                lend_runs(starts, rhops);
                call("whelk_pair_check", whelk_pair_check(ROWS, SLICE(KEYS), SLICE(HOPS), runs, SLICE(STARTS), SLICE(RUN_HOPS)) == number &&
                                              list_stays() && runs_stay());
            }
}

static void run_lookups(void)
{
    const size_t counts[] = {0, 1, RUNS, RUNS + 3, SIZE_MAX};
    uint8_t bytes[6 * RUNS];
    EACH(starts, RUNS, rhops, RUNS)
        for (int i = 0; i < 5; i++) {
            size_t n = counts[i];
            /* in three slots more the starts are all FILL, above every address here */
            int ill = n == 0 || n > starts || n > rhops;
            lend_runs(starts, rhops);
            uint32_t last = 99;
            uint64_t found = whelk_run_lookup_slices(n, SLICE(STARTS), SLICE(RUN_HOPS), 0x0a400001, &last);
            call("whelk_run_lookup_slices", whelk_lookup_number(found) == (ill ? 11 : 0) && runs_stay() && last == (ill ? 99 : n == 1 ? 0xffffffff : run_starts[3] - 1) &&
                                                 whelk_lookup_hop(found) == (ill ? 0 : n == 1 ? 1 : 9) &&
                                                 (ill ? whelk_lookup_probes(found) == 0 : (size_t)1 << whelk_lookup_probes(found) < 4 * n));
        }
    for (int i = 0; i < RUNS; i++) {
        for (int b = 0; b < 4; b++) bytes[6 * i + b] = (uint8_t)(run_starts[i] >> (24 - 8 * b));
        bytes[6 * i + 4] = 0;
        bytes[6 * i + 5] = (uint8_t)run_hops[i];
    }
    /* the last address of the first, second or third run where it is the last, and of the third where others follow */
    uint8_t last[4][4] = {{255, 255, 255, 255}, {255, 255, 255, 255}, {255, 255, 255, 255}};
    for (int b = 0; b < 4; b++) last[3][b] = (uint8_t)((run_starts[3] - 1) >> (24 - 8 * b));
    for (size_t length = 0; length <= sizeof bytes; length++)
        for (size_t room = 0; room <= 6; room++) {
            lend(OUT_A, length, 1, bytes, length);
            lend(OUT_B, room, 1, NULL, 0);
            int ill = length == 0 || length % 6;
            uint32_t hop = ill ? 11 * 65536 : room < 4 ? 13 * 65536 : length == 6 ? 1 : length == 12 ? 7 : 9;
            call("whelk_run_lookup", whelk_run_lookup(SLICE(OUT_A), 0x0a400001, SLICE(OUT_B)) == hop && stays(OUT_A) &&
                                          left(OUT_B, last[length == 6 ? 0 : length == 12 ? 1 : length == 18 ? 2 : 3], ill || room < 4 ? 0 : 4));
        }
}

/* Segment 10.64 has no prefix longer than 16: width 0, one word 0x8000, base 0, one hop. */
static void packs(void)
{
    const uint16_t word = 0x8000, base = 0, hop = 9;
    EACH(keys, ROWS, hops, ROWS)
        EACH(starts, RUNS, rhops, RUNS)
            EACH(words, 1, bases, 1)
                for (size_t out = 0; out < 3; out++) {
                    size_t number = keys < ROWS || hops < ROWS || starts < RUNS || rhops < RUNS ? 11
                                    : words < 1 || bases < 1 || out < 1                        ? 13
                                                                                                : 0;
                    lend_list(keys, hops);
                    lend_runs(starts, rhops);
                    lend(OUT_A, words, 2, NULL, 0);
                    lend(OUT_B, bases, 2, NULL, 0);
                    lend(OUT_C, out, 2, NULL, 0);
                    struct whelk_packed p = whelk_pack(0x0a40, ROWS, SLICE(KEYS), SLICE(HOPS), RUNS, SLICE(STARTS), SLICE(RUN_HOPS),
                                                       SLICE(OUT_A), SLICE(OUT_B), SLICE(OUT_C));
                    call("whelk_pack", p.number == number && p.width == 0 && p.words == (number ? 0 : 1) && p.hops == (number ? 0 : 1) &&
                                            list_stays() && runs_stay() && left(OUT_A, &word, p.words) && left(OUT_B, &base, p.words) &&
                                            left(OUT_C, &hop, p.hops));
                }
    /* Width 5 has two words; the address's block is 17, in the second word. */
    const uint16_t two[2] = {0x8000, 0x8000}, ones[2] = {0, 1}, found[2] = {3, 4};
    for (uint32_t width = 0; width < 40; width++)
        for (size_t words = 0; words < 4; words++)
            for (size_t bases = 0; bases < 4; bases++)
                for (size_t out = 0; out < 4; out++) {
                    if (width != 5 && width < 17) continue;
                    int outside = width > 16 || words < 2 || bases < 2 || out < 2;
                    lend(OUT_A, words, 2, two, 2);
                    lend(OUT_B, bases, 2, ones, 2);
                    lend(OUT_C, out, 2, found, 2);
                    call("whelk_packed_lookup", whelk_packed_lookup(width, SLICE(OUT_A), SLICE(OUT_B), SLICE(OUT_C), 17u << 11) ==
                                                         (outside ? 19u * 65536 : 4) &&
                                                     stays(OUT_A) && stays(OUT_B) && stays(OUT_C));
                }
}

/* The last route is announced into a list without it, and withdrawn from one with it. */
static void edits(void)
{
    const uint32_t without_starts[3] = {0, 0x0a000000, 0x0b000000};
    const uint16_t without_hops[3] = {1, 7, 1};
    const uint64_t no_key[1] = {0};
    const uint16_t no_hop[1] = {0};
    EACH(keys, ROWS, hops, ROWS)
        EACH(starts, RUNS, rhops, RUNS) {
            /* into two rows and three runs */
            size_t number = keys < 2 || hops < 2 || starts < 3 || rhops < 3                   ? 11
                            : keys < ROWS || hops < ROWS || starts < RUNS || rhops < RUNS ? 13
                                                                                          : 0;
            lend(KEYS, keys, 8, list_keys, 2);
            lend(HOPS, hops, 2, list_hops, 2);
            lend(STARTS, starts, 4, without_starts, 3);
            lend(RUN_HOPS, rhops, 2, without_hops, 3);
            struct whelk_edit e = whelk_announce(0x0a400000, 10, 9, 2, SLICE(KEYS), SLICE(HOPS), 3, SLICE(STARTS), SLICE(RUN_HOPS));
            call("whelk_announce",
                  e.number == number && e.changed == (number ? 0 : 1u << 22) && e.count == (number ? 0 : ROWS) && e.runs == (number ? 0 : RUNS) &&
                      (number ? list_stays() && runs_stay()
                              : left(KEYS, list_keys, ROWS) && left(HOPS, list_hops, ROWS) && left(STARTS, run_starts, RUNS) &&
                                    left(RUN_HOPS, run_hops, RUNS)));
            e = whelk_announce(0x0a400001, 10, 9, 2, SLICE(KEYS), SLICE(HOPS), 3, SLICE(STARTS), SLICE(RUN_HOPS));
            call("whelk_announce", e.number == 15 && e.changed == 0 && e.count == 0 && e.runs == 0);
            /* out of three rows and five runs */
            number = keys < ROWS || hops < ROWS || starts < RUNS || rhops < RUNS ? 11 : 0;
            lend_list(keys, hops);
            lend_runs(starts, rhops);
            e = whelk_withdraw(0x0a400000, 10, ROWS, SLICE(KEYS), SLICE(HOPS), RUNS, SLICE(STARTS), SLICE(RUN_HOPS));
            call("whelk_withdraw", e.number == number && e.changed == (number ? 0 : 1u << 22) && e.count == (number ? 0 : 2) &&
                                        e.runs == (number ? 0 : 3));
            if (number) {
                call("whelk_withdraw", list_stays() && runs_stay());
            } else {
                uint64_t rows[ROWS];
                uint16_t row_hops[ROWS], left_hops[RUNS] = {1, 7, 1, 0, 0};
                uint32_t left_starts[RUNS] = {0, 0x0a000000, 0x0b000000, 0, 0};
                memcpy(rows, list_keys, 16);
                memcpy(rows + 2, no_key, 8);
                memcpy(row_hops, list_hops, 4);
                memcpy(row_hops + 2, no_hop, 2);
                call("whelk_withdraw", left(KEYS, rows, ROWS) && left(HOPS, row_hops, ROWS) &&
                                                                left(STARTS, left_starts, RUNS) && left(RUN_HOPS, left_hops, RUNS));
            }
        }
}

/* After the first row: the second half is 0.0.0.0/0 0, 10.0.0.0/8 7 XOR 1, 10.64.0.0/10 9 XOR 1. */
static void splits(void)
{
    const uint16_t labels[ROWS] = {0, 6, 8};
    const size_t sizes[] = {0, 1, ROWS + 1, SIZE_MAX};
    EACH(keys, ROWS, hops, ROWS)
        EACH(out, ROWS, out_labels, ROWS)
            for (int i = 0; i < 4; i++) {
                unsigned number = keys < ROWS || hops < ROWS ? 11 : sizes[i] != 1 ? 17 : out < ROWS || out_labels < ROWS ? 13 : 0;
                lend_list(keys, hops);
                lend(OUT_A, out, 8, NULL, 0);
                lend(OUT_B, out_labels, 2, NULL, 0);
                uint64_t split = whelk_split(sizes[i], ROWS, SLICE(KEYS), SLICE(HOPS), SLICE(OUT_A), SLICE(OUT_B));
                call("whelk_split", whelk_split_number(split) == number && whelk_split_count(split) == (number ? 0 : ROWS) && list_stays() &&
                                         left(OUT_A, list_keys, number ? 0 : ROWS) && left(OUT_B, labels, number ? 0 : ROWS));
            }
}

int main(void)
{
    map_slices();
    imports();
    pulls();
    lists();
    writes();
    reasons();
    builds();
    pairs();
    run_lookups();
    packs();
    edits();
    splits();
    return finish_exports();
}
