/* Pulls against docs/RULES.md, 3.2 to 3.9 and 4.11 to 4.14: at every place of many feeds and past their ends, against a reading of its own,
   and one after the other against the import of the same feed. And of each such feed the import with a lent tally (4.9). */
#include <stdlib.h>
#include <string.h>

#include "testing.h"
#include "whelkhollow.h"

static uint64_t pulled, in_turn_pulled, tallies;

static struct whelk_row row_of(size_t found, size_t number, uint64_t key, size_t hop, size_t next)
{
    struct whelk_row r = {found, number, key, (uint16_t)hop, next};
    return r;
}

static int same(struct whelk_row a, struct whelk_row b)
{
    return a.found == b.found && a.number == b.number && a.key == b.key && a.hop == b.hop && a.next == b.next;
}

/* A row by itself. All of its bytes that are no digits, put together, must be the five marks, and then only the digits between them are of
   interest: how many there are, which is the first, and what they are worth. */
static struct whelk_row reading(const uint8_t *row, size_t length, size_t next)
{
    static const char marks[] = ".../ ";
    static const size_t most[6] = {3, 3, 3, 3, 2, 5};
    size_t digits[6] = {0}, field = 0;
    unsigned long value[6] = {0};
    uint8_t first[6] = {0};
    for (size_t i = 0; i < length; i++) {
        if (strchr("0123456789", row[i]) != NULL && row[i] != 0) {
            if (digits[field] == 0) first[field] = row[i];
            digits[field]++;
            if (digits[field] <= most[field]) value[field] = value[field] * 10 + (unsigned long)(row[i] - '0');
        } else if (field == 5 || row[i] != (uint8_t)marks[field])
            return row_of(1, 1, 0, 0, next);
        else
            field++;
    }
    if (field != 5) return row_of(1, 1, 0, 0, next);
    for (field = 0; field < 6; field++)
        if (digits[field] == 0 || digits[field] > most[field]) return row_of(1, 1, 0, 0, next);
    for (field = 0; field < 6; field++)
        if (digits[field] > 1 && first[field] == '0') return row_of(1, 6, 0, 0, next);
    uint64_t network = 0;
    for (field = 0; field < 4; field++) {
        if (value[field] > 255) return row_of(1, 2, 0, 0, next);
        network = network * 256 + value[field];
    }
    if (value[4] > 32 || value[5] == 0 || value[5] > 65535) return row_of(1, 2, 0, 0, next);
    if (network % ((uint64_t)1 << (32 - value[4])) != 0) return row_of(1, 3, 0, 0, next);
    return row_of(1, 0, network * 64 + value[4], value[5], next);
}

/* What a pull at a place gives, from the feed cut at its LFs. */
static struct whelk_row expected(const uint8_t *feed, size_t length, size_t place)
{
    if (place >= length) return row_of(0, 0, 0, 0, place);
    const uint8_t *lf = memchr(feed + place, '\n', length - place);
    if (lf == NULL) return reading(feed + place, length - place, length);
    return reading(feed + place, (size_t)(lf - feed) - place, (size_t)(lf - feed) + 1);
}

static int as_expected(const uint8_t *feed, size_t length, size_t place)
{
    pulled++;
    return same(whelk_pull(feed, length, place), expected(feed, length, place));
}

/* Every place of a feed, its end, the place after that, and the greatest one. */
static int every_place(const uint8_t *feed, size_t length)
{
    int ok = 1;
    for (size_t place = 0; place <= length + 1; place++) ok &= as_expected(feed, length, place);
    return ok & as_expected(feed, length, SIZE_MAX - 1) & as_expected(feed, length, SIZE_MAX);
}

enum { top_rows = 4096, top_bytes = 131072 };

/* Pulls from place 0 until there is no row, beside the import of the feed into so much room: as many rows as it counts, 1, 2, 3 and 6 where
   its report has them, and a key and a hop where it has 0, 4 or 5. The list has the prefix of each taken row,
   with the hop of its last row with 0 or 4. */
static int in_turn(const uint8_t *feed, size_t length, size_t room)
{
    static uint64_t keys[top_rows];
    static uint16_t hops[top_rows];
    static uint8_t report[top_rows];
    static uint16_t last[top_rows];
    struct whelk_counts c = whelk_import(feed, length, keys, room, hops, room, report, top_rows);
    size_t rows = 0, faults[7] = {0}, place = 0;
    memset(last, 0, sizeof last);
    int ok = c.number == WHELK_DONE;
    for (;;) {
        struct whelk_row r = whelk_pull(feed, length, place);
        in_turn_pulled++;
        if (!r.found) {
            ok &= same(r, row_of(0, 0, 0, 0, length));
            break;
        }
        if (rows == c.rows || r.next <= place || r.number > 6) return 0;
        uint8_t number = report[rows++];
        ok &= r.number == (number == 4 || number == 5 ? 0 : number);
        ok &= (r.number == 0) == (r.hop != 0);
        faults[r.number]++;
        if (number == 0 || number == 4) {
            size_t i = 0;
            while (i < c.taken && keys[i] != r.key) i++;
            if (i == c.taken) return 0;
            ok &= (last[i] == 0) == (number == 0);
            last[i] = r.hop;
        }
        place = r.next;
    }
    ok &= memcmp(last, hops, c.taken * sizeof last[0]) == 0;
    return ok & (rows == c.rows) & (faults[0] == c.taken + c.replaced + c.noroom) & (faults[1] == c.shape) & (faults[2] == c.range) &
           (faults[3] == c.hostbits) & (faults[6] == c.zeros) & (faults[4] + faults[5] == 0);
}

static int counts_are(const struct whelk_tally *t, const struct whelk_counts *c)
{
    return t->rows == c->rows && t->taken == c->taken && t->shape == c->shape && t->range == c->range && t->hostbits == c->hostbits &&
           t->replaced == c->replaced && t->noroom == c->noroom && t->zeros == c->zeros;
}

/* The import with a lent tally beside the one that returns its counts, into so much room and a report of just so many bytes, and then into
   a report that is one byte too short. The memory around the tally and all slots past the list stay as they were. */
static int tallied(const uint8_t *feed, size_t length, size_t room)
{
    static uint64_t keys[2][top_rows];
    static uint16_t hops[2][top_rows];
    static uint8_t report[2][top_rows];
    struct {
        size_t before;
        struct whelk_tally tally;
        size_t after;
    } lent;
    memset(keys, 0x5a, sizeof keys);
    memset(hops, 0x5a, sizeof hops);
    memset(report, 0x5a, sizeof report);
    memset(&lent, 0xa5, sizeof lent);
    struct whelk_counts c = whelk_import(feed, length, keys[0], room, hops[0], room, report[0], top_rows);
    int ok = 1;
    if (c.rows > 0) {
        struct whelk_tally was = lent.tally;
        ok &= whelk_import_tally(feed, length, keys[1], room, hops[1], room, report[1], c.rows - 1, &lent.tally) == WHELK_REPORT_SHORT;
        ok &= memcmp(&was, &lent.tally, sizeof was) == 0;
        ok &= keys[1][0] == 0x5a5a5a5a5a5a5a5a && hops[1][0] == 0x5a5a && report[1][0] == 0x5a;
    }
    ok &= whelk_import_tally(feed, length, keys[1], room, hops[1], room, report[1], c.rows, &lent.tally) == WHELK_DONE;
    tallies++;
    ok &= counts_are(&lent.tally, &c) && lent.before == 0xa5a5a5a5a5a5a5a5 && lent.after == 0xa5a5a5a5a5a5a5a5;
    return ok & (memcmp(keys[0], keys[1], sizeof keys[0]) == 0) & (memcmp(hops[0], hops[1], sizeof hops[0]) == 0) &
           (memcmp(report[0], report[1], sizeof report[0]) == 0);
}

static void feed_of(const char *what, const uint8_t *feed, size_t length)
{
    char name[120];
    snprintf(name, sizeof name, "%s: every place", what);
    check(name, every_place(feed, length));
    snprintf(name, sizeof name, "%s: one after the other", what);
    check(name, in_turn(feed, length, top_rows));
    snprintf(name, sizeof name, "%s: beside an import into one slot", what);
    check(name, in_turn(feed, length, 1));
    snprintf(name, sizeof name, "%s: beside an import into no slot", what);
    check(name, in_turn(feed, length, 0));
    snprintf(name, sizeof name, "%s: a lent tally", what);
    check(name, tallied(feed, length, top_rows) & tallied(feed, length, 1) & tallied(feed, length, 0));
}

static int gives(const char *feed, size_t place, size_t found, size_t number, uint64_t key, size_t hop, size_t next)
{
    pulled++;
    return same(whelk_pull((const uint8_t *)feed, strlen(feed), place), row_of(found, number, key, hop, next));
}

/* Worked out by hand. */
static void by_hand(void)
{
    const char *two = "10.0.0.0/8 7\n10.0.0.1/8 7";
    const uint64_t ten = (uint64_t)0x0a000000 * 64 + 8;
    check("a good row", gives(two, 0, 1, 0, ten, 7, 13));
    check("from its second digit on it is 0.0.0.0/8", gives(two, 1, 1, 0, 8, 7, 13));
    check("from its first point on it has no form", gives(two, 2, 1, 1, 0, 0, 13));
    check("at its LF there is an empty row", gives(two, 12, 1, 1, 0, 0, 13));
    check("host bits, up to the feed's end", gives(two, 13, 1, 3, 0, 0, 25));
    check("its last byte", gives(two, 24, 1, 1, 0, 0, 25));
    check("the feed's end", gives(two, 25, 0, 0, 0, 0, 25));
    check("one past it", gives(two, 26, 0, 0, 0, 0, 26));
    check("the greatest place", gives(two, SIZE_MAX, 0, 0, 0, 0, SIZE_MAX));
    check("an empty feed", gives("", 0, 0, 0, 0, 0, 0) && gives("", 1, 0, 0, 0, 0, 1));
    check("one LF is one empty row", gives("\n", 0, 1, 1, 0, 0, 1) && gives("\n", 1, 0, 0, 0, 0, 1));
    check("the greatest values", gives("255.255.255.255/32 65535\n", 0, 1, 0, (uint64_t)0xffffffff * 64 + 32, 65535, 25));
    check("the smallest values", gives("0.0.0.0/0 1", 0, 1, 0, 0, 1, 11));
    check("zeros in front", gives("010.000.000.000/08 00007\n", 0, 1, 6, 0, 0, 25) && gives("10.0.0.00/8 7", 0, 1, 6, 0, 0, 13) &&
                                gives("10.0.0.0/08 7", 0, 1, 6, 0, 0, 13) && gives("10.0.0.0/8 07", 0, 1, 6, 0, 0, 13));
    check("zeros after shape", gives("010.0.0.0/8 7x", 0, 1, 1, 0, 0, 14));
    check("zeros before range and host bits", gives("010.0.0.256/8 7", 0, 1, 6, 0, 0, 15) && gives("10.0.0.1/08 7", 0, 1, 6, 0, 0, 13));
    check("hop 00, and a zero behind a digit", gives("10.0.0.0/8 00", 0, 1, 6, 0, 0, 13) && gives("10.0.0.0/8 70", 0, 1, 0, ten, 70, 13));
    check("in mid-row a zero comes to the front", gives("100.0.0.0/8 7", 1, 1, 6, 0, 0, 13));
    check("a CR before the LF", gives("10.0.0.0/8 7\r\n", 0, 1, 1, 0, 0, 14));
    check("shape before range", gives("999.2.3.4/5 6x", 0, 1, 1, 0, 0, 14));
    check("four digits", gives("1000.0.0.0/8 7", 0, 1, 1, 0, 0, 14));
    check("octets above 255", gives("256.0.0.0/8 7", 0, 1, 2, 0, 0, 13) && gives("0.0.0.999/8 7", 0, 1, 2, 0, 0, 13));
    check("a length of three digits", gives("10.0.0.0/032 7", 0, 1, 1, 0, 0, 14));
    check("lengths above 32", gives("10.0.0.0/33 7", 0, 1, 2, 0, 0, 13) && gives("10.0.0.0/99 7", 0, 1, 2, 0, 0, 13));
    check("a hop of six digits", gives("10.0.0.0/8 100000", 0, 1, 1, 0, 0, 17));
    check("a hop above 65,535, and hop 0", gives("10.0.0.0/8 65536", 0, 1, 2, 0, 0, 16) && gives("10.0.0.0/8 0", 0, 1, 2, 0, 0, 12));
    check("range before host bits", gives("10.0.0.1/8 70000", 0, 1, 2, 0, 0, 16));
}

/* The rows of 13.5, whose numbers are 0 3 4 1 2. */
static void tally_by_hand(void)
{
    const char *five = "10.0.0.0/8 7\n10.0.0.1/8 7\n10.0.0.0/8 9\n\n10.1.0.0/16 70000\n";
    uint64_t keys[4];
    uint16_t hops[4];
    uint8_t report[5];
    struct whelk_tally t = {9, 9, 9, 9, 9, 9, 9, 9};
    check("a tally: a short report is 12",
          whelk_import_tally((const uint8_t *)five, strlen(five), keys, 4, hops, 4, report, 4, &t) == WHELK_REPORT_SHORT);
    check("a tally: on 12 it stays as it was", t.rows == 9 && t.taken == 9 && t.noroom == 9 && t.zeros == 9);
    check("a tally: done", whelk_import_tally((const uint8_t *)five, strlen(five), keys, 4, hops, 4, report, 5, &t) == WHELK_DONE);
    check("a tally: five rows",
          t.rows == 5 && t.taken == 1 && t.shape == 1 && t.range == 1 && t.hostbits == 1 && t.replaced == 1 && t.noroom == 0 &&
              t.zeros == 0);
    check("a tally: the list", keys[0] == (uint64_t)0x0a000000 * 64 + 8 && hops[0] == 9 && memcmp(report, "\0\3\4\1\2", 5) == 0);
}

/* Two rows with one byte replaced, by every byte and at every place. */
static void one_byte_off(void)
{
    static const char rows[] = "10.64.0.0/10 9\n200.27.240.0/20 65535";
    uint8_t feed[sizeof rows - 1];
    int places = 1, turns = 1, counted = 1;
    for (size_t i = 0; i < sizeof feed; i++)
        for (int byte = 0; byte < 256; byte++) {
            memcpy(feed, rows, sizeof feed);
            feed[i] = (uint8_t)byte;
            places &= every_place(feed, sizeof feed);
            turns &= in_turn(feed, sizeof feed, top_rows);
            counted &= tallied(feed, sizeof feed, 1);
        }
    check("one byte replaced: every place", places);
    check("one byte replaced: one after the other", turns);
    check("one byte replaced: a lent tally", counted);
}

static uint32_t seed = 2463534242u;

static uint32_t draw(uint32_t below)
{
    seed ^= seed << 13;
    seed ^= seed >> 17;
    seed ^= seed << 5;
    return seed % below;
}

/* Drawn rows, of which some are good, some come again, and some have a value, a zero in front or a byte that spoils
   them. */
static size_t drawn(uint8_t *feed, int rows, int last_lf)
{
    size_t n = 0;
    for (int i = 0; i < rows; i++) {
        uint32_t length = draw(34), network = draw(4) == 0 ? draw(8) << 29 : draw(0xffffffff);
        if (length <= 32 && draw(4) != 0) network = length == 0 ? 0 : network >> (32 - length) << (32 - length);
        char row[64];
        int m = sprintf(row, draw(3) == 0 ? "%03u.%u.%03u.%u/%02u %u" : "%u.%u.%u.%u/%u %u", network >> 24, network >> 16 & 255,
                        network >> 8 & 255, network & 255, length, draw(12) == 0 ? draw(120000) : 1 + draw(65535));
        if (draw(6) == 0) row[draw((uint32_t)m)] = "0123456789./ \rx\n"[draw(16)];
        if (draw(20) == 0) m = (int)draw((uint32_t)m);
        memcpy(feed + n, row, (size_t)m);
        n += (size_t)m;
        if (i + 1 < rows || last_lf) feed[n++] = '\n';
    }
    return n;
}

int main(void)
{
    static uint8_t feed[top_bytes];
    by_hand();
    tally_by_hand();
    const char *faults = "10.0.0.0/8 7\n10.0.0.1/8 7\n10.0.0.0/8 9\n\n10.1.0.0/16 70000\n"
                         "10.2.0.0/16 5\r\n010.003.0.0/16 00009\n0.0.0.0/0 1";
    feed_of("every fault", (const uint8_t *)faults, strlen(faults));
    feed_of("an empty feed", feed, 0);
    feed_of("only LFs", (const uint8_t *)"\n\n\n\n\n", 5);
    static const char bytes[] = "\0\n\377\n1\0.0.0.0/8 7\n10.0.0.0/8 7\0\n0.0.0.0/0 1\377";
    feed_of("bytes 0 and 255", (const uint8_t *)bytes, sizeof bytes - 1);
    memset(feed, '7', 3000);
    feed_of("3,000 digits", feed, 3000);
    for (int i = 0; i < 3000; i++) feed[i] = (uint8_t)"10.0.0.0/8 7 "[i % 13];
    feed_of("one row of many", feed, 3000);
    for (int i = 0; i < 6; i++) {
        char name[40];
        int rows = 500 * (i + 1);
        size_t length = drawn(feed, rows, i % 2);
        snprintf(name, sizeof name, "%d drawn rows", rows);
        feed_of(name, feed, length);
    }
    one_byte_off();
    printf("%llu pulls at chosen places, %llu one after the other, %llu tallies\n", (unsigned long long)pulled,
           (unsigned long long)in_turn_pulled, (unsigned long long)tallies);
    return finish();
}
