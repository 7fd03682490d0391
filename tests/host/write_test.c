/* The list writer against section 12 of docs/RULES.md: corners worked out by hand, then lists of many kinds beside a writer of the test's own,
   by sprintf, and read back by an import. Inputs come from a fixed seed. */
#include <stdlib.h>
#include <string.h>

#include "testing.h"
#include "whelkhollow.h"

#define MOST (WHELK_TOP_ROWS + 1)
#define UNWRITTEN 0x55

static uint64_t keys[MOST], keys_back[MOST];
static uint16_t hops[MOST], hops_back[MOST];
static size_t count;

/* what the writer is lent, what it should leave there, and an import's report */
static uint8_t buffer[MOST * WHELK_ROW_BYTES], good[MOST * WHELK_ROW_BYTES + 1], report[MOST];

static uint64_t state = 20261116;

static uint32_t any(void)
{
    state ^= state << 13;
    state ^= state >> 7;
    state ^= state << 17;
    return (uint32_t)(state >> 32);
}

static uint64_t key(uint64_t address, unsigned length)
{
    return (length == 0 ? 0 : address >> (32 - length) << (32 - length)) << 6 | length;
}

static uint64_t refusal(unsigned number)
{
    return (uint64_t)number << 32;
}

/* Whether `length` bytes are as `wipe` left them. */
static int untouched(const uint8_t *bytes, size_t length)
{
    size_t i;
    for (i = 0; i < length; i++)
        if (bytes[i] != UNWRITTEN) return 0;
    return 1;
}

static void wipe(void)
{
    memset(buffer, UNWRITTEN, sizeof buffer);
}

static uint64_t write_into(size_t length)
{
    return whelk_write(count, keys, count, hops, count, buffer, length);
}

/* The text of the list another way; its length. */
static size_t by_sprintf(void)
{
    size_t i, n = 0;
    for (i = 0; i < count; i++) {
        unsigned address = (unsigned)(keys[i] / 64);
        n += (size_t)sprintf((char *)good + n, "%u.%u.%u.%u/%u %u\n", address / 16777216, address / 65536 % 256, address / 256 % 256, address % 256,
                             (unsigned)(keys[i] % 64), hops[i]);
    }
    return n;
}

/* Whether the list is written into exactly enough bytes, one byte more is left alone, one byte less is refused and all of them are left alone,
   and an import of the text leaves the list. */
static int written_and_read(void)
{
    size_t n = by_sprintf();
    struct whelk_counts c;
    memset(buffer, UNWRITTEN, n + 1);
    if (n > 0 && (write_into(n - 1) != refusal(WHELK_NO_ROOM) || !untouched(buffer, n + 1))) return 0;
    if (write_into(n) != n || memcmp(buffer, good, n) != 0 || buffer[n] != UNWRITTEN) return 0;
    memset(keys_back, UNWRITTEN, (count + 1) * sizeof keys[0]);
    memset(hops_back, UNWRITTEN, (count + 1) * sizeof hops[0]);
    c = whelk_import(buffer, n, keys_back, count + 1, hops_back, count + 1, report, count);
    return c.number == WHELK_DONE && c.rows == count && c.taken == count && memcmp(keys, keys_back, count * sizeof keys[0]) == 0 &&
           memcmp(hops, hops_back, count * sizeof hops[0]) == 0;
}

/* Whether the list, alone in slices of its count, is written as this text. */
static int gives(const char *text)
{
    size_t n = strlen(text);
    uint64_t wrote;
    wipe();
    wrote = write_into(sizeof buffer);
    return whelk_write_number(wrote) == WHELK_DONE && whelk_write_bytes(wrote) == n && memcmp(buffer, text, n) == 0 &&
           untouched(buffer + n, sizeof buffer - n);
}

static void corners(void)
{
    static const unsigned lengths[7] = {14, 15, 16, 18, 20, 20, 20};
    static const uint32_t networks[7] = {0xc8180000, 0xc81a0000, 0xc81b0000, 0xc81b4000, 0xc81b7000, 0xc81b8000, 0xc81bf000};
    static const uint16_t hops_of_rows[7] = {1, 2, 3, 1, 2, 1, 2};
    const char *last = "255.255.255.255/32 65535\n";
    size_t i, n;
    count = 0;
    check("the empty list has no text", gives(""));
    check("and fits no bytes", write_into(0) == 0);
    count = 1;
    keys[0] = key(0, 0);
    hops[0] = 1;
    check("0.0.0.0/0 has the shortest row", gives("0.0.0.0/0 1\n"));
    keys[0] = key(0xffffffff, 32);
    hops[0] = 65535;
    check("255.255.255.255/32 has the longest", gives(last) && strlen(last) == WHELK_ROW_BYTES);
    wipe();
    check("it fits its length", write_into(WHELK_ROW_BYTES) == WHELK_ROW_BYTES && memcmp(buffer, last, WHELK_ROW_BYTES) == 0 &&
                                    untouched(buffer + WHELK_ROW_BYTES, 100));
    wipe();
    for (n = 0; n < WHELK_ROW_BYTES && write_into(n) == refusal(WHELK_NO_ROOM); n++) {}
    check("any shorter buffer is 13, and no byte is written", n == WHELK_ROW_BYTES && untouched(buffer, 100));
    count = 7;
    for (i = 0; i < 7; i++) {
        keys[i] = key(networks[i], lengths[i]);
        hops[i] = hops_of_rows[i];
    }
    check("list A", gives("200.24.0.0/14 1\n200.26.0.0/15 2\n200.27.0.0/16 3\n200.27.64.0/18 1\n200.27.112.0/20 2\n200.27.128.0/20 1\n"
                          "200.27.240.0/20 2\n"));
    wipe();
    check("slots past the count have no say",
          whelk_write(1, keys, 7, hops, 7, buffer, 100) == 16 && memcmp(buffer, "200.24.0.0/14 1\n", 16) == 0 && untouched(buffer + 16, 84));
}

/* Whether the list is refused with 11, and no byte written, be there bytes or none. */
static int ill_formed(size_t keys_length, size_t hops_length)
{
    memset(buffer, UNWRITTEN, 100);
    return whelk_write(count, keys, keys_length, hops, hops_length, buffer, sizeof buffer) == refusal(WHELK_ILL_FORMED) &&
           whelk_write(count, keys, keys_length, hops, hops_length, buffer, 0) == refusal(WHELK_ILL_FORMED) &&
           untouched(buffer, 100);
}

/* The same with one key of a list of three rows changed. */
static int spoiled(size_t place, uint64_t spoiling)
{
    uint64_t was = keys[place];
    int refused;
    keys[place] = spoiling;
    refused = ill_formed(3, 3);
    keys[place] = was;
    return refused && write_into(100) == 44;
}

static void refusals(void)
{
    size_t i;
    count = 3;
    keys[0] = key(0x0a000000, 8);
    keys[1] = key(0x0a400000, 10);
    keys[2] = key(0x0b000000, 8);
    hops[0] = hops[1] = hops[2] = 11;
    check("three rows", gives("10.0.0.0/8 11\n10.64.0.0/10 11\n11.0.0.0/8 11\n"));
    check("a count above the keys is 11 before 13", ill_formed(2, 3));
    check("a count above the hops is 11 before 13", ill_formed(3, 2));
    check("a key twice is 11 before 13", spoiled(1, keys[0]));
    check("a falling key is 11 before 13", spoiled(2, key(0x0a000000, 9)));
    check("a host bit is 11 before 13", spoiled(1, (uint64_t)0x0a400001 << 6 | 10));
    check("a length of 33 is 11 before 13", spoiled(0, 33));
    check("a network of 2^32 is 11 before 13", spoiled(2, (uint64_t)1 << 38));
    hops[2] = 0;
    check("hop 0 is 11 before 13", ill_formed(3, 3));
    for (i = 0; i < MOST; i++) {
        keys[i] = key(i, 32);
        hops[i] = 1;
    }
    count = MOST;
    check("a row above the top room is 11 before 13", ill_formed(MOST, MOST));
    count = (size_t)-1;
    check("so is the greatest count", ill_formed(MOST, MOST));
}

static int by_key(const void *a, const void *b)
{
    uint64_t x = *(const uint64_t *)a, y = *(const uint64_t *)b;
    return (x > y) - (x < y);
}

/* A list of up to `most` rows. Its prefixes are of all lengths, and lie anywhere, or close together where there is a `near`. */
static void random_list(size_t most, uint32_t near)
{
    size_t i;
    for (i = 0; i < most; i++) keys[i] = key(near ? near + any() % 4096 : any(), any() % 33);
    qsort(keys, most, sizeof keys[0], by_key);
    for (i = 0, count = 0; i < most; i++)
        if (count == 0 || keys[count - 1] != keys[i]) keys[count++] = keys[i];
    for (i = 0; i < count; i++) hops[i] = (uint16_t)(1 + any() % (any() % 2 ? 65535 : 12));
}

static void lists(void)
{
    int ok = 1, k;
    size_t i;
    for (k = 0; k < 200; k++) {
        random_list(1 + any() % (k % 10 == 0 ? 5000 : 100), k % 2 ? any() : 0);
        ok &= written_and_read();
    }
    check("200 random lists", ok);
    count = 65535;
    for (i = 0; i < count; i++) {
        keys[i] = key(65537 * (uint64_t)i, 32);
        hops[i] = (uint16_t)(i + 1);
    }
    check("each hop, and each octet at each place", written_and_read());
    for (count = 0; count < 33; count++) keys[count] = key(0, (unsigned)count);
    check("each length", written_and_read());
    count = WHELK_TOP_ROWS;
    for (i = 0; i < count; i++) {
        keys[i] = key(0xffffffff - (count - 1 - i), 32);
        hops[i] = (uint16_t)(65535 - i % 50000);
    }
    check("as many rows as there can be, at the last addresses", written_and_read());
}

int main(void)
{
    corners();
    refusals();
    lists();
    return finish();
}
