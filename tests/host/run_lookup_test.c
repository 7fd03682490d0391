/* Run lookup, its hop, its probes and its last address, against two lookups of its own: halving as a loop over low and high, for every table,
   and a walk over the runs for tables that are well-formed. Inputs come from a fixed seed. What is counted is the groups below. */
#include "testing.h"
#include "whelkhollow.h"

#define MOST 1000000u
#define LAST 0xffffffffu
#define REFUSED (65536u * WHELK_ILL_FORMED)
#define NO_ROOM (65536u * WHELK_NO_ROOM)

static uint32_t starts[MOST];
static uint16_t hops[MOST];
/* run bytes, with room to let them begin at any byte of a word */
static uint8_t room[6 * MOST + 8];

static unsigned long lookups, before, wrong;

static uint64_t state = 20260715;

static uint32_t any(void)
{
    state ^= state << 13;
    state ^= state >> 7;
    state ^= state << 17;
    return (uint32_t)(state >> 32);
}

static uint32_t below(uint32_t n)
{
    return any() % n;
}

/* halving, by rules 7.3 and 7.4: the hop at low, the last address before high, and the number of probes */
static uint16_t halved(size_t n, uint32_t address, unsigned *probes, uint32_t *last)
{
    size_t low = 0, high = n;
    *probes = 0;
    while (high - low > 1) {
        size_t place = (low + high) / 2;
        *probes += 1;
        if (starts[place] <= address)
            low = place;
        else
            high = place;
    }
    *last = high == n ? LAST : starts[high] - 1;
    return hops[low];
}

/* run i begins at start i and ends before start i + 1 */
static uint16_t walked(size_t n, uint32_t address, uint32_t *last)
{
    size_t i = 0;
    while (i + 1 < n && starts[i + 1] <= address)
        i++;
    *last = i + 1 < n ? starts[i + 1] - 1 : LAST;
    return hops[i];
}

static void same(const char *what, uint64_t got, uint64_t want, size_t n, uint32_t address)
{
    if (got == want)
        return;
    if (wrong++ < 5)
        printf("  %lu runs, address %lu, %s: %llu, not %llu\n", (unsigned long)n, (unsigned long)address, what, (unsigned long long)got,
               (unsigned long long)want);
}

/* run bytes, by rule 7.7 */
static uint8_t *bytes_of(size_t n)
{
    uint8_t *bytes = room + n % 8;
    size_t i;
    for (i = 0; i < n; i++) {
        bytes[6 * i] = (uint8_t)(starts[i] >> 24);
        bytes[6 * i + 1] = (uint8_t)(starts[i] >> 16);
        bytes[6 * i + 2] = (uint8_t)(starts[i] >> 8);
        bytes[6 * i + 3] = (uint8_t)starts[i];
        bytes[6 * i + 4] = (uint8_t)(hops[i] >> 8);
        bytes[6 * i + 5] = (uint8_t)hops[i];
    }
    return bytes;
}

/* A lookup in run bytes, with so many of six bytes lent for the last address: what it returns, and the last address that it leaves. A refusal
   leaves all six. */
static void in_bytes(const uint8_t *bytes, size_t length, uint32_t address, size_t lent, uint64_t want, uint32_t last)
{
    uint8_t out[6] = {1, 2, 3, 4, 5, 6};
    size_t n = length / 6;
    lookups++;
    same("from bytes", whelk_run_lookup(bytes, length, address, out, lent), want, n, address);
    same("the last address", (uint32_t)out[0] << 24 | (uint32_t)out[1] << 16 | (uint32_t)out[2] << 8 | out[3],
         want < 65536 ? last : 0x01020304, n, address);
    same("the bytes behind it", (uint32_t)out[4] << 8 | out[5], 0x0506, n, address);
}

/* The same in slices, with a number lent for the last address. */
static void in_slices(size_t n, size_t starts_length, size_t hops_length, uint32_t address, uint64_t want, uint32_t last)
{
    uint32_t out = 77;
    lookups++;
    same("from slices", whelk_run_lookup_slices(n, starts, starts_length, hops, hops_length, address, &out), want, n, address);
    same("the last address from slices", out, want == REFUSED ? 77 : last, n, address);
}

/* one address, in slices and in run bytes */
static void at(const uint8_t *bytes, size_t n, uint32_t address)
{
    unsigned probes, p = 0;
    uint32_t last;
    uint16_t hop = halved(n, address, &probes, &last);
    in_bytes(bytes, 6 * n, address, 6, hop, last);
    in_slices(n, MOST, MOST, address, (uint64_t)probes << 32 | hop, last);
    while (((size_t)1 << p) < n)
        p++;
    same("more probes than 7.5 allows", probes > p, 0, n, address);
}

/* the table's edges, and then random addresses */
static void over(size_t n, size_t randoms)
{
    const uint8_t *bytes = bytes_of(n);
    size_t i;
    at(bytes, n, 0);
    at(bytes, n, LAST);
    for (i = 0; i < n; i++) {
        at(bytes, n, starts[i]);
        at(bytes, n, starts[i] - 1);
        at(bytes, n, starts[i] + 1);
    }
    for (i = 0; i < randoms; i++)
        at(bytes, n, any());
}

/* a well-formed table: the first start is 0, starts ascend strictly, neighbouring hops differ */
static void well_formed(size_t n)
{
    uint32_t gap = LAST / (uint32_t)n;
    size_t i;
    for (i = 0; i < n; i++) {
        starts[i] = i == 0 ? 0 : starts[i - 1] + 1 + below(gap);
        hops[i] = (uint16_t)any();
        if (i > 0 && hops[i] == hops[i - 1])
            hops[i] ^= 1;
    }
}

static void group(const char *name)
{
    printf("%s: %lu lookups\n", name, lookups - before);
    check(name, wrong == 0);
    before = lookups;
    wrong = 0;
}

/* the run table of list A */
static void figure(void)
{
    const uint8_t *bytes;
    int i;
    for (i = 0; i < 10; i++) {
        starts[i] = starts_of_a[i];
        hops[i] = hops_of_a[i];
    }
    bytes = bytes_of(10);
    in_bytes(bytes, 60, 0xc81b70aa, 4, 2, 0xc81b7fff);
    in_bytes(bytes, 60, 0xc81c0000, 4, 0, LAST);
    in_bytes(bytes, 60, 0xc817ffff, 4, 0, 0xc817ffff);
    in_bytes(bytes, 60, 0xc819ffff, 4, 1, 0xc819ffff);
    over(10, 1000);
}

static void lengths(void)
{
    size_t length;
    const uint8_t *bytes;
    well_formed(1000);
    bytes = bytes_of(1000);
    for (length = 0; length <= 6000; length++) {
        uint32_t address = any(), last = 0;
        unsigned probes;
        size_t lent = length % 7;
        int ill = length == 0 || length % 6 != 0;
        uint64_t hop = ill ? REFUSED : halved(length / 6, address, &probes, &last);
        in_bytes(bytes, length, address, 6, hop, last);
        in_bytes(bytes, length, address, lent, ill || lent >= 4 ? hop : NO_ROOM, last);
    }
}

static void counts(void)
{
    size_t n;
    well_formed(100);
    in_slices(0, 100, 100, 5, REFUSED, 0);
    in_slices(0, 0, 0, 5, REFUSED, 0);
    in_slices((size_t)-1, 100, 100, 5, REFUSED, 0);
    for (n = 1; n <= 100; n++) {
        unsigned probes;
        uint32_t address = any(), last;
        uint64_t want = halved(n, address, &probes, &last);
        want |= (uint64_t)probes << 32;
        in_slices(n, n, n, address, want, last);
        in_slices(n, n, 100, address, want, last);
        in_slices(n, 100, n, address, want, last);
        in_slices(n, n - 1, n, address, REFUSED, 0);
        in_slices(n, n, n - 1, address, REFUSED, 0);
    }
}

static void short_tables(void)
{
    size_t n;
    int k;
    for (n = 1; n <= 300; n++)
        for (k = 0; k < 3; k++) {
            well_formed(n);
            over(n, 50);
        }
}

static void long_tables(void)
{
    static const size_t sizes[] = {1023, 1024, 1025, 65535, 65536, 65537, MOST - 1, MOST};
    size_t k;
    for (k = 0; k < sizeof sizes / sizeof sizes[0]; k++) {
        well_formed(sizes[k]);
        over(sizes[k], 20000);
    }
}

/* the hop and the last address by the walk, which counts no probes */
static void by_walking(void)
{
    size_t n;
    int k;
    for (n = 1; n <= 3000; n += 1 + n / 10) {
        const uint8_t *bytes;
        well_formed(n);
        bytes = bytes_of(n);
        for (k = 0; k < 1000; k++) {
            uint32_t address = k % 2 == 0 ? any() : starts[below((uint32_t)n)] - (uint32_t)(k / 2 % 2), last, by_halving;
            uint16_t hop = walked(n, address, &last);
            unsigned probes;
            halved(n, address, &probes, &by_halving);
            in_bytes(bytes, 6 * n, address, 4, hop, last);
            in_slices(n, n, n, address, (uint64_t)probes << 32 | hop, last);
        }
    }
}

/* starts in no order */
static void unordered(void)
{
    size_t n, i;
    for (n = 1; n <= 5000; n += 1 + n / 20) {
        for (i = 0; i < n; i++) {
            starts[i] = n % 2 == 0 ? any() : below(16);
            hops[i] = (uint16_t)any();
        }
        over(n, 500);
    }
}

/* a well-formed table with damage: equal neighbours, a start out of order, a first start above 0 */
static void damaged(void)
{
    size_t n;
    for (n = 2; n <= 5000; n += 1 + n / 20) {
        uint32_t i;
        well_formed(n);
        i = 1 + below((uint32_t)n - 1);
        starts[i] = starts[i - 1];
        hops[i] = hops[i - 1];
        over(n, 100);
        well_formed(n);
        i = below((uint32_t)n);
        starts[i] = any();
        over(n, 100);
        well_formed(n);
        starts[0] = 1 + below(LAST);
        over(n, 100);
    }
}

int main(void)
{
    figure();
    group("list A");
    lengths();
    group("every length up to 6,000 bytes");
    counts();
    group("counts beyond one slice or the other");
    short_tables();
    group("every count up to 300, at every edge");
    long_tables();
    group("tables of up to 1,000,000 runs");
    by_walking();
    group("well-formed tables, by a walk over the runs");
    unordered();
    group("starts in no order");
    damaged();
    group("equal neighbours, one start out of order, a first start above 0");
    if (lookups < 1000000)
        check("a million lookups at least", 0);
    return finish();
}
