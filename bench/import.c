/* Import of a feed in key order, later rows of a prefix beside its first one, and of feeds in other orders: with 255.255.255.255/32 put first,
   with one row in 100 moved elsewhere, and shuffled. In key order both sides find a row's place at the last key. Else both halve, and then move the rows behind
   the place by one: where these are many, the time for a row grows with the rows before it, and past 100,000 rows that stops being bearable. */
#include "in_c.h"
#include "measure.h"
#include "nested.h"
#include "whelkhollow.h"

#define MOST 1000000u
#define MOST_MOVED 100000u

static uint8_t feed[MOST * 32], report[MOST];
static uint64_t rows[MOST], keys[MOST];
static uint16_t hops[MOST];
static size_t n, length;

/* Where C hands the place for a returned struct over otherwise than x86-64 does, the library's code has it as the first argument still. */
#ifdef __x86_64__
#define IMPORT(c, ...) c = whelk_import(__VA_ARGS__)
#else
struct whelk_counts *import_at(struct whelk_counts *, const uint8_t *, size_t, uint64_t *, size_t, uint16_t *, size_t, uint8_t *, size_t)
    __asm__("whelk_import");
#define IMPORT(c, ...) import_at(&c, __VA_ARGS__)
#endif

static uint64_t sum_of(struct whelk_counts c)
{
    return written(keys, sizeof keys) + 3 * written(hops, sizeof hops) + 5 * written(report, sizeof report) + 7 * written(&c, sizeof c);
}

static uint64_t ours(void)
{
    struct whelk_counts c;
    IMPORT(c, feed, length, keys, n, hops, n, report, n);
    return sum_of(c);
}

static uint64_t in_c(void)
{
    return sum_of(c_import(feed, length, keys, n, hops, n, report, n));
}

static void measure(const char *inputs)
{
    size_t i;
    for (i = 0, length = 0; i < n; i++)
        length += (size_t)sprintf((char *)feed + length, "%u.%u.%u.%u/%u %u\n", (unsigned)(rows[i] >> 30), (unsigned)(rows[i] >> 22) % 256,
                                  (unsigned)(rows[i] >> 14) % 256, (unsigned)(rows[i] >> 6) % 256, (unsigned)rows[i] % 64, 1 + any() % 65535);
    row("import, for each row", n, inputs, ours, in_c, n);
}

/* A row goes elsewhere, and those between move by one. */
static void move_row(size_t from, size_t to)
{
    uint64_t moved = rows[from];
    if (from < to)
        memmove(rows + from, rows + from + 1, (to - from) * sizeof moved);
    else
        memmove(rows + to + 1, rows + to, (from - to) * sizeof moved);
    rows[to] = moved;
}

int main(void)
{
    for (n = 1000; n <= MOST; n *= 10) {
        size_t i;
        nested(rows, n);
        measure("sorted");
        if (n > MOST_MOVED) continue;
        rows[n - 1] = (uint64_t)0xffffffff * 64 + 32;
        move_row(n - 1, 0);
        measure("high 1st");
        nested(rows, n);
        for (i = 0; i < n / 100; i++) move_row(any() % n, any() % n);
        measure("1 in 100");
        for (i = n; i > 1; i--) {
            size_t other = any() % i;
            uint64_t last = rows[i - 1];
            rows[i - 1] = rows[other];
            rows[other] = last;
        }
        measure("shuffled");
    }
    return 0;
}
