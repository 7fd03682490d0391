/* Writing a list, whose prefixes nest as in real tables, as text: beside C of the same contract, beside C that takes the list as it is, and
   beside what libc has for it. The buffer has as many bytes as any text of so many rows, so that ours need not measure; and once more just as
   many as the text, so that it must. C of the same contract measures each time. */
#include "in_c.h"
#include "measure.h"
#include "nested.h"
#include "whelkhollow.h"

#define MOST 1000000u

static uint64_t keys[MOST];
static uint16_t hops[MOST];
static uint8_t text[MOST * WHELK_ROW_BYTES];
static size_t n, room;

#define WRITTEN_BY(write)                                           \
    {                                                               \
        uint64_t wrote = write(n, keys, n, hops, n, text, room);    \
        return wrote + 3 * written(text, sizeof text);              \
    }

static uint64_t ours(void) WRITTEN_BY(whelk_write)
static uint64_t in_c(void) WRITTEN_BY(c_write)
static uint64_t in_c_unchecked(void) WRITTEN_BY(c_write_unchecked)
static uint64_t in_c_by_libc(void) WRITTEN_BY(c_write_by_libc)

int main(void)
{
    size_t most, i;
    for (most = 1000; most <= MOST; most *= 1000) {
        n = nested_once(keys, most);
        for (i = 0; i < n; i++) hops[i] = (uint16_t)(1 + any() % 65535);
        room = n * WHELK_ROW_BYTES;
        row("write, for each row", n, "nested", ours, in_c, n);
        row("write, C unchecked", n, "nested", ours, in_c_unchecked, n);
        row("write, C by libc", n, "nested", ours, in_c_by_libc, n);
        room = whelk_write_bytes(whelk_write(n, keys, n, hops, n, text, room));
        row("write, just enough", n, "nested", ours, in_c, n);
    }
    return 0;
}
