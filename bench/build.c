/* Building the run table of a list whose prefixes nest as in real tables. Room is 2n + 1. */
#include "in_c.h"
#include "measure.h"
#include "nested.h"
#include "whelkhollow.h"

#define MOST 1000000u

static uint64_t keys[MOST];
static uint16_t hops[MOST], run_hops[2 * MOST + 1];
static uint32_t starts[2 * MOST + 1];
static size_t n;

static uint64_t sum_of(uint64_t built)
{
    return built + 3 * written(starts, sizeof starts) + 5 * written(run_hops, sizeof run_hops);
}

static uint64_t ours(void)
{
    return sum_of(whelk_build(n, keys, n, hops, n, starts, 2 * n + 1, run_hops, 2 * n + 1));
}

static uint64_t in_c(void)
{
    return sum_of(c_build(n, keys, n, hops, n, starts, 2 * n + 1, run_hops, 2 * n + 1));
}

int main(void)
{
    size_t most, i;
    for (most = 1000; most <= MOST; most *= 10) {
        n = nested_once(keys, most);
        for (i = 0; i < n; i++) hops[i] = (uint16_t)(1 + any() % 200);
        row("build, for each row", n, "nested", ours, in_c, n);
    }
    return 0;
}
