/* Run lookup, over slices and over run bytes, at random addresses and at local ones, each within 32,768 of the one before. Where lookups are
   independent, as those of packets are, the processor begins one before the other has ended; in a row marked "in turn" each address waits for
   the answer before it. Last addresses are part of the answers that are compared. */
#include "in_c.h"
#include "measure.h"
#include "whelkhollow.h"

#define MOST 1000000u
#define LOOKUPS 100000u

static uint32_t starts[MOST], addresses[LOOKUPS];
static uint16_t hops[MOST];
static uint8_t bytes[6 * MOST];
static size_t n;
static volatile uint32_t none; /* 0, but the compiler can't know */

#define OVER_ADDRESSES(answer, waits)                  \
    {                                                  \
        uint64_t sum = 0;                              \
        uint32_t mask = none, last = 0;                \
        size_t i;                                      \
        for (i = 0; i < LOOKUPS; i++) {                \
            uint32_t a = addresses[i] ^ (waits);       \
            sum = sum * 31 + (answer);                 \
            sum += last;                               \
        }                                              \
        return sum + mask;                             \
    }
#define IN_TURN ((uint32_t)sum & mask)

static inline uint32_t of_bytes(uint32_t (*lookup)(const uint8_t *, size_t, uint32_t, uint8_t *, size_t), uint32_t a, uint32_t *last)
{
    uint8_t out[4];
    uint32_t hop = lookup(bytes, 6 * n, a, out, 4);
    *last = whelk_address_of(out);
    return hop;
}

static uint64_t slices(void) OVER_ADDRESSES(whelk_run_lookup_slices(n, starts, n, hops, n, a, &last), 0)
static uint64_t slices_in_c(void) OVER_ADDRESSES(c_run_lookup_slices(n, starts, n, hops, n, a, &last), 0)
static uint64_t in_bytes(void) OVER_ADDRESSES(of_bytes(whelk_run_lookup, a, &last), 0)
static uint64_t in_bytes_in_c(void) OVER_ADDRESSES(of_bytes(c_run_lookup, a, &last), 0)
static uint64_t slices_in_turn(void) OVER_ADDRESSES(whelk_run_lookup_slices(n, starts, n, hops, n, a, &last), IN_TURN)
static uint64_t slices_in_turn_in_c(void) OVER_ADDRESSES(c_run_lookup_slices(n, starts, n, hops, n, a, &last), IN_TURN)
static uint64_t in_bytes_in_turn(void) OVER_ADDRESSES(of_bytes(whelk_run_lookup, a, &last), IN_TURN)
static uint64_t in_bytes_in_turn_in_c(void) OVER_ADDRESSES(of_bytes(c_run_lookup, a, &last), IN_TURN)

static void table(void)
{
    uint32_t gap = 0xffffffffu / (uint32_t)n;
    size_t i;
    for (i = 0; i < n; i++) {
        starts[i] = i == 0 ? 0 : gap * (uint32_t)i + any() % gap;
        hops[i] = (uint16_t)any();
        bytes[6 * i] = (uint8_t)(starts[i] >> 24);
        bytes[6 * i + 1] = (uint8_t)(starts[i] >> 16);
        bytes[6 * i + 2] = (uint8_t)(starts[i] >> 8);
        bytes[6 * i + 3] = (uint8_t)starts[i];
        bytes[6 * i + 4] = (uint8_t)(hops[i] >> 8);
        bytes[6 * i + 5] = (uint8_t)hops[i];
    }
}

static void rows(const char *inputs)
{
    row("run lookup, slices", n, inputs, slices, slices_in_c, LOOKUPS);
    row("run lookup, run bytes", n, inputs, in_bytes, in_bytes_in_c, LOOKUPS);
    row("slices, in turn", n, inputs, slices_in_turn, slices_in_turn_in_c, LOOKUPS);
    row("run bytes, in turn", n, inputs, in_bytes_in_turn, in_bytes_in_turn_in_c, LOOKUPS);
}

int main(void)
{
    for (n = 1000; n <= MOST; n *= 10) {
        size_t i;
        table();
        for (i = 0; i < LOOKUPS; i++)
            addresses[i] = any();
        rows("random");
        for (i = 1; i < LOOKUPS; i++)
            addresses[i] = addresses[i - 1] + any() % 65536 - 32768;
        rows("local");
    }
    return 0;
}
