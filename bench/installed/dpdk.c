/* Our build, run lookup and packed lookup beside what a user would install instead: DPDK's rte_lpm and rte_fib (DIR24_8), started without
   huge pages. A next hop of rte_fib's has 4 bytes here: in 2 it couldn't be over 32,767. Addresses are the same in every round: random,
   local as in run_lookup.c, or listed, each in some row, since in a short list few others match. All segments are packed before times are
   taken; packed.c has the time of that.
   It stops at 100,000 rows: rte_lpm_add goes through all rows of the same length, and a build from a million rows took it 75 seconds. */
#include <rte_eal.h>
#include <rte_fib.h>
#include <rte_lpm.h>
#include <rte_malloc.h>
#include <rte_version.h>

#include "../nested.h"
#include "../packing.h"
#include "whelkhollow.h"

#define MOST 100000u
#define LOOKUPS 100000u

static uint64_t keys[MOST];
static uint16_t hops[MOST], run_hops[2 * MOST + 1];
static uint32_t starts[2 * MOST + 1], addresses[LOOKUPS], answers[LOOKUPS], first_answers[LOOKUPS];
static uint8_t bytes[6 * (2 * MOST + 1)];
static size_t n, runs;
static struct rte_lpm *lpm;
static struct rte_fib *fib;

#define OVER_ADDRESSES(answer)           \
    {                                    \
        size_t i;                        \
        for (i = 0; i < LOOKUPS; i++) {  \
            uint32_t a = addresses[i];   \
            answers[i] = (answer);       \
        }                                \
    }

static inline uint32_t of_packed(uint32_t a)
{
    struct segment s = segments[a >> 16];
    return IN_SEGMENT(whelk_packed_lookup, s, a);
}

static inline uint32_t of_lpm(uint32_t a)
{
    uint32_t hop;
    return rte_lpm_lookup(lpm, a, &hop) == 0 ? hop : 0;
}

static inline void fib_by(unsigned burst)
{
    uint64_t found[32];
    size_t i, j;
    for (i = 0; i < LOOKUPS; i += burst) {
        rte_fib_lookup_bulk(fib, addresses + i, found, burst);
        for (j = 0; j < burst; j++) answers[i + j] = (uint32_t)found[j];
    }
}

static uint32_t last;
static uint8_t last_bytes[4];
static void slices(void) OVER_ADDRESSES((uint32_t)whelk_run_lookup_slices(runs, starts, runs, run_hops, runs, a, &last))
static void in_bytes(void) OVER_ADDRESSES(whelk_run_lookup(bytes, 6 * runs, a, last_bytes, 4))
static void in_packed(void) OVER_ADDRESSES(of_packed(a))
static void in_lpm(void) OVER_ADDRESSES(of_lpm(a))
static void in_fib(void) { fib_by(1); }
static void in_fib_by_32(void) { fib_by(32); }

enum { SLICES, IN_BYTES, IN_PACKED, IN_LPM, IN_FIB, IN_FIB_BY_32, SIDES };
static const char *const names[SIDES] = {"slices", "run bytes", "packed", "rte_lpm", "rte_fib", "rte_fib by 32"};
static void (*const lookups[SIDES])(void) = {slices, in_bytes, in_packed, in_lpm, in_fib, in_fib_by_32};

/* A row with a column for each side; a side that has no part in it has 0. */
static void columns(const char *what, const char *inputs, const double *numbers, const char *unit)
{
    int s;
    printf("%-22s %9lu  %-9s", what, (unsigned long)n, inputs);
    for (s = 0; s < SIDES; s++) numbers[s] > 0 ? printf(" %10.1f %s", numbers[s], unit) : printf(" %13s", "-");
    printf("\n");
}

static void medians(const char *what, const char *inputs, double times[SIDES][ROUNDS], size_t pieces)
{
    double each[SIDES];
    int s;
    for (s = 0; s < SIDES; s++) each[s] = 1e9 * median(times[s]) / (double)pieces;
    columns(what, inputs, each, "ns");
}

/* Stops: 1 where a side is wrong, 2 where DPDK can't do its part here. */
static void stop(int status, const char *what, const char *inputs, const char *why)
{
    printf("%s, %zu, %s: %s\n", what, n, inputs, why);
    exit(status);
}

/* What DPDK's heap has given out, in kB. */
static double heap(void)
{
    struct rte_malloc_socket_stats stats = {0};
    rte_malloc_get_socket_stats(0, &stats);
    return 1e-3 * (double)stats.heap_allocsz_bytes;
}

/* Round by round, a table from the list on every side; those of the last round stay. DPDK's are made anew first, untimed. That wipes memory,
   so a build of ours goes through the list before times are taken. */
static void build(void)
{
    struct rte_lpm_config lpm_of = {.max_rules = (uint32_t)n, .number_tbl8s = 256};
    struct rte_fib_conf fib_of = {.type = RTE_FIB_DIR24_8, .max_routes = (int)n, .dir24_8 = {.nh_sz = RTE_FIB_DIR24_8_4B, .num_tbl8 = 256}};
    double times[SIDES][ROUNDS] = {{0}}, memory[SIDES] = {0}, t;
    size_t i;
    int r, refused = 0;
    for (r = 0; r < ROUNDS; r++) {
        rte_lpm_free(lpm);
        rte_fib_free(fib);
        memory[IN_LPM] = -heap();
        lpm = rte_lpm_create("lpm", SOCKET_ID_ANY, &lpm_of);
        memory[IN_LPM] += heap();
        memory[IN_FIB] = -heap();
        fib = rte_fib_create("fib", SOCKET_ID_ANY, &fib_of);
        memory[IN_FIB] += heap();
        if (!lpm || !fib) stop(2, "build", "nested", "DPDK has no room for its tables here");
        runs = whelk_build(n, keys, n, hops, n, starts, 2 * n + 1, run_hops, 2 * n + 1);
        t = seconds();
        runs = whelk_build(n, keys, n, hops, n, starts, 2 * n + 1, run_hops, 2 * n + 1);
        times[SLICES][r] = seconds() - t;
        t = seconds();
        for (i = 0; i < n; i++) refused |= rte_lpm_add(lpm, (uint32_t)(keys[i] >> 6), keys[i] % 64, hops[i]);
        times[IN_LPM][r] = seconds() - t;
        t = seconds();
        for (i = 0; i < n; i++) refused |= rte_fib_add(fib, (uint32_t)(keys[i] >> 6), keys[i] % 64, hops[i]);
        times[IN_FIB][r] = seconds() - t;
    }
    if (refused || runs > 2 * n + 1) stop(1, "build", "nested", "a side refused the list");
    for (i = 0; i < runs; i++) {
        uint8_t run[6] = {starts[i] >> 24, starts[i] >> 16, starts[i] >> 8, starts[i], run_hops[i] >> 8, run_hops[i]};
        memcpy(bytes + 6 * i, run, 6);
    }
    part_list(keys, hops, n);
    lay_out();
    pack_all(our_pack);
    memory[SLICES] = memory[IN_BYTES] = 1e-3 * (double)(6 * runs);
    memory[IN_PACKED] = 1e-3 * (double)(arena_length * sizeof arena[0] + sizeof segments);
    medians("build, for each row", "nested", times, n);
    columns("memory", "nested", memory, "kB");
}

/* The sides are held to the same answers at every address, and then timed round by round. */
static void lookup(const char *inputs)
{
    double times[SIDES][ROUNDS], t;
    int s, r;
    for (s = 0; s < SIDES; s++) {
        memset(answers, 255, sizeof answers);
        lookups[s]();
        if (s == 0) memcpy(first_answers, answers, sizeof answers);
        if (memcmp(first_answers, answers, sizeof answers) != 0) stop(1, names[s], inputs, "the answers differ from those of slices");
    }
    for (r = 0; r < ROUNDS; r++)
        for (s = 0; s < SIDES; s++) {
            t = seconds();
            lookups[s]();
            times[s][r] = seconds() - t;
        }
    medians("lookup", inputs, times, LOOKUPS);
}

int main(void)
{
    char *words[] = {"dpdk", "--no-huge", "--no-pci", "--no-shconf", "--no-telemetry", "--log-level=error", "-m", "1024", NULL};
    size_t most, i;
    int s;
    if (rte_eal_init(8, words) < 0) {
        printf("DPDK is installed but doesn't start here: nothing is compared with it.\n");
        return 2;
    }
    printf("%s without huge pages. Its empty tables are made before the time of a build. Memory is 6 bytes a run for ours, without the\n"
           "list; for packed, all segments and 12 bytes more for each; and for DPDK what its heap gives out for a table, its own copy of\n"
           "the list included.\n", rte_version());
    printf("work                        size  inputs   ");
    for (s = 0; s < SIDES; s++) printf(" %13s", names[s]);
    printf("\n");
    for (most = 1000; most <= MOST; most *= 10) {
        n = nested_once(keys, most);
        for (i = 0; i < n; i++) hops[i] = (uint16_t)(1 + any() % 200);
        build();
        for (i = 0; i < LOOKUPS; i++) addresses[i] = any();
        lookup("random");
        for (i = 1; i < LOOKUPS; i++) addresses[i] = addresses[i - 1] + any() % 65536 - 32768;
        lookup("local");
        for (i = 0; i < LOOKUPS; i++) {
            uint64_t key = keys[any() % n];
            addresses[i] = (uint32_t)(key >> 6) + (any() >> key % 64);
        }
        lookup("listed");
    }
    return 0;
}
