/* The split, and building the run tables of both halves, of a list whose prefixes nest as in real tables and which is split in the middle: beside
   C of the same contract. Room is just enough for the second half, and 2n + 1 for a run table of n rows.

   Then how many addresses a second are looked up, by the library's run lookup alone and not beside C, in three ways that take turns:
   - by one core in the whole list's table;
   - by two cores, each of which goes through all addresses in the table of its half, and then XORs the labels of one half of the addresses. Time
     is taken from when the first begins to when the last is done, the wait for each other and the XOR included;
   - by two cores in the whole table, each of which has one half of the addresses. There is no split in this: it is what else two cores can do
     that reach one memory. A core's own cache then has to do for the whole table.
   The second says what a split gains where each core can reach its own half alone, or where a half fits a core's cache and the whole doesn't. The
   line above says how large the tables and that cache are. Caches behind it, which cores share, may be large enough for all of these tables.
   Each thread is bound to a core. What is found is held to the answers in the whole table, each time. */
#define _GNU_SOURCE
#include <pthread.h>
#include <sched.h>
#include <unistd.h>

#include "in_c.h"
#include "measure.h"
#include "nested.h"
#include "whelkhollow.h"

#define MOST 1000000u
#define LOOKUPS 200000u

static uint64_t keys[MOST], half_keys[MOST];
static uint16_t hops[MOST], labels[MOST];
static size_t n, k, half_count;

static struct table {
    uint32_t starts[2 * MOST + 1];
    uint16_t labels[2 * MOST + 1];
    size_t runs;
} whole, halves[2];

static void make_list(size_t most)
{
    size_t i;
    keys[0] = 0;
    n = 1 + nested_once(keys + 1, most - 1);
    for (i = 0; i < n; i++) hops[i] = (uint16_t)(1 + any() % 200);
    k = n / 2;
    half_count = n - k + 1;
}

static uint64_t split_by(splitting *split)
{
    uint64_t made = split(k, n, keys, n, hops, n, half_keys, half_count, labels, half_count);
    return made + 3 * written(half_keys, sizeof half_keys) + 5 * written(labels, sizeof labels);
}

static uint64_t ours(void) { return split_by(whelk_split); }
static uint64_t in_c(void) { return split_by(c_split); }

static uint64_t build_by(building *build)
{
    uint64_t one = build(k, keys, n, hops, n, halves[0].starts, 2 * k + 1, halves[0].labels, 2 * k + 1);
    uint64_t other = build(half_count, half_keys, half_count, labels, half_count, halves[1].starts, 2 * half_count + 1, halves[1].labels,
                           2 * half_count + 1);
    halves[0].runs = whelk_build_runs(one);
    halves[1].runs = whelk_build_runs(other);
    return one + 3 * other + 5 * written(halves, sizeof halves);
}

static uint64_t built(void) { return build_by(whelk_build_half); }
static uint64_t built_in_c(void) { return build_by(c_build_half); }

/* Addresses, their hops in the whole table, and what one of the three ways found. */
static uint32_t addresses[LOOKUPS];
static uint16_t right[LOOKUPS], found[LOOKUPS];

static struct core {
    int number;
    const struct table *table;
    size_t from, to; /* the addresses that it goes through */
    uint16_t *labels;
    double began, ended;
    int roams; /* where it can't be bound to its core */
} cores[2];

static uint16_t half_labels[2][LOOKUPS];
static pthread_barrier_t all_begin, both_found;
static int xored;

static void *forward(void *argument)
{
    struct core *c = argument;
    const struct table *t = c->table;
    cpu_set_t here;
    uint32_t last;
    size_t i;
    CPU_ZERO(&here);
    CPU_SET(c->number, &here);
    if (sched_setaffinity(0, sizeof here, &here) != 0) c->roams = 1;
    pthread_barrier_wait(&all_begin);
    c->began = seconds();
    for (i = c->from; i < c->to; i++)
        c->labels[i] = (uint16_t)whelk_lookup_hop(whelk_run_lookup_slices(t->runs, t->starts, t->runs, t->labels, t->runs, addresses[i], &last));
    if (xored) {
        size_t first = c == cores ? 0 : LOOKUPS / 2;
        pthread_barrier_wait(&both_found);
        for (i = first; i < first + LOOKUPS / 2; i++) found[i] = half_labels[0][i] ^ half_labels[1][i];
    }
    c->ended = seconds();
    return NULL;
}

/* Runs one of the three ways: how long it took. */
static double run(int threads, int split)
{
    pthread_t thread[2];
    double began, ended;
    int i;
    xored = split;
    memset(found, 0, sizeof found);
    pthread_barrier_init(&all_begin, NULL, (unsigned)threads);
    pthread_barrier_init(&both_found, NULL, 2);
    for (i = 0; i < threads; i++) {
        cores[i].table = split ? &halves[i] : &whole;
        cores[i].from = split ? 0 : LOOKUPS / (unsigned)threads * (unsigned)i;
        cores[i].to = split ? LOOKUPS : LOOKUPS / (unsigned)threads * (unsigned)(i + 1);
        cores[i].labels = split ? half_labels[i] : found;
        if (pthread_create(&thread[i], NULL, forward, &cores[i]) != 0) exit(1);
    }
    for (i = 0; i < threads; i++) pthread_join(thread[i], NULL);
    pthread_barrier_destroy(&all_begin);
    pthread_barrier_destroy(&both_found);
    began = cores[0].began;
    ended = cores[0].ended;
    if (threads == 2 && cores[1].began < began) began = cores[1].began;
    if (threads == 2 && cores[1].ended > ended) ended = cores[1].ended;
    if (memcmp(found, right, sizeof right) != 0) {
        printf("%d cores, %lu rows: the answers differ\n", threads, (unsigned long)n);
        exit(1);
    }
    return ended - began;
}

static void three_ways(const char *inputs)
{
    double one[ROUNDS], split[ROUNDS], shared[ROUNDS], a, b, c;
    uint32_t last;
    size_t i;
    for (i = 0; i < LOOKUPS; i++)
        right[i] = (uint16_t)whelk_lookup_hop(
            whelk_run_lookup_slices(whole.runs, whole.starts, whole.runs, whole.labels, whole.runs, addresses[i], &last));
    run(1, 0);
    run(2, 1);
    for (i = 0; i < ROUNDS; i++) {
        one[i] = run(1, 0);
        split[i] = run(2, 1);
        shared[i] = run(2, 0);
    }
    a = 1e-6 * LOOKUPS / median(one);
    b = 1e-6 * LOOKUPS / median(split);
    c = 1e-6 * LOOKUPS / median(shared);
    printf("%-22s %9lu  %-9s%6.2f million by one core, %.2f by two with a half each (x %.2f), %.2f by two with the whole (x %.2f)\n",
           "lookups a second", (unsigned long)n, inputs, a, b, b / a, c, c / a);
}

static void lookups(size_t most)
{
    long cache = sysconf(_SC_LEVEL2_CACHE_SIZE);
    size_t i;
    make_list(most);
    ours();
    built();
    whole.runs = whelk_build_runs(whelk_build(n, keys, n, hops, n, whole.starts, 2 * n + 1, whole.labels, 2 * n + 1));
    printf("%-22s %9lu  %zu KB, of the halves %zu KB and %zu KB", "run table", (unsigned long)n, 6 * whole.runs / 1024,
           6 * halves[0].runs / 1024, 6 * halves[1].runs / 1024);
    if (cache > 0) printf("; a core's second cache %ld KB", cache / 1024);
    printf("\n");
    for (i = 0; i < LOOKUPS; i++) addresses[i] = any();
    three_ways("random");
    for (i = 1; i < LOOKUPS; i++) addresses[i] = addresses[i - 1] + any() % 65536 - 32768;
    three_ways("local");
}

/* The first and the last core that there is for us: numbers side by side may be two of one core. */
static int two_cores(void)
{
    cpu_set_t ours_to_use;
    int i, count = 0;
    if (sched_getaffinity(0, sizeof ours_to_use, &ours_to_use) != 0) return 0;
    for (i = 0; i < CPU_SETSIZE; i++)
        if (CPU_ISSET(i, &ours_to_use)) cores[count++ == 0 ? 0 : 1].number = i;
    return count > 1;
}

int main(void)
{
    size_t most;
    for (most = 1000; most <= MOST; most *= 10) {
        make_list(most);
        row("split, for each row", n, "nested", ours, in_c, n);
        ours(); /* the second half again, which the comparison wiped */
        row("build, both halves", n, "nested", built, built_in_c, n);
    }
    if (!two_cores()) {
        printf("There is one core here: lookups on two are not measured.\n");
        return 0;
    }
    lookups(100000);
    lookups(300000);
    lookups(MOST);
    if (cores[0].roams || cores[1].roams) printf("The threads could not be bound to cores.\n");
    return 0;
}
