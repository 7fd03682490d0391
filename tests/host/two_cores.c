/* How a host uses the split. A list of routes is split in two, and each core builds the run table of one half and looks up in that alone. Both
   go through one queue of addresses, and each writes the labels that it finds. The two labels of an address XOR to its hop.
   Here the queue is full before the cores begin, and each hop is held to run lookup in the whole list's table. */
#include <pthread.h>
#include <stdio.h>

#include "whelkhollow.h"

#define ROWS 20001
#define FIRST 10057 /* rows of the first half; a /8 and a /16 of it hold rows of the second */
#define SECOND (ROWS - FIRST + 1)
#define ADDRESSES 1000000

static uint32_t queue[ADDRESSES];

static struct core {
    size_t count; /* the core's half */
    const uint64_t *keys;
    const uint16_t *labels;
    uint32_t starts[2 * FIRST + 1]; /* its run table; the second half has fewer rows than the first */
    uint16_t run_labels[2 * FIRST + 1];
    uint16_t found[ADDRESSES]; /* for each address of the queue, its label */
    int refused;
} cores[2];

static void *forward(void *argument)
{
    struct core *c = argument;
    uint64_t built =
        whelk_build_half(c->count, c->keys, c->count, c->labels, c->count, c->starts, 2 * FIRST + 1, c->run_labels, 2 * FIRST + 1);
    size_t i, runs = whelk_build_runs(built);
    c->refused = whelk_build_number(built) != WHELK_DONE;
    for (i = 0; i < ADDRESSES && !c->refused; i++) {
        uint32_t last;
        uint64_t found = whelk_run_lookup_slices(runs, c->starts, runs, c->run_labels, runs, queue[i], &last);
        c->refused = whelk_lookup_number(found) != WHELK_DONE;
        c->found[i] = whelk_lookup_hop(found);
    }
    return NULL;
}

/* The list: 0.0.0.0/0, and in each of 200 /8 nine /16 and ninety /24. */
static uint64_t keys[ROWS];
static uint16_t hops[ROWS];

static void make_list(void)
{
    uint32_t i;
    keys[0] = 0;
    hops[0] = 4;
    for (i = 0; i < ROWS - 1; i++) {
        uint32_t network = i / 100 << 24 | i / 10 % 10 << 16 | i % 10 << 8;
        keys[i + 1] = whelk_key(network, i % 100 == 0 ? 8 : i % 10 == 0 ? 16 : 24);
        hops[i + 1] = (uint16_t)(1 + i * 7 % 1013);
    }
}

/* Addresses from everywhere, and as many from around the /24. */
static void fill_queue(void)
{
    uint32_t i, address = 1;
    for (i = 0; i < ADDRESSES; i++) {
        address = address * 1664525 + 1013904223;
        queue[i] = i % 2 == 0 ? address : address & 0xff0f0fff;
    }
}

int main(void)
{
    static uint64_t half_keys[SECOND];
    static uint16_t labels[SECOND], run_hops[2 * ROWS + 1];
    static uint32_t starts[2 * ROWS + 1];
    pthread_t threads[2];
    size_t i, runs, agreed = 0;
    uint64_t split, built;
    make_list();
    fill_queue();

    split = whelk_split(FIRST, ROWS, keys, ROWS, hops, ROWS, half_keys, SECOND, labels, SECOND);
    if (whelk_split_number(split) != WHELK_DONE) return 1;
    cores[0].count = FIRST; /* the first half is the list's first rows, where they are */
    cores[0].keys = keys;
    cores[0].labels = hops;
    cores[1].count = whelk_split_count(split);
    cores[1].keys = half_keys;
    cores[1].labels = labels;
    for (i = 0; i < 2; i++)
        if (pthread_create(&threads[i], NULL, forward, &cores[i]) != 0) return 1;
    for (i = 0; i < 2; i++)
        if (pthread_join(threads[i], NULL) != 0 || cores[i].refused) return 1;

    built = whelk_build(ROWS, keys, ROWS, hops, ROWS, starts, 2 * ROWS + 1, run_hops, 2 * ROWS + 1);
    runs = whelk_build_runs(built);
    if (whelk_build_number(built) != WHELK_DONE) return 1;
    for (i = 0; i < ADDRESSES; i++) {
        uint32_t last;
        uint64_t found = whelk_run_lookup_slices(runs, starts, runs, run_hops, runs, queue[i], &last);
        if (whelk_lookup_number(found) == WHELK_DONE && (cores[0].found[i] ^ cores[1].found[i]) == (int)whelk_lookup_hop(found)) agreed++;
    }
    printf("%zu rows and %zu, %zu addresses of %d agree\n", cores[0].count, cores[1].count, agreed, ADDRESSES);
    return agreed == ADDRESSES ? 0 : 1;
}
