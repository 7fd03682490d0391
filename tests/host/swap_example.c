/* How a host edits routes while threads look up. There are two tables, each a list with its run table, and they say the same. Lookups read the
   current one. An edit is made in the other, which nobody reads, and then the two are swapped. Once no thread can still be reading the old
   table, the edit is made there too. Nothing is locked, and a lookup never waits.
   Here two threads look up in batches, while one route changes its hop 200 times. Each batch must have its answers from one table. */
#include <pthread.h>
#include <sched.h>
#include <stdatomic.h>
#include <stdio.h>

#include "whelkhollow.h"

#define EDITS 200
#define READERS 2
#define BATCH 32

struct table {
    size_t count, runs;
    uint64_t keys[4];
    uint16_t hops[4];
    uint32_t starts[9];
    uint16_t run_hops[9];
};

static struct table tables[2];
static struct table *_Atomic current = &tables[0];

static struct reader {
    atomic_ulong batches; /* how many it has ended: what it loaded before is no longer read */
    unsigned long mixed;
} readers[READERS];

static atomic_int over;

static uint16_t hop_of(const struct table *t, uint32_t address)
{
    uint32_t last;
    uint64_t found = whelk_run_lookup_slices(t->runs, t->starts, 9, t->run_hops, 9, address, &last);
    return whelk_lookup_number(found) == WHELK_DONE ? whelk_lookup_hop(found) : 0;
}

static void *forward(void *argument)
{
    struct reader *self = argument;
    while (!atomic_load(&over)) {
        const struct table *t = atomic_load(&current); /* once a batch */
        uint16_t first = hop_of(t, 0x0a400001);
        for (uint32_t i = 0; i < BATCH; i++)
            self->mixed += hop_of(t, 0x0a400001 + i) != first || hop_of(t, 0x0a000001 + i) != 7 || first < 100;
        atomic_fetch_add(&self->batches, 1);
    }
    return NULL;
}

/* Waits until every thread has ended the batch in which it may still read the old table. The atomics are sequentially consistent, and have to
   be: the swap must be seen before the batches are read. A thread with nothing to do goes on ending empty batches, since this waits for it. */
static void wait_for_readers(void)
{
    for (int i = 0; i < READERS; i++) {
        unsigned long seen = atomic_load(&readers[i].batches);
        while (atomic_load(&readers[i].batches) == seen) sched_yield();
    }
}

/* Announces 10.64.0.0/10 in a table; 1 if that was refused. */
static int announce(struct table *t, uint16_t hop)
{
    struct whelk_edit e = whelk_announce(0x0a400000, 10, hop, t->count, t->keys, 4, t->hops, 4, t->runs, t->starts, 9, t->run_hops, 9);
    if (e.number != WHELK_DONE) return 1;
    t->count = e.count;
    t->runs = e.runs;
    return 0;
}

int main(void)
{
    pthread_t threads[READERS];
    int refused = 0;
    for (int i = 0; i < 2; i++) {
        struct table *t = &tables[i];
        t->count = 1;
        t->keys[0] = whelk_key(0x0a000000, 8);
        t->hops[0] = 7;
        uint64_t built = whelk_build(1, t->keys, 4, t->hops, 4, t->starts, 9, t->run_hops, 9);
        refused += whelk_build_number(built) != WHELK_DONE;
        t->runs = whelk_build_runs(built);
        refused += announce(t, 100);
    }
    for (int i = 0; i < READERS; i++)
        if (pthread_create(&threads[i], NULL, forward, &readers[i]) != 0) return 1;
    for (uint16_t i = 1; i <= EDITS; i++) {
        struct table *old = atomic_load(&current), *spare = old == &tables[0] ? &tables[1] : &tables[0];
        refused += announce(spare, (uint16_t)(100 + i));
        atomic_store(&current, spare); /* from here on lookups load this one */
        wait_for_readers();            /* and now nobody reads the other */
        refused += announce(old, (uint16_t)(100 + i));
    }
    atomic_store(&over, 1);
    unsigned long mixed = 0;
    for (int i = 0; i < READERS; i++) {
        pthread_join(threads[i], NULL);
        mixed += readers[i].mixed;
    }
    printf("%d edits, %d refused, %lu answers of a table that was being written, the last hop %u\n", EDITS, refused, mixed,
           hop_of(atomic_load(&current), 0x0a400001));
    return refused == 0 && mixed == 0 ? 0 : 1;
}
