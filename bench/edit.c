/* One edit of a list whose prefixes nest as in real tables, and of its run table: announcing a prefix that isn't listed, and withdrawing it
   again. An edit checks all of the list and of the run table first, so it is measured three ways, each beside C of the same contract:
   - whole, as a user calls it;
   - the check alone: a withdrawal of a prefix that isn't listed, which is refused with 16 after the check and one search;
   - without the check, which is what an edit costs where the pair is known to agree. The library doesn't export that. It is called through
     bench/local.txt, a crate of the bench's own, and costs as much as the rows and runs that move and those inside the prefix.
   A batch announces some prefixes and then withdraws them, so that it leaves what it found. Prefixes are like those of the list; or the
   batch is 0.0.0.0/0, inside which all rows are, so that all runs are measured and written again. There is room for all of a batch. */
#include "in_c.h"
#include "measure.h"
#include "nested.h"
#include "whelkhollow.h"

#define MOST 1000000u
#define BATCH 200u

static uint64_t keys[MOST + BATCH];
static uint16_t hops[MOST + BATCH], run_hops[2 * (MOST + BATCH) + 1];
static uint32_t starts[2 * (MOST + BATCH) + 1];
static size_t n, runs;

/* Where C hands the place for a returned struct over otherwise than x86-64 does, the library's code has it as the first argument still. */
#ifdef __x86_64__
announcing local_edit;
#define our_announce whelk_announce
#define our_withdraw whelk_withdraw
#define our_edit local_edit
#else
#define PAIR_TYPES size_t, uint64_t *, size_t, uint16_t *, size_t, size_t, uint32_t *, size_t, uint16_t *, size_t
#define PAIR_NAMED                                                                                                                      \
    size_t count, uint64_t *k, size_t k_length, uint16_t *h, size_t h_length, size_t m, uint32_t *s, size_t s_length, uint16_t *r,      \
        size_t r_length
#define PAIR_GIVEN count, k, k_length, h, h_length, m, s, s_length, r, r_length
struct whelk_edit *announce_at(struct whelk_edit *, uint32_t, uint32_t, uint16_t, PAIR_TYPES) __asm__("whelk_announce");
struct whelk_edit *withdraw_at(struct whelk_edit *, uint32_t, uint32_t, PAIR_TYPES) __asm__("whelk_withdraw");
struct whelk_edit *edit_at(struct whelk_edit *, uint32_t, uint32_t, uint16_t, PAIR_TYPES) __asm__("local_edit");
static struct whelk_edit our_announce(uint32_t network, uint32_t length, uint16_t hop, PAIR_NAMED)
{
    struct whelk_edit e;
    announce_at(&e, network, length, hop, PAIR_GIVEN);
    return e;
}
static struct whelk_edit our_withdraw(uint32_t network, uint32_t length, PAIR_NAMED)
{
    struct whelk_edit e;
    withdraw_at(&e, network, length, PAIR_GIVEN);
    return e;
}
static struct whelk_edit our_edit(uint32_t network, uint32_t length, uint16_t hop, PAIR_NAMED)
{
    struct whelk_edit e;
    edit_at(&e, network, length, hop, PAIR_GIVEN);
    return e;
}
#endif

/* The prefixes of a batch, none of them listed. */
static struct {
    uint32_t network, length;
    uint16_t hop;
} batch[BATCH];
static size_t batched;

static int listed(uint64_t key)
{
    return bsearch(&key, keys, n, sizeof keys[0], ascending) != NULL;
}

static void pick_batch(size_t edits)
{
    static const unsigned lengths[10] = {24, 24, 24, 24, 24, 24, 22, 20, 18, 16};
    size_t i;
    for (batched = 0; batched < edits;) {
        unsigned length = lengths[any() % 10];
        uint32_t near = any() % 2 ? (uint32_t)(keys[any() % n] >> 6) + any() % 65536 : any();
        uint32_t network = near >> (32 - length) << (32 - length);
        for (i = 0; i < batched && (batch[i].network != network || batch[i].length != length); i++) {}
        if (i < batched || listed((uint64_t)network << 6 | length)) continue;
        batch[batched].network = network;
        batch[batched].length = length;
        batch[batched++].hop = (uint16_t)(1 + any() % 200);
    }
}

/* 0.0.0.0/0 as the whole batch. */
static void pick_default(void)
{
    batched = 1;
    batch[0].network = batch[0].length = 0;
    batch[0].hop = 7;
}

/* A sum of what came out and, while the sides are held to the same answers, of all slots. */
static uint64_t sum;

static void add(struct whelk_edit e)
{
    sum = sum * 31 + e.number + 3 * e.changed + 5 * e.count + 7 * e.runs;
}

static void add_pair(void)
{
    size_t i;
    if (!agreeing) return;
    for (i = 0; i < n + BATCH; i++) sum = (sum * 31 + keys[i]) * 31 + hops[i];
    for (i = 0; i < 2 * (n + BATCH) + 1; i++) sum = (sum * 31 + starts[i]) * 31 + run_hops[i];
}

#define PAIR n + BATCH, hops, n + BATCH, runs, starts, 2 * (n + BATCH) + 1, run_hops, 2 * (n + BATCH) + 1

static void announce_all(announcing *announce)
{
    size_t i;
    for (i = 0; i < batched; i++) {
        struct whelk_edit e = announce(batch[i].network, batch[i].length, batch[i].hop, n + i, keys, PAIR);
        runs = e.runs;
        add(e);
    }
    add_pair();
}

static void withdraw_all(withdrawing *withdraw)
{
    size_t i;
    for (i = batched; i-- > 0;) {
        struct whelk_edit e = withdraw(batch[i].network, batch[i].length, n + i + 1, keys, PAIR);
        runs = e.runs;
        add(e);
    }
    add_pair();
}

/* Withdrawals of what isn't listed: the check, and one search. */
static void refuse_all(withdrawing *withdraw)
{
    size_t i;
    for (i = 0; i < batched; i++) add(withdraw(batch[i].network, batch[i].length, n, keys, PAIR));
}

/* Withdrawals without the check. */
#define BY_HOP_0(edit)                                                                                                                  \
    (uint32_t network, uint32_t length, size_t count, uint64_t *k, size_t k_length, uint16_t *h, size_t h_length, size_t m, uint32_t *s, \
     size_t s_length, uint16_t *r, size_t r_length)                                                                                     \
    {                                                                                                                                   \
        return edit(network, length, 0, count, k, k_length, h, h_length, m, s, s_length, r, r_length);                                  \
    }
static struct whelk_edit our_removal BY_HOP_0(our_edit)
static struct whelk_edit c_removal BY_HOP_0(c_edit_agreed)

static const struct side {
    announcing *announce;
    withdrawing *withdraw;
} ours = {our_announce, our_withdraw}, in_c = {c_announce, c_withdraw}, our_local = {our_edit, our_removal},
  local_in_c = {c_edit_agreed, c_removal};

/* A batch on one side, with the times that its announcements and its withdrawals take. */
static uint64_t edits(const struct side *by, double *announced, double *withdrawn)
{
    double t0 = seconds(), t1;
    sum = 0;
    announce_all(by->announce);
    t1 = seconds();
    withdraw_all(by->withdraw);
    *announced = t1 - t0;
    *withdrawn = seconds() - t1;
    return sum;
}

/* Round by round, ours and then C's, as in `row`; a row for announcements and one for withdrawals. */
static void rows(const char *announce, const char *withdraw, const char *inputs, const struct side *a, const struct side *b)
{
    double announced[2][ROUNDS], withdrawn[2][ROUNDS], edit = (double)batched;
    int i;
    agreeing = 1;
    edits(a, announced[0], withdrawn[0]);
    if (edits(a, announced[0], withdrawn[0]) != edits(b, announced[1], withdrawn[1])) {
        printf("%s, %lu, %s: the answers differ\n", announce, (unsigned long)n, inputs);
        exit(1);
    }
    agreeing = 0;
    for (i = 0; i < ROUNDS; i++) {
        edits(a, &announced[0][i], &withdrawn[0][i]);
        edits(b, &announced[1][i], &withdrawn[1][i]);
    }
    print_row(announce, n, inputs, median(announced[0]) / edit, median(announced[1]) / edit);
    print_row(withdraw, n, inputs, median(withdrawn[0]) / edit, median(withdrawn[1]) / edit);
}

static uint64_t checked(void)
{
    sum = 0;
    refuse_all(our_withdraw);
    return sum;
}

static uint64_t checked_in_c(void)
{
    sum = 0;
    refuse_all(c_withdraw);
    return sum;
}

static const char announce_whole[] = "announce", withdraw_whole[] = "withdraw", check_alone[] = "their check alone",
                  announce_local[] = "announce, no check", withdraw_local[] = "withdraw, no check", nested_ones[] = "nested", all[] = "/0";

int main(void)
{
    size_t most, i;
    for (most = 1000; most <= MOST; most *= 10) {
        n = nested_once(keys, most);
        for (i = 0; i < n; i++) hops[i] = (uint16_t)(1 + any() % 200);
        runs = whelk_build_runs(whelk_build(n, keys, n, hops, n, starts, 2 * n + 1, run_hops, 2 * n + 1));
        pick_batch(most < MOST ? 10 : 3);
        rows(announce_whole, withdraw_whole, nested_ones, &ours, &in_c);
        row(check_alone, n, nested_ones, checked, checked_in_c, batched);
        pick_batch(most < MOST ? 200 : 20);
        rows(announce_local, withdraw_local, nested_ones, &our_local, &local_in_c);
        pick_default();
        rows(announce_local, withdraw_local, all, &our_local, &local_in_c);
    }
    return 0;
}
