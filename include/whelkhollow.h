/* Whelkhollow for C: IPv4 route lists, from a feed's text to the hop of an address. For C99 and C++98 on, on x86-64 Linux. README.md says how
   to link, and docs/RULES.md has all rules.

   Any values may be handed in: a call answers, or it refuses with a number and writes nothing. The caller sees to this:
   - Each pointer parameter but `tally`, and `last` of whelk_run_lookup_slices, is followed by the length of its memory, counted in elements. The
     memory is aligned for them.
   - A pointer isn't null, even where the length is 0. `malloc(0)` and an empty `std::vector` may give null: hand in the address of any object
     instead. Test for null before the call; behind it the compiler may leave the test out.
   - Memory that a call writes overlaps nothing else that the call is lent.

   No call allocates memory, keeps any state or asks the system for anything.

   Threads: calls may run side by side if none writes memory that another is lent. So any number of threads may read one feed, list, run table
   or segment while no call writes it. To change routes under running lookups, keep a list and its run table with their counts in one struct,
   and edit or build in a struct that no thread reads. Then store its address in an atomic pointer, which the lookups load for each packet or
   batch. Write the old struct only when no thread can still hold its address. tests/host/swap_example.c does so.

   An address is a number whose highest byte is the first octet: 10.64.0.1 is 0x0a400001, which is `ntohl` of an `s_addr`. */
#ifndef WHELKHOLLOW_H
#define WHELKHOLLOW_H

#include <stddef.h>
#include <stdint.h>

/* The version of this header, as text and as 10,000 x major + 100 x minor + patch. The major number goes up where a struct, a call or a
   number changes for those who use it. Nothing checks it against the archive: take both from one place. */
#define WHELK_VERSION "2.0.0"
#define WHELK_VERSION_NUMBER 20000

/* What a compiler that has these attributes is told: a call takes no null pointer and its answer is to be looked at; which memory a call
   reads, fills without reading it, or changes, by the places of the pointer and the length among the parameters. gcc may then warn of an empty
   list in memory that was never written, though none of it is read: lend length 0, or clear it. */
#define WHELK_CALL
#define WHELK_READS(pointer, length)
#define WHELK_FILLS(pointer, length)
#define WHELK_CHANGES(pointer, length)
#ifdef __has_attribute
#if __has_attribute(nonnull) && __has_attribute(warn_unused_result)
#undef WHELK_CALL
#define WHELK_CALL __attribute__((nonnull, warn_unused_result))
#endif
#if __has_attribute(access)
#undef WHELK_READS
#undef WHELK_FILLS
#undef WHELK_CHANGES
#define WHELK_READS(pointer, length) __attribute__((access(read_only, pointer, length)))
#define WHELK_FILLS(pointer, length) __attribute__((access(write_only, pointer, length)))
#define WHELK_CHANGES(pointer, length) __attribute__((access(read_write, pointer, length)))
#endif
#endif

#ifdef __cplusplus
#define WHELK_CAST(type, value) static_cast<type>(value)
extern "C" {
#else
#define WHELK_CAST(type, value) ((type)(value))
#endif

/* What became of a call. A call with another number than 0 is refused: it writes nothing, and whatever else it returns is 0. So look at the
   number first: a refused lookup has hop 0 too, as one that finds nothing has. Where more than one fault is there, the number is the first of
   15, 11, 14, 16, 17, 18, 19, 12, 13 that the call has.
   Some calls return their number and another one in one integer. Read it only by the functions that the call's comment names: those of
   another call can give 0, which looks like done. */
enum whelk_number {
    WHELK_DONE = 0,           /* the call is done */
    WHELK_ILL_FORMED = 11,    /* a list or a half is ill-formed; a count of runs is above a length or WHELK_TOP_RUNS; a run lookup
                                 has no runs, or bytes that 6 doesn't divide */
    WHELK_REPORT_SHORT = 12,  /* the feed has more rows than the report has bytes */
    WHELK_NO_ROOM = 13,       /* the result doesn't fit what was lent */
    WHELK_NOT_ITS_RUNS = 14,  /* the run table is another than the list's */
    WHELK_BAD_EDIT = 15,      /* an edit names no prefix, or announces hop 0 */
    WHELK_NOT_LISTED = 16,    /* a prefix that is to be withdrawn has no row */
    WHELK_BAD_SIZE = 17,      /* a split has size 0, or a size above the list's count */
    WHELK_NO_DEFAULT = 18,    /* a list without 0.0.0.0/0 can't be split */
    WHELK_OUTSIDE_PACKED = 19 /* a packed lookup has a width above 16, or no word, base or hop for the address */
};

/* A call's number in words, for a log. Any number may be handed in; the text is constant. */
static inline const char *whelk_number_text(size_t number)
{
    switch (number) {
    case WHELK_DONE: return "done";
    case WHELK_ILL_FORMED: return "the list, half or run table is ill-formed, or has no runs";
    case WHELK_REPORT_SHORT: return "the report is shorter than the feed has rows";
    case WHELK_NO_ROOM: return "the result doesn't fit what was lent";
    case WHELK_NOT_ITS_RUNS: return "the run table is another than the list's";
    case WHELK_BAD_EDIT: return "the edit names no prefix, or announces hop 0";
    case WHELK_NOT_LISTED: return "the prefix to be withdrawn has no row";
    case WHELK_BAD_SIZE: return "the size of the split is 0 or above the list's count";
    case WHELK_NO_DEFAULT: return "a list without 0.0.0.0/0 can't be split";
    case WHELK_OUTSIDE_PACKED: return "the packed segment has no word, base or hop for the address, or its width is above 16";
    default: return "a number that no call returns";
    }
}

/* What became of a row of a feed, as a report or a pull says it. */
enum whelk_row_number {
    WHELK_ROW_TAKEN = 0,    /* its prefix is in the list now, with its hop unless a later row replaced it; in a pull, a good row */
    WHELK_ROW_SHAPE = 1,    /* it isn't `a.b.c.d/len hop`, with 1 to 3 digits for an octet, 1 or 2 for the length and 1 to 5 for the hop; an empty
                               row, a CR, a tab and a second space are wrong too */
    WHELK_ROW_RANGE = 2,    /* its shape is right and no number has a zero in front, but an octet is above 255, the length above 32, the hop 0 or
                               above 65,535 */
    WHELK_ROW_HOSTBITS = 3, /* a bit of the address beyond the length is 1 */
    WHELK_ROW_REPLACED = 4, /* an earlier row with the same prefix was taken, and the prefix has this row's hop now: a correction, and no refusal */
    WHELK_ROW_NOROOM = 5,   /* the list is full, and the prefix isn't in it */
    WHELK_ROW_ZEROS = 6     /* its shape is right, but a number of more than one digit starts with 0, as 010: some read that as ten and some as
                               eight. This is judged after shape and before range */
};

/* A row's number in a word: what its count is called. Any number may be handed in; the text is constant. */
static inline const char *whelk_row_number_text(size_t number)
{
    switch (number) {
    case WHELK_ROW_TAKEN: return "taken";
    case WHELK_ROW_SHAPE: return "shape";
    case WHELK_ROW_RANGE: return "range";
    case WHELK_ROW_HOSTBITS: return "hostbits";
    case WHELK_ROW_REPLACED: return "replaced";
    case WHELK_ROW_NOROOM: return "noroom";
    case WHELK_ROW_ZEROS: return "zeros";
    default: return "a number that no row has";
    }
}

/* A list has a count, keys and hops, and a row of it is the key and the hop at one place below the count. The key of a prefix is
   network x 64 + length. Keys rise strictly, and hops are 1 to 65,535. A list is ill-formed if its count is above keys_length, hops_length or
   WHELK_TOP_ROWS, if keys don't rise, if a hop is 0, or if a key is no prefix: the prefix's length is above 32, its network is above
   255.255.255.255, or a bit of its network beyond the length is 1. What an import leaves is never ill-formed. */
#define WHELK_TOP_ROWS 1048576 /* the most rows of a list */

/* The key of network/length. It doesn't test that this is a prefix. */
static inline uint64_t whelk_key(uint32_t network, unsigned length)
{
    return WHELK_CAST(uint64_t, network) * 64 + length;
}

/* The network and the length of a key. For a number that is no key they mean nothing. */
static inline uint32_t whelk_key_network(uint64_t key)
{
    return WHELK_CAST(uint32_t, key / 64);
}

static inline unsigned whelk_key_length(uint64_t key)
{
    return WHELK_CAST(unsigned, key % 64);
}

/* A run table cuts the addresses into runs with one hop each. It has a count, starts and hops. A run goes from its start to the address before
   the next start, and the last one to 255.255.255.255. The first start is 0.0.0.0, and neighbours have different hops. Hop 0 says that nothing
   matches. A list of n rows has at most 2n + 1 runs, and an empty list has one, with hop 0: build it before the first announcement. */
#define WHELK_TOP_RUNS 2097153 /* the most runs of a run table */

/* What an import returns: its number, and eight counts. rows is the sum of the seven others. The rows that were refused are those that are
   neither taken nor replaced. */
struct whelk_counts {
    size_t number;
    size_t rows;
    size_t taken;
    size_t shape;
    size_t range;
    size_t hostbits;
    size_t replaced;
    size_t noroom;
    size_t zeros;
};

/* Imports a text feed as a new list. A row is `a.b.c.d/len hop`. It ends with an LF, and the last one may end with the feed. Each row is taken,
   replaces the hop of its prefix, or is refused, and gets its number. A prefix ends with the hop of its last row that isn't refused. Time: linear if
   the rows go by address as a number, and by length where that is the same. A row out of that order costs a search and, if its prefix is new, a
   move of the rows behind its place, so a long feed in random order takes quadratic time. (A sort of the text isn't that order: it puts 100.0.0.0
   before 20.0.0.0.)
   Lend keys, hops and report with one slot more than the feed has LFs; that is always enough. What they held doesn't matter. At most as many
   rows are taken as the shorter of keys and hops has slots, and at most WHELK_TOP_ROWS.
   Returns number 0 and the counts; or 12 if the report has fewer bytes than the feed has rows.
   Leaves the list in keys and hops, in key order, and the taken count is its count; and the number of each row in the report, an enum
   whelk_row_number. Slots past them stay as they were. */
struct whelk_counts whelk_import(const uint8_t *feed, size_t feed_length, uint64_t *keys, size_t keys_length, uint16_t *hops,
                                 size_t hops_length, uint8_t *report, size_t report_length)
    WHELK_CALL WHELK_READS(1, 2) WHELK_FILLS(3, 4) WHELK_FILLS(5, 6) WHELK_FILLS(7, 8);

/* The eight counts in memory that the caller lends, as in whelk_counts. */
struct whelk_tally {
    size_t rows;
    size_t taken;
    size_t shape;
    size_t range;
    size_t hostbits;
    size_t replaced;
    size_t noroom;
    size_t zeros;
};

/* Imports a text feed as whelk_import does, with the counts in a lent tally, which goes up as rows go by. They are this feed's alone: the tally
   is cleared before the first row.
   Lend feed, keys, hops and report as there, and one tally.
   Returns the number: 0, or 12 if the report has fewer bytes than the feed has rows.
   Leaves the list and the report as there, and the counts of this feed in the tally. On 12 the tally stays as it was. */
size_t whelk_import_tally(const uint8_t *feed, size_t feed_length, uint64_t *keys, size_t keys_length, uint16_t *hops, size_t hops_length,
                          uint8_t *report, size_t report_length, struct whelk_tally *tally)
    WHELK_CALL WHELK_READS(1, 2) WHELK_FILLS(3, 4) WHELK_FILLS(5, 6) WHELK_FILLS(7, 8);

/* What a pull returns. Look at found first: it is 1 if there is a row at the place, and 0 if not. number is the row's and not the call's,
   since a pull is never refused: 0 for a good row, 1 shape, 6 zeros, 2 range, 3 host bits. key and hop are those of a good row. next is the place of
   the next pull. What isn't said is 0. */
struct whelk_row {
    size_t found;
    size_t number;
    uint64_t key;
    uint16_t hop;
    size_t next;
};

/* Reads one row of a text feed, for hosts that take a row at a time: begin with place 0, then hand in next, and stop where found is 0. The row
   goes from place to the next LF, or to the feed's end, and is read as in an import; but there is no list, so no row has number 4 or 5.
   Lend the feed. place may be any: inside a row, what is left of it is read as a row.
   Returns the row, and as next the place behind its LF, or the feed's length where it has none. If place is the feed's length or more,
   found is 0, and next is place.
   Leaves all memory as it is. */
struct whelk_row whelk_pull(const uint8_t *feed, size_t feed_length, size_t place) WHELK_CALL WHELK_READS(1, 2);

/* A row is written with this many bytes at the most: `255.255.255.255/32 65535` and its LF. `0.0.0.0/0 1` has the fewest, 12. */
#define WHELK_ROW_BYTES 25

/* Writes a list as text: each row as `a.b.c.d/len hop` with an LF behind it, in the list's order, numbers without zeros in front. An import of
   the text that is lent a slot for each row leaves the same list.
   Lend the list, and a buffer of WHELK_ROW_BYTES x count bytes; that is always enough.
   Returns a number and how many bytes the text has, for the two functions below. The number is 0, 11 if the list is ill-formed, or 13 if the
   text is longer than the buffer. (It is 4,294,967,296 x number + bytes.)
   Leaves the text at the buffer's front, with no zero byte behind it. Bytes past it stay as they were. */
uint64_t whelk_write(size_t count, const uint64_t *keys, size_t keys_length, const uint16_t *hops, size_t hops_length, uint8_t *buffer,
                     size_t buffer_length) WHELK_CALL WHELK_READS(2, 3) WHELK_READS(4, 5) WHELK_FILLS(6, 7);

static inline unsigned whelk_write_number(uint64_t wrote)
{
    return WHELK_CAST(unsigned, wrote >> 32);
}

static inline size_t whelk_write_bytes(uint64_t wrote)
{
    return wrote & 4294967295u;
}

/* Builds the run table of a list.
   Lend the list, and 2 x count + 1 slots in starts and in run_hops; that is always enough.
   Returns a number and the count of runs, for the two functions below. The number is 0, 11 if the list is ill-formed, or 13 if starts or
   run_hops is too short. (It is 4,294,967,296 x number + runs.)
   Leaves the table in starts and run_hops. Slots past its count stay as they were. */
uint64_t whelk_build(size_t count, const uint64_t *keys, size_t keys_length, const uint16_t *hops, size_t hops_length, uint32_t *starts,
                     size_t starts_length, uint16_t *run_hops, size_t run_hops_length)
    WHELK_CALL WHELK_READS(2, 3) WHELK_READS(4, 5) WHELK_FILLS(6, 7) WHELK_FILLS(8, 9);

static inline unsigned whelk_build_number(uint64_t built)
{
    return WHELK_CAST(unsigned, built >> 32);
}

static inline size_t whelk_build_runs(uint64_t built)
{
    return built & 4294967295u;
}

/* Says whether a run table is that of a list: its first `runs` runs are what a build would leave. Time: linear in the list.
   Lend the list and the table. Slots past their counts have no say.
   Returns the number: 0, 11 if the list is ill-formed or `runs` is above one of the lengths or WHELK_TOP_RUNS, or 14 if the table is another.
   Leaves all memory as it is. */
size_t whelk_pair_check(size_t count, const uint64_t *keys, size_t keys_length, const uint16_t *hops, size_t hops_length, size_t runs,
                        const uint32_t *starts, size_t starts_length, const uint16_t *run_hops, size_t run_hops_length)
    WHELK_CALL WHELK_READS(2, 3) WHELK_READS(4, 5) WHELK_READS(7, 8) WHELK_READS(9, 10);

/* The parts of what a lookup returned: its number, the hop or the label, and of whelk_run_lookup_slices alone how many probes the halving made. */
static inline unsigned whelk_lookup_number(uint64_t found)
{
    return WHELK_CAST(unsigned, found >> 16 & 65535u);
}

static inline uint16_t whelk_lookup_hop(uint64_t found)
{
    return WHELK_CAST(uint16_t, found & 65535u);
}

static inline unsigned whelk_lookup_probes(uint64_t found)
{
    return WHELK_CAST(unsigned, found >> 32);
}

/* Looks an address up in the first `runs` runs of a run table, by halving. The table is not checked: in one that no build left, the hop is that
   of the run which halving finds.
   Lend the table as a build or an edit left it, and a number for the last address.
   Returns a number, a hop and the probes, for whelk_lookup_number, whelk_lookup_hop and whelk_lookup_probes. The number is 0, or 11 if `runs` is
   0 or above one of the lengths. Number 0 with hop 0 says that nothing matches. (It is 4,294,967,296 x probes + 65,536 x number + hop.)
   Leaves in *last the last address of the run found: the hop holds from the address up to it, and the address behind it, if there is one, has
   another hop. So a cache needn't ask again before, as long as the table stays the same: after an edit, a build or a swap it has to. *last is one
   less than the start of the run behind it in the table, or 255.255.255.255 for the last run, and in a table that no build left it means no more
   than that. On 11 *last stays as it was. */
uint64_t whelk_run_lookup_slices(size_t runs, const uint32_t *starts, size_t starts_length, const uint16_t *run_hops,
                                 size_t run_hops_length, uint32_t address, uint32_t *last) WHELK_CALL WHELK_READS(2, 3) WHELK_READS(4, 5);

/* The address in 4 bytes, high byte first, as whelk_run_lookup leaves it. */
static inline uint32_t whelk_address_of(const uint8_t *bytes)
{
    return WHELK_CAST(uint32_t, bytes[0]) << 24 | WHELK_CAST(uint32_t, bytes[1]) << 16 | WHELK_CAST(uint32_t, bytes[2]) << 8 | bytes[3];
}

/* Looks an address up in run bytes, by the same halving. They are not what a build leaves: a run has 6 bytes, 4 of its start and 2 of its hop,
   high byte first, and the host writes them from a built table.
   Lend the bytes, and 4 bytes for the last address.
   Returns a number and a hop, for whelk_lookup_number and whelk_lookup_hop. The number is 0, or 11 if the length is 0 or 6 doesn't divide it, or 13
   if last_length is less than 4. Number 0 with hop 0 says that nothing matches. (It is 65,536 x number + hop.)
   Leaves in the first 4 bytes of last the last address of the run found, high byte first, for whelk_address_of; it means what it means in
   whelk_run_lookup_slices. Bytes past them stay as they were, and on 11 and 13 all of them. */
uint32_t whelk_run_lookup(const uint8_t *bytes, size_t length, uint32_t address, uint8_t *last, size_t last_length)
    WHELK_CALL WHELK_READS(1, 2) WHELK_FILLS(4, 5);

/* Looks an address up in a list: the hop of the longest listed prefix that holds it, or 0. Time: linear in the list, which it checks. To forward
   by, build a run table.
   Lend the list.
   Returns a number and a hop, for whelk_lookup_number and whelk_lookup_hop. The number is 0, or 11 if the list is ill-formed. (It is
   65,536 x number + hop.)
   Leaves all memory as it is. */
uint32_t whelk_plain_lookup(size_t count, const uint64_t *keys, size_t keys_length, const uint16_t *hops, size_t hops_length,
                            uint32_t address) WHELK_CALL WHELK_READS(2, 3) WHELK_READS(4, 5);

/* The most rows of a list that hold one address: one of each length from 0 to 32. */
#define WHELK_MOST_MATCHES 33

/* What a listing of reasons returns: its number, how many rows hold the address, and the place of the one that decides. Look at the number first:
   on a refusal the rest is 0. With number 0 and listed 0 no row holds the address, and place is 0. */
struct whelk_reason {
    size_t number;
    size_t listed;
    size_t place;
};

/* Says why an address gets its hop: lists all rows that hold it, the shortest prefix first, and names the one that decides, which is the last of
   them: of the listed prefixes that hold the address it has the longest. Its hop is what a lookup gives. Time: linear in the list, which it checks.
   Lend the list, and WHELK_MOST_MATCHES slots in places; that is always enough.
   Returns number 0, how many rows hold the address and the place of the row that decides; or 11 if the list is ill-formed, or 13 if more rows hold
   it than places has slots.
   Leaves the places of these rows in places: the row at place p has keys[p] and hops[p]. Slots past them stay as they were. */
struct whelk_reason whelk_why(size_t count, const uint64_t *keys, size_t keys_length, const uint16_t *hops, size_t hops_length,
                              uint32_t address, size_t *places, size_t places_length)
    WHELK_CALL WHELK_READS(2, 3) WHELK_READS(4, 5) WHELK_FILLS(7, 8);

/* Writes the rows that hold an address as text, the shortest prefix first, each as whelk_write writes it. If none holds it there are 0 bytes.
   Lend the list, and a buffer of WHELK_ROW_BYTES x WHELK_MOST_MATCHES bytes; that is always enough.
   Returns a number and how many bytes the text has, for whelk_write_number and whelk_write_bytes. The number is 0, 11 if the list is ill-formed, or
   13 if the text is longer than the buffer. (It is 4,294,967,296 x number + bytes.)
   Leaves the text at the buffer's front, with no zero byte behind it. Bytes past it stay as they were. */
uint64_t whelk_why_text(size_t count, const uint64_t *keys, size_t keys_length, const uint16_t *hops, size_t hops_length, uint32_t address,
                        uint8_t *buffer, size_t buffer_length) WHELK_CALL WHELK_READS(2, 3) WHELK_READS(4, 5) WHELK_FILLS(7, 8);

/* What a packing returns: its number, the width, which is at most 16, how many words were written, which is how many bases were too, and how
   many hops. */
struct whelk_packed {
    size_t number;
    size_t width;
    size_t words;
    size_t hops;
};

/* A packed segment has this many words, as many bases and this many hops at the most. */
#define WHELK_PACKED_WORDS 4096
#define WHELK_PACKED_HOPS 65536

/* Packs a segment of a list: the 65,536 addresses whose first 16 bits, address >> 16, are its number. The width is the greatest length of a
   listed prefix in the segment, less 16, and 0 if none is longer than 16. There is 1 word for a width of 0 to 3, and there are 2^(width - 4)
   for a greater one. Time: linear in the list, for each segment, since list and run table are checked. After an edit, pack each segment again
   that has an address of the edited prefix.
   Lend the list with its run table as a build or an edit left it, the first `runs` runs of starts and run_hops. Lend WHELK_PACKED_WORDS slots
   in words and in bases and WHELK_PACKED_HOPS in packed_hops; that is always enough.
   Returns number 0, the width and both counts; or 11 if the list is ill-formed or `runs` is above one of the lengths or WHELK_TOP_RUNS, 14
   if the run table is another than the list's, or 13 if one of the three is too short.
   Leaves the segment in words, bases and packed_hops. Slots past its counts stay as they were. */
struct whelk_packed whelk_pack(uint16_t segment, size_t count, const uint64_t *keys, size_t keys_length, const uint16_t *hops, size_t hops_length,
                               size_t runs, const uint32_t *starts, size_t starts_length, const uint16_t *run_hops, size_t run_hops_length,
                               uint16_t *words, size_t words_length, uint16_t *bases, size_t bases_length, uint16_t *packed_hops,
                               size_t packed_hops_length)
    WHELK_CALL WHELK_READS(3, 4) WHELK_READS(5, 6) WHELK_READS(8, 9) WHELK_READS(10, 11)
    WHELK_FILLS(12, 13) WHELK_FILLS(14, 15) WHELK_FILLS(16, 17);

/* Looks an address up in a packed segment, by the address's last 16 bits: that the segment is that of the first 16 is up to the caller. The
   segment is not checked: in one that no packing left, the hop is that of the place which its word and base give.
   Lend the segment: the width and the lengths are what packing returned, width, words, words again and hops.
   Returns a number and a hop, for whelk_lookup_number and whelk_lookup_hop. The number is 0, or 19 if the width is above 16 or there is no
   word, base or hop for the address. Number 0 with hop 0 says that nothing matches. (It is 65,536 x number + hop.)
   Leaves all memory as it is. */
uint32_t whelk_packed_lookup(uint32_t width, const uint16_t *words, size_t words_length, const uint16_t *bases, size_t bases_length,
                             const uint16_t *hops, size_t hops_length, uint32_t address)
    WHELK_CALL WHELK_READS(2, 3) WHELK_READS(4, 5) WHELK_READS(6, 7);

/* What an edit returns: its number, how many addresses have another hop than before, and the new counts of rows and of runs. The changed
   number is 4,294,967,296 at the most. Look at the number first: on a refusal the rest is 0, and the list and the run table keep the counts
   that were handed in. */
struct whelk_edit {
    size_t number;
    uint64_t changed;
    size_t count;
    size_t runs;
};

/* Announces one route: a prefix that isn't listed gets a row with the hop, and a listed one's row gets the hop. The run table follows.
   The prefix is network/length. Time: linear in the list, since list and run table are checked; for many edits at once, edit the list and build
   once.
   Lend the list with its run table as a build or an edit left it, the first `runs` runs of starts and run_hops. Lend count + 1 slots in keys
   and hops, and 2 x count + 3 in starts and run_hops; for a list of fewer than WHELK_TOP_ROWS rows that is always enough. A new hop can make
   many runs at once: rows inside the prefix that have its old hop were part of its runs, and now are runs of their own.
   Returns number 0, the changed number and both counts; or 15 if the length is above 32, a bit of the network beyond the length is 1 or
   the hop is 0, 11 if the list is ill-formed or `runs` is above one of the lengths or WHELK_TOP_RUNS, 14 if the run table is another
   than the list's, or 13 if the edited list or its run table is longer than what was lent, or the list longer than WHELK_TOP_ROWS. To
   announce a listed route with the hop that it has is 0, with 0 changed. On a refusal go on with the old counts.
   Leaves the edited list in keys and hops and its run table in starts and run_hops, in each slot below their counts what a build would give.
   Where a count is smaller than before, the slots that only the old one reached hold 0. Slots past both counts stay as they were. */
struct whelk_edit whelk_announce(uint32_t network, uint32_t length, uint16_t hop, size_t count, uint64_t *keys, size_t keys_length,
                                 uint16_t *hops, size_t hops_length, size_t runs, uint32_t *starts, size_t starts_length,
                                 uint16_t *run_hops, size_t run_hops_length)
    WHELK_CALL WHELK_CHANGES(5, 6) WHELK_CHANGES(7, 8) WHELK_CHANGES(10, 11) WHELK_CHANGES(12, 13);

/* Withdraws one route: the row of the prefix network/length goes out of the list, and the run table follows. Time: as for an announcement.
   Lend the list and its run table as for an announcement, but count slots in keys and hops, and 2 x count + 1 in starts and run_hops; that is
   always enough. There can be more runs than before, and many more: rows inside the prefix or beside it that have its hop were part of its
   runs, and then are runs of their own.
   Returns number 0, the changed number and both counts; or 15 if the length is above 32 or a bit of the network beyond the length is 1,
   11 if the list is ill-formed or `runs` is above one of the lengths or WHELK_TOP_RUNS, 14 if the run table is another than the list's,
   16 if the prefix isn't listed, or 13 if the new run table is longer than what was lent. On a refusal go on with the old counts.
   Leaves what an announcement leaves. */
struct whelk_edit whelk_withdraw(uint32_t network, uint32_t length, size_t count, uint64_t *keys, size_t keys_length, uint16_t *hops,
                                 size_t hops_length, size_t runs, uint32_t *starts, size_t starts_length, uint16_t *run_hops,
                                 size_t run_hops_length)
    WHELK_CALL WHELK_CHANGES(4, 5) WHELK_CHANGES(6, 7) WHELK_CHANGES(9, 10) WHELK_CHANGES(11, 12);

/* A split makes two halves of a list, for two cores that each look up in one, so that each has a smaller table; a k near count / 2 is usual. A
   half is a list with labels in place of hops, and label 0 is no fault; all else that makes a list ill-formed makes a half so. The first half
   is the list's first k rows: hand in count k with the list's own keys and hops. The second is what whelk_split leaves. Only
   whelk_half_lookup and whelk_build_half are for halves: for other calls label 0 is a fault. After an edit of the list, split again. At every
   address, the label that the one gives XOR the label that the other gives is the list's hop, or 0 where nothing matches. That is so by
   whelk_half_lookup, and by run lookup in the tables that whelk_build_half leaves. The last address that such a run lookup leaves is that of its
   half's label: the list's hop holds up to the lesser of the two, and perhaps further. */

/* Splits a list after its first k rows.
   Lend the list, and count - k + 1 slots in half_keys and in labels; it takes exactly so many.
   Returns a number and the count of the second half, for the two functions below. The number is 0, 11 if the list is ill-formed, 17 if k is 0
   or above count, 18 if 0.0.0.0/0 isn't listed, or 13 if half_keys or labels is too short. (It is 4,294,967,296 x number + count.)
   Leaves the second half in half_keys and labels: 0.0.0.0/0 with label 0 and then the list's rows from place k on. Slots past its count stay
   as they were, and the list stays too. */
uint64_t whelk_split(size_t k, size_t count, const uint64_t *keys, size_t keys_length, const uint16_t *hops, size_t hops_length,
                     uint64_t *half_keys, size_t half_keys_length, uint16_t *labels, size_t labels_length)
    WHELK_CALL WHELK_READS(3, 4) WHELK_READS(5, 6) WHELK_FILLS(7, 8) WHELK_FILLS(9, 10);

static inline unsigned whelk_split_number(uint64_t split)
{
    return WHELK_CAST(unsigned, split >> 32);
}

static inline size_t whelk_split_count(uint64_t split)
{
    return split & 4294967295u;
}

/* Looks an address up in a half: the label of the longest prefix that holds it, or 0 if none does. Time: linear in the half, which it checks. To
   forward by, build a run table of the half.
   Lend the half.
   Returns a number and a label, for whelk_lookup_number and whelk_lookup_hop. The number is 0, or 11 if the half is ill-formed. (It is
   65,536 x number + label.)
   Leaves all memory as it is. */
uint32_t whelk_half_lookup(size_t count, const uint64_t *keys, size_t keys_length, const uint16_t *labels, size_t labels_length,
                           uint32_t address) WHELK_CALL WHELK_READS(2, 3) WHELK_READS(4, 5);

/* Builds the run table of a half, for run lookup to find labels in.
   Lend the half, and 2 x count + 1 slots in starts and in run_labels; that is always enough.
   Returns a number and the count of runs, for whelk_build_number and whelk_build_runs. The number is 0, 11 if the half is ill-formed, or 13 if
   starts or run_labels is too short. (It is 4,294,967,296 x number + runs.)
   Leaves the table in starts and run_labels. Slots past its count stay as they were. */
uint64_t whelk_build_half(size_t count, const uint64_t *keys, size_t keys_length, const uint16_t *labels, size_t labels_length,
                          uint32_t *starts, size_t starts_length, uint16_t *run_labels, size_t run_labels_length)
    WHELK_CALL WHELK_READS(2, 3) WHELK_READS(4, 5) WHELK_FILLS(6, 7) WHELK_FILLS(8, 9);

#ifdef __cplusplus
}
#endif

#undef WHELK_CALL
#undef WHELK_READS
#undef WHELK_FILLS
#undef WHELK_CHANGES
#undef WHELK_CAST

#endif
