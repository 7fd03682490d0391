/* Whelkhollow's hints for C, for a router whose neighbour sends the length of its own best match along with each packet. A product of its own beside
   whelkhollow.h, whose rules for callers hold here too: any values may be handed in, a refused call writes nothing, and a pointer isn't null. Link
   target/staticlib/libclue_host.a, which `bash scripts/built clue_host_c` builds, and libhost.a for run lookup. docs/RULES.md has all rules, in section 19.

   A clue is a length from 0 to 32 and an address, read as that many first bits of the address: a prefix. For a list and a clue an entry says which
   hop the longest listed prefix has that holds the clue's, and whether a longer listed prefix extends the clue. If none does, that hop is final for
   every address of the clue; else the list, or its run table, has to be searched. Nothing is assumed of the neighbour: whatever length it sends, the
   answer is the list's own.

   A host builds entries once for the clues that its neighbour can send (the prefixes of the neighbour's list, say), and again after each edit of its
   list. Entries, list and run table go together: whoever swaps one under running lookups swaps all three. For each packet the host asks
   whelk_clue_quick, and where that says search it looks the address up in the run table:

       uint32_t told = whelk_clue_quick(keys, n, hops, n, marks, n, length, address);
       hop = whelk_clue_is_final(told) ? whelk_clue_hop(told) : whelk_lookup_hop(whelk_run_lookup_slices(..));

   An entry is found by halving, and that may take longer than a run lookup alone, even where the hop is final; bench/MEASURED.md has times. These
   calls promise the answer, and not that it comes sooner. */
#ifndef WHELKHOLLOW_CLUE_H
#define WHELKHOLLOW_CLUE_H

#include "whelkhollow.h"

/* What a compiler that has these attributes is told, as in whelkhollow.h. */
#define WHELK_CALL
#define WHELK_READS(pointer, length)
#define WHELK_FILLS(pointer, length)
#ifdef __has_attribute
#if __has_attribute(nonnull) && __has_attribute(warn_unused_result)
#undef WHELK_CALL
#define WHELK_CALL __attribute__((nonnull, warn_unused_result))
#endif
#if __has_attribute(access)
#undef WHELK_READS
#undef WHELK_FILLS
#define WHELK_READS(pointer, length) __attribute__((access(read_only, pointer, length)))
#define WHELK_FILLS(pointer, length) __attribute__((access(write_only, pointer, length)))
#endif
#endif

#ifdef __cplusplus
#define WHELK_CAST(type, value) static_cast<type>(value)
extern "C" {
#else
#define WHELK_CAST(type, value) ((type)(value))
#endif

/* What became of a call. A call with another number than 0 is refused: it writes nothing, and whatever else it returns is 0. Where more than one
   fault is there, the number is the first of 15, 11, 14, 13 that the call has. These names are for the calls of this header, and those of
   whelkhollow.h for its own: 14 and 15 say something else there. */
enum whelk_clue_number {
    WHELK_CLUE_DONE = 0,             /* the call is done */
    WHELK_CLUE_ILL_FORMED = 11,      /* the list is ill-formed */
    WHELK_CLUE_NO_ROOM = 13,         /* there are more entries than slots for them */
    WHELK_CLUE_NOT_ITS_ENTRIES = 14, /* the entries are others than the list's for their clues, or have other lengths */
    WHELK_CLUE_BAD_LENGTH = 15       /* a clue's length is above 32 */
};

/* A number of these calls in words, for a log. Any number may be handed in; the text is constant. */
static inline const char *whelk_clue_number_text(size_t number)
{
    switch (number) {
    case WHELK_CLUE_DONE: return "done";
    case WHELK_CLUE_ILL_FORMED: return "the list is ill-formed";
    case WHELK_CLUE_NO_ROOM: return "there are more entries than slots for them";
    case WHELK_CLUE_NOT_ITS_ENTRIES: return "the entries are others than the list's for their clues";
    case WHELK_CLUE_BAD_LENGTH: return "a clue's length is above 32";
    default: return "a number that no call returns";
    }
}

/* What a build of entries returns: its number, and how many entries there are. Look at the number first: on a refusal the count is 0. */
struct whelk_entries {
    size_t number;
    size_t count;
};

/* Builds the entries of a list for some clues: clue i is lengths[i] and addresses[i], and the shorter of the two counts. Equal clues make one entry,
   and entries stand in key order, the key of a clue being network x 64 + length as in a list. Time: linear in the list, which it checks; and at most
   34 searches of the list for each entry. If the clues come in key order, as a list's own rows do, a few steps for each clue come on top. If they
   don't, and one clue out of place is enough, all clues are gone through for each entry, and twice where there are fewer slots than clues: that is
   quadratic, and 100,000 clues take 10,000,000,000 steps. Sort them first.
   Lend the list, the clues, and as many slots as there are clues in entry_keys, entry_hops and marks; that is always enough.
   Returns number 0 and how many entries there are; or 15 if a length is above 32, 11 if the list is ill-formed, or 13 if there are more entries than
   one of the three has slots.
   Leaves the entries in entry_keys, entry_hops and marks: a mark is 1 if a longer listed prefix extends the clue, else 0. Slots past them stay as
   they were. Entries are of this list alone: after an edit of it build them again. */
struct whelk_entries whelk_clue_build(size_t count, const uint64_t *keys, size_t keys_length, const uint16_t *hops, size_t hops_length,
                                      const uint8_t *lengths, size_t lengths_length, const uint32_t *addresses, size_t addresses_length,
                                      uint64_t *entry_keys, size_t entry_keys_length, uint16_t *entry_hops, size_t entry_hops_length,
                                      uint8_t *marks, size_t marks_length)
    WHELK_CALL WHELK_READS(2, 3) WHELK_READS(4, 5) WHELK_READS(6, 7) WHELK_READS(8, 9)
    WHELK_FILLS(10, 11) WHELK_FILLS(12, 13) WHELK_FILLS(14, 15);

/* Looks an address up in a list with a clue's length and entries, and checks all that it is handed. Time: linear in the list, which it checks; and at
   most 34 searches of the list for each entry, since entries are checked too. To forward by, use whelk_clue_quick.
   Lend the list, and its entries: all of entry_keys, entry_hops and marks are entries.
   Returns a number, a hop and whether the hop was stored, for the three functions below. The number is 0, 15 if the length is above 32, 11 if the
   list is ill-formed, or 14 if the entries are others than the list's for their clues, as after an edit, or have other lengths. With number 0 the
   hop is always the list's own for the address, also if the clue has no entry, and hop 0 says that nothing matches. (It is 4,294,967,296 x stored +
   65,536 x number + hop.)
   Leaves all memory as it is. */
uint64_t whelk_clue_lookup(size_t count, const uint64_t *keys, size_t keys_length, const uint16_t *hops, size_t hops_length,
                           const uint64_t *entry_keys, size_t entry_keys_length, const uint16_t *entry_hops, size_t entry_hops_length,
                           const uint8_t *marks, size_t marks_length, uint32_t length, uint32_t address)
    WHELK_CALL WHELK_READS(2, 3) WHELK_READS(4, 5) WHELK_READS(6, 7) WHELK_READS(8, 9) WHELK_READS(10, 11);

static inline unsigned whelk_clue_lookup_number(uint64_t found)
{
    return WHELK_CAST(unsigned, found >> 16 & 65535u);
}

static inline uint16_t whelk_clue_lookup_hop(uint64_t found)
{
    return WHELK_CAST(uint16_t, found & 65535u);
}

/* 1 if the hop was stored for the clue, and 0 if it was searched for. */
static inline int whelk_clue_lookup_stored(uint64_t found)
{
    return WHELK_CAST(int, found >> 32);
}

/* Says what entries have for a clue: a hop that is final, or that a search has to follow. It is for each packet, and checks nothing but where the
   slices end. Time: logarithmic in the entries, by halving.
   Lend the entries as a build left them: the lengths are how many there are, and the shortest counts.
   Returns what the two functions below take apart. A search follows where the clue has no entry, where a longer listed prefix extends it, where there
   are no entries, and where the length is above 32. In entries that a build left, a final hop is the list's own for the address, and hop 0 says that
   nothing matches; in others it is what stands there. After an edit of the list and before a new build it may be the old list's hop, which nothing
   here can tell. (It is 65,536 + hop, or 0 for a search.)
   Leaves all memory as it is. */
uint32_t whelk_clue_quick(const uint64_t *entry_keys, size_t entry_keys_length, const uint16_t *entry_hops, size_t entry_hops_length,
                          const uint8_t *marks, size_t marks_length, uint32_t length, uint32_t address)
    WHELK_CALL WHELK_READS(1, 2) WHELK_READS(3, 4) WHELK_READS(5, 6);

/* 1 if the hop is final, and 0 if a search has to follow. */
static inline int whelk_clue_is_final(uint32_t told)
{
    return WHELK_CAST(int, told >> 16);
}

static inline uint16_t whelk_clue_hop(uint32_t told)
{
    return WHELK_CAST(uint16_t, told & 65535u);
}

#ifdef __cplusplus
}
#endif

#undef WHELK_CALL
#undef WHELK_READS
#undef WHELK_FILLS
#undef WHELK_CAST

#endif
