/* What bench/in_c has: each function does the work of the one of whelkhollow.h, or of
   whelkhollow_clue.h, with the same name after its first part. */
#ifndef IN_C_H
#define IN_C_H

#include <stddef.h>
#include <stdint.h>

#include "whelkhollow_clue.h"

uint32_t c_run_lookup(const uint8_t *bytes, size_t length, uint32_t address, uint8_t *last, size_t last_length);
uint64_t c_run_lookup_slices(size_t n, const uint32_t *starts, size_t starts_length, const uint16_t *hops, size_t hops_length,
                             uint32_t address, uint32_t *last);
uint64_t c_build(size_t count, const uint64_t *keys, size_t keys_length, const uint16_t *hops, size_t hops_length, uint32_t *starts,
                 size_t starts_length, uint16_t *run_hops, size_t run_hops_length);
struct whelk_counts c_import(const uint8_t *feed, size_t feed_length, uint64_t *keys, size_t keys_length, uint16_t *hops, size_t hops_length,
                             uint8_t *report, size_t report_length);
typedef uint64_t writing(size_t count, const uint64_t *keys, size_t keys_length, const uint16_t *hops, size_t hops_length, uint8_t *buffer,
                         size_t buffer_length);
writing c_write, c_write_unchecked, c_write_by_libc;
uint32_t c_packed_lookup(uint32_t width, const uint16_t *words, size_t words_length, const uint16_t *bases, size_t bases_length,
                         const uint16_t *hops, size_t hops_length, uint32_t address);
typedef struct whelk_packed packing(uint16_t q, size_t count, const uint64_t *keys, size_t keys_length, const uint16_t *hops,
                                    size_t hops_length, size_t runs, const uint32_t *starts, size_t starts_length,
                                    const uint16_t *run_hops, size_t run_hops_length, uint16_t *words, size_t words_length,
                                    uint16_t *bases, size_t bases_length, uint16_t *packed_hops, size_t packed_hops_length);
packing c_pack, c_pack_by_runs;
typedef uint64_t splitting(size_t k, size_t count, const uint64_t *keys, size_t keys_length, const uint16_t *hops, size_t hops_length,
                           uint64_t *half_keys, size_t half_keys_length, uint16_t *labels, size_t labels_length);
splitting c_split;
typedef uint64_t building(size_t count, const uint64_t *keys, size_t keys_length, const uint16_t *labels, size_t labels_length,
                          uint32_t *starts, size_t starts_length, uint16_t *run_labels, size_t run_labels_length);
building c_build_half;
typedef struct whelk_edit announcing(uint32_t network, uint32_t length, uint16_t hop, size_t count, uint64_t *keys, size_t keys_length,
                                     uint16_t *hops, size_t hops_length, size_t runs, uint32_t *starts, size_t starts_length,
                                     uint16_t *run_hops, size_t run_hops_length);
announcing c_announce;
typedef struct whelk_edit withdrawing(uint32_t network, uint32_t length, size_t count, uint64_t *keys, size_t keys_length, uint16_t *hops,
                                      size_t hops_length, size_t runs, uint32_t *starts, size_t starts_length, uint16_t *run_hops,
                                      size_t run_hops_length);
withdrawing c_withdraw;

/* The check with which an edit begins, by itself: 0, 11 or 14. And an edit without it, of a prefix that is one; hop 0 withdraws. */
size_t c_pair_check(size_t count, const uint64_t *keys, size_t keys_length, const uint16_t *hops, size_t hops_length, size_t runs,
                    const uint32_t *starts, size_t starts_length, const uint16_t *run_hops, size_t run_hops_length);
announcing c_edit_agreed;

typedef struct whelk_entries entering(size_t count, const uint64_t *keys, size_t keys_length, const uint16_t *hops, size_t hops_length,
                                      const uint8_t *lengths, size_t lengths_length, const uint32_t *addresses, size_t addresses_length,
                                      uint64_t *entry_keys, size_t entry_keys_length, uint16_t *entry_hops, size_t entry_hops_length,
                                      uint8_t *marks, size_t marks_length);
entering c_clue_build;
uint32_t c_clue_quick(const uint64_t *keys, size_t keys_length, const uint16_t *hops, size_t hops_length, const uint8_t *marks,
                      size_t marks_length, uint32_t length, uint32_t address);

#endif
