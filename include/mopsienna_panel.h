/*
 * Mopsienna for stores with pages of 1,024 bytes, as the small panel keeps them. A function here is
 * that of mopsienna.h which has the same name without `panel_`, for this page size: it takes the same
 * arguments, fills the same places, and has the same refusals in the same order. Where mopsienna.h names
 * a number of its page size, that of this one is meant:
 *
 *                                                 mopsienna.h     here
 *   bytes of a page                               4,096           1,024
 *   entries on a list page, at most               1,022           254
 *   under a head of one entry, at least           1,021           253
 *   bytes on a value page for numbers and value   4,092           1,020
 *   in the rule of the old total                  4,089, 4,088    1,017, 1,016
 *   numbers on a value page, at most              1,023           255
 *   the largest value (refusal 10 above it)       2^29            2^20
 *   the least size of which the totals differ     4,243,403       274,379
 *
 * Where it names MOPSIENNA_MAX_SIZE or a function that stands here too, the one here is meant. The same
 * at both sizes are numbers of 32 bits, 15 numbers in a cell and MOPSIENNA_MAX_BUMP; mopsienna_grow,
 * mopsienna_columns and mopsienna_rows are for both.
 *
 * Nothing in a store or in a cell tells its page size. A host calls the functions of one size for a
 * store, and for its cells.
 */
#ifndef MOPSIENNA_PANEL_H
#define MOPSIENNA_PANEL_H

#include "mopsienna.h"

#ifdef __cplusplus
extern "C" {
#endif

/* The largest value, at pages of 1,024 bytes. */
#define MOPSIENNA_PANEL_MAX_SIZE (UINT64_C(1) << 20)

uint32_t mopsienna_panel_read_list(const uint8_t *store, size_t store_len, uint32_t head,
                                   uint32_t *pages, size_t pages_len, uint32_t *entries,
                                   size_t entries_len, uint8_t *map, size_t map_len, uint64_t out[8]);

uint32_t mopsienna_panel_hand_out(uint32_t bump, uint32_t length, uint64_t P, uint64_t L,
                                  uint64_t count, const uint32_t *pages, size_t pages_len,
                                  const uint32_t *entries, size_t entries_len, uint64_t out[8]);

uint32_t mopsienna_panel_finish(uint32_t bump, uint32_t length, uint64_t P, uint64_t L, uint64_t count,
                                uint32_t *pages, size_t pages_len, uint32_t *entries,
                                size_t entries_len, const uint32_t *freed, size_t freed_len,
                                uint8_t *buffer, size_t buffer_len, uint32_t *numbers,
                                size_t numbers_len, uint8_t *map, size_t map_len, uint64_t out[8]);

uint32_t mopsienna_panel_total(uint64_t size, uint64_t out[8]);

uint32_t mopsienna_panel_write_value_page(const uint8_t *value, size_t value_len,
                                          const uint32_t *numbers, size_t numbers_len, uint64_t index,
                                          uint8_t *page, size_t page_len);

uint32_t mopsienna_panel_encode_cell(uint64_t size, const uint8_t hash[32], const uint32_t *numbers,
                                     size_t numbers_len, uint8_t *cell, size_t cell_len);

uint32_t mopsienna_panel_decode_cell(const uint8_t *cell, size_t cell_len, uint8_t hash[32],
                                     uint64_t out[8]);

uint32_t mopsienna_panel_read_value(const uint8_t *cell, size_t cell_len, const uint8_t *store,
                                    size_t store_len, uint32_t *numbers, size_t numbers_len,
                                    uint8_t *value, size_t value_len, uint64_t out[8]);

uint32_t mopsienna_panel_delete_value(const uint8_t *cell, size_t cell_len, const uint8_t *store,
                                      size_t store_len, uint32_t *numbers, size_t numbers_len,
                                      uint64_t out[8]);

uint32_t mopsienna_panel_lookup(const uint32_t *numbers, size_t numbers_len, const uint8_t *pending,
                                size_t pending_len, const uint8_t *store, size_t store_len,
                                uint32_t page, uint64_t out[8]);

#ifdef __cplusplus
}
#endif

#endif
