/*
 * Mopsienna: the page part of a store that is saved by fresh pages, so that a failed save can be
 * rolled back. A port of nomt's free-list allocator and overflow values; and a rearrangement of batch
 * recordings, which is not nomt's.
 *
 * Every function ends on all inputs and stays inside what it is lent. It returns 0, or the number
 * of a refusal, and then it has done nothing else than what its refusals below say.
 *
 * `out` has eight places. A function fills the first ones as it says; the other places stay as they
 * were. A refusal that returns a value puts it into out[0]; where none is named, `out` is untouched.
 *
 * A page has 4,096 bytes and a number of 32 bits; number 0 is no page. mopsienna_panel.h has the
 * functions, but for mopsienna_grow, mopsienna_columns and mopsienna_rows, once more for pages of
 * 1,024 bytes.
 *
 * A slice is a pointer and a length. The pointer is not null, also where the length is 0, and is
 * aligned for its type; slices that are written overlap no other. Below, [0 .. n] are the places from
 * 0 to n - 1.
 *
 * Nothing is allocated, no file is touched, no function keeps a pointer. Calls on different memory
 * may run at the same time.
 */
#ifndef MOPSIENNA_H
#define MOPSIENNA_H

#include <stddef.h>
#include <stdint.h>

#ifdef __cplusplus
extern "C" {
#endif

/* Refusals. The numbers are fixed; each function names those that it returns. */
enum {
    MOPSIENNA_STATE = 1,       /* an open save that cannot stand */
    MOPSIENNA_LIST_PAGE = 2,   /* a list page number at or past the store's page count */
    MOPSIENNA_COUNT = 3,       /* the count on a list page does not fit its place */
    MOPSIENNA_ENTRY = 4,       /* a list entry is 0 or at or past the page count */
    MOPSIENNA_CHAIN = 5,       /* a list that has not ended after as many pages as the store has */
    MOPSIENNA_TABLES = 6,      /* list tables shorter than the list, or than the new list */
    MOPSIENNA_LIMIT = 7,       /* a number or a bump above its limit */
    MOPSIENNA_FREED = 8,       /* a freed number that is 0, or not below the bump as it has risen */
    MOPSIENNA_BUFFER = 9,      /* a page buffer or number list that is too short */
    MOPSIENNA_SIZE = 10,       /* a size of 0, or above the largest */
    MOPSIENNA_INDEX = 11,      /* not as many numbers as the total, or a page index not below it */
    MOPSIENNA_CELL = 12,       /* a cell under 44 bytes, or no multiple of 4 */
    MOPSIENNA_ROOM = 13,       /* a value or cell buffer or a number table that is too short */
    MOPSIENNA_UNKNOWN = 14,    /* a walk over a value's pages that knows no number to go on */
    MOPSIENNA_MISSING = 15,    /* a page that lies past the store */
    MOPSIENNA_VALUE_PAGE = 16, /* a value page that claims more than its body */
    MOPSIENNA_NUMBERS = 17,    /* the numbers found are not as many as the total */
    MOPSIENNA_BYTES = 18,      /* the bytes found are not as many as the size */
    MOPSIENNA_MAP = 21,        /* a bit map that is too short */
    MOPSIENNA_REPEAT = 22,     /* a number that stands twice in a list or is freed twice, or one at
                                * or past the bump as it has risen */
    MOPSIENNA_EMPTY_PAGE = 25, /* a value page that has no numbers and no bytes */
    MOPSIENNA_ROWS = 26,       /* a length that is no multiple of a row's 8 bytes */
    MOPSIENNA_SECOND_BUFFER = 27 /* a second buffer that is shorter than the first */
};

/* The largest page number that a store grows for, and the largest bump. */
#define MOPSIENNA_MAX_BUMP UINT32_C(4294950913)

/* The largest value, at pages of 4,096 bytes. */
#define MOPSIENNA_MAX_SIZE (UINT64_C(1) << 29)

/*
 * The length, in pages, that a store is given so that it holds `page`: the least multiple of 8,192
 * not below page + 8,191.
 *
 *   out[0]  the length
 *
 * Refusals: 7 for a page above MOPSIENNA_MAX_BUMP.
 */
uint32_t mopsienna_grow(uint32_t page, uint64_t out[8]);

/*
 * Reads the free list whose head page is `head` into two tables: its page numbers and its entries,
 * both from the bottom page up. Head 0 is the empty list. The store's page count is its length
 * divided by 4,096, rounded down, and at most 2^32 - 1.
 *
 *   out[0]  P, the pages of the list: pages[0 .. P] hold their numbers
 *   out[1]  L, the entries of the list: entries[0 .. L] hold them
 *
 * The other places of both tables stay as they were, and after a refusal all of them do. The numbers of
 * a list that is read, pages and entries, all differ.
 *
 * A list page has the previous page's number in its bytes 0-3, the count of its entries in bytes
 * 4-5, and then the entries, 4 bytes each, at most 1,022; all little-endian. The head holds 1 to
 * 1,022 entries and every page below it 1,022; but under a head of one entry there may be 1,021.
 *
 * Refusals, page by page from the head:
 *   2  the page's number is at or past the page count; out[0] is that number
 *   3  its count does not fit its place; out[0] is the page
 *   4  one of its entries is 0, or at or past the page count; out[0] is the page
 *   5  the list has not ended after as many pages as the store has; then no further page is looked
 *      at, so that a store with no whole page gives 5 for every head but 0
 * and behind them all
 *   21 `map` is too short: it has fewer bits than the store has pages
 *   22 a number occurs twice in the list, among its pages and its entries together
 *   6  a table is shorter than the list
 *
 * `map` is a bit map, one bit for each page of the store, eight to a byte, which may hold anything. Its
 * first page count / 8 bytes, rounded up, are zero after the call, after refusals 22 and 6 too; the others
 * stay as they were. Refusals 2 to 5 and 21 leave all of it. It is wanted for head 0 too.
 */
uint32_t mopsienna_read_list(const uint8_t *store, size_t store_len, uint32_t head, uint32_t *pages,
                             size_t pages_len, uint32_t *entries, size_t entries_len, uint8_t *map,
                             size_t map_len, uint64_t out[8]);

/*
 * The next two functions work on an open save. It is
 *
 *   bump     the first page number past all that are in use or free, 1 to MOPSIENNA_MAX_BUMP
 *   length   the store's recorded length, in pages: what the host's file has, which is not looked at
 *   P, L     the pages and the entries of the list, as mopsienna_read_list or the last
 *            mopsienna_finish left them in the tables `pages` and `entries`
 *   count    how many numbers this save was handed out: 0 at its start
 *
 * The bump, P and L stay as they are until the finish; count and length go on from call to call.
 *
 * No list of L entries has fewer than L / 1,022 pages, rounded up, or more than L / 1,022 + 1,
 * rounded down; one of none has no page. A save that is not so, whose bump is 0 or too large, or
 * whose tables are shorter than P or L, gets refusal 1.
 */

/*
 * Hands out a page number: the entries of the list from its end, then the numbers from the bump up.
 *
 *   out[0]  the number
 *   out[1]  the new count
 *   out[2]  the recorded length, grown as mopsienna_grow says if a number past the list is not below it
 *
 * The numbers that one save is handed out all differ, where its list was read and its entries lie below
 * the bump, or where a finish made the list.
 *
 * Refusals: 1 for the save, 7 for a number past the list that is not below MOPSIENNA_MAX_BUMP. After
 * them the save is as it was.
 */
uint32_t mopsienna_hand_out(uint32_t bump, uint32_t length, uint64_t P, uint64_t L, uint64_t count,
                            const uint32_t *pages, size_t pages_len, const uint32_t *entries,
                            size_t entries_len, uint64_t out[8]);

/*
 * Finishes a save with the numbers that it frees: the new list goes into the tables, the pages of it
 * that are to be written into `buffer`, 4,096 bytes each, and their page numbers into `numbers`.
 *
 *   out[0]  the new head, 0 if the list has no page
 *   out[1]  the new bump
 *   out[2]  the recorded length, grown as mopsienna_grow says if it is below the new bump
 *   out[3]  P, and pages[0 .. P] hold the new list's page numbers
 *   out[4]  L, and entries[0 .. L] hold its entries
 *   out[5]  how many pages are to be written: they fill buffer and numbers from the front
 *
 * All other places of these four stay as they were, and after a refusal all places do. If nothing was
 * handed out from the list and nothing is freed, the list stays and no page is written.
 *
 * The numbers that were not handed out, the P list pages and the first L - min(count, L) entries, and
 * the freed numbers must all differ, and the former lie below the bump after the numbers handed out:
 * that is the bump, and one more for each number handed out past the list. So the numbers of the new
 * list all differ and lie below the new bump. A page that is to be written has the number of an old list
 * page only if it holds the previous number and the entries that page holds.
 *
 * Refusals, in this order:
 *   1  the save
 *   7  the new bump would be above MOPSIENNA_MAX_BUMP
 *   8  a freed number is 0 or not below the bump after the numbers handed out; out[0] is the place
 *      of the first such number
 *   21 `map` is too short: it has fewer bits than the bump after the numbers handed out
 *   22 a number occurs twice among the list pages, the entries that were not handed out and the freed
 *      numbers together; or such a page or entry is not below the bump after the numbers handed out
 *   6  a table is shorter than the new list
 *   9  `buffer` or `numbers` is shorter than the pages to be written
 *
 * `map` is a bit map, one bit for each number below the bump after the numbers handed out, eight to a
 * byte, which may hold anything. Its first bytes, that bump / 8 rounded up, are zero after the call, after
 * refusals 22, 6 and 9 too; the others stay as they were. Refusals 1, 7, 8 and 21 leave all of it. It is
 * wanted, and 22 is judged, also where nothing was handed out and nothing is freed.
 */
uint32_t mopsienna_finish(uint32_t bump, uint32_t length, uint64_t P, uint64_t L, uint64_t count,
                          uint32_t *pages, size_t pages_len, uint32_t *entries, size_t entries_len,
                          const uint32_t *freed, size_t freed_len, uint8_t *buffer,
                          size_t buffer_len, uint32_t *numbers, size_t numbers_len, uint8_t *map,
                          size_t map_len, uint64_t out[8]);

/*
 * How many overflow pages a value of `size` bytes takes when it is written: the least number of pages
 * that have room for its bytes and for 4 more for each page after the 15th, 4,092 on a page.
 *
 *   out[0]  the total
 *   out[1]  how many of their numbers stand in the value's cell: the total, at most 15
 *   out[2]  the spare room, which the value and the numbers on its pages leave: 4,092 times the
 *           total, less the size, less 4 for each page after the 15th
 *   out[3]  how many places a number table needs to read or delete a value of this size: the old
 *           total, which is the total or one more
 *
 * Refusals: 10 for a size of 0 or above MOPSIENNA_MAX_SIZE.
 */
uint32_t mopsienna_total(uint64_t size, uint64_t out[8]);

/*
 * A value is kept on overflow pages, and a cell leads to them. Its writer gets a number for each page
 * (mopsienna_hand_out), writes the pages one by one, and keeps the cell. There are as many pages as
 * the new total, out[0] of mopsienna_total.
 *
 * Stored values may have the old total: with r = size / 4,092 rounded up, r pages, if r is at most 15
 * or r - 15 is at most (4,092 r - size) / 4 rounded down; else, with m = size + 4 (r - 15) - 4,092 r,
 * r + (m + 4,089) / 4,088 rounded down. For some sizes, of which 4,243,403 is the least, this is a
 * page more than needed. Both are read and deleted. Which one a value has is decided when the first
 * page with value bytes has been taken: the new one, if as many numbers were found by then, in the
 * cell, on the pages before that one and on that one; else the old one, and the old one until then.
 * A reader that knows the old total alone, as nomt's, does not read new values of such a size.
 *
 * A value page has the count of its numbers in bytes 0-1, the count of its value bytes in bytes 2-3,
 * then the numbers, 4 bytes each, then the value bytes; all little-endian. The numbers of the pages
 * after the 15th fill the pages in order, up to 1,023 each, and value bytes take the room left. So
 * each page has a number or a byte, and a page with neither is refused when it is read (25).
 *
 * A cell has the value's size in its first 8 bytes, then a hash of 32 bytes, which is carried and not
 * looked at, then the numbers of the first pages, 15 at most.
 */

/*
 * Writes page `index` of a value, 4,096 bytes, to the start of `page`. `numbers` are the numbers of
 * all its pages. Bytes past the value's are zero; those of `page` past 4,096 stay as they were, and
 * after a refusal all do.
 *
 * Refusals, in this order:
 *   10  the value has no byte, or more than MOPSIENNA_MAX_SIZE
 *   11  there are not as many numbers as the new total, or `index` is not below it
 *   9   `page` is shorter than 4,096 bytes
 */
uint32_t mopsienna_write_value_page(const uint8_t *value, size_t value_len, const uint32_t *numbers,
                                    size_t numbers_len, uint64_t index, uint8_t *page,
                                    size_t page_len);

/*
 * Writes a cell of 40 bytes and 4 for each number to the start of `cell`. Its other bytes stay as
 * they were, and after a refusal all do. Any size up to MOPSIENNA_MAX_SIZE and any count of numbers
 * is taken; the cell of a value has the first 15 of its numbers, or all of them where it has fewer.
 *
 * Refusals, in this order:
 *   10  the size is above MOPSIENNA_MAX_SIZE
 *   13  `cell` is too short
 */
uint32_t mopsienna_encode_cell(uint64_t size, const uint8_t hash[32], const uint32_t *numbers,
                               size_t numbers_len, uint8_t *cell, size_t cell_len);

/*
 * Reads a cell.
 *
 *   hash    the hash
 *   out[0]  the value's size
 *   out[1]  how many numbers the cell has
 *
 * After a refusal `hash` is as it was.
 *
 * Refusals, in this order:
 *   12  the cell has fewer than 44 bytes, or no multiple of 4
 *   10  its size is above MOPSIENNA_MAX_SIZE
 */
uint32_t mopsienna_decode_cell(const uint8_t *cell, size_t cell_len, uint8_t hash[32],
                               uint64_t out[8]);

/*
 * Reads the value of a cell. Its `total` pages, of which the count is decided on the way (see above),
 * are walked in the order in which their numbers are found: those of the cell, and behind them those
 * of each page. Page 0 is walked as any other. Every chain that has `total` numbers and `size` bytes
 * in the end, and on each page a number or a byte, is read, whoever wrote it.
 *
 *   out[0]  the size: value[0 .. size] holds the value
 *   out[1]  how many numbers were found, which is the total: numbers[0 .. total] holds them
 *
 * The other places of both stay as they were. A refusal leaves `value` as it was. Refusals 14 to 18
 * and 25 leave in `numbers` the first `total` of those that were found before, and none from the page
 * that was refused; the other refusals leave it as it was.
 *
 * Refusals, in this order:
 *   12  the cell has fewer than 44 bytes, or no multiple of 4
 *   10  its size is 0 or above MOPSIENNA_MAX_SIZE
 *   13  `numbers` is shorter than the old total (out[3] of mopsienna_total), or `value` than the size
 * then page by page, with the page's index in the walk in out[0],
 *   14  no number is known for the page
 *   15  the page lies past the store
 *   16  the page's numbers and bytes do not fit its 4,092 bytes
 *   25  the page has no numbers and no bytes
 * and behind them all
 *   17  the numbers found are not as many as the total
 *   18  the bytes found are not as many as the size
 */
uint32_t mopsienna_read_value(const uint8_t *cell, size_t cell_len, const uint8_t *store,
                              size_t store_len, uint32_t *numbers, size_t numbers_len,
                              uint8_t *value, size_t value_len, uint64_t out[8]);

/*
 * Collects the numbers of the pages of a cell's value, so that they can be freed. They are found as
 * in mopsienna_read_value, but the walk ends with the first page that has value bytes, and no page
 * behind it is looked at: where mopsienna_write_value_page made the pages, those have no numbers.
 *
 * So deleted is every chain of which no page up to that one is refused, and which has as many numbers
 * by then as one of the two totals. What stands behind may still be refused when the value is read
 * (15 to 18 and 25): with more numbers there, these are not told here. A value that
 * mopsienna_read_value reads is deleted, unless it has numbers behind that page: then it gets 17.
 *
 *   out[0]  how many numbers were found, which is the total: numbers[0 .. total] holds them
 *
 * The other places of `numbers` stay as they were. Refusals 15 to 17 and 25 leave in it the first
 * `total` of the numbers that were found before, and none from the page that was refused; the other
 * refusals leave it as it was.
 *
 * Refusals: those of mopsienna_read_value, without 18 and without a value buffer in 13. 14 does not
 * occur: the walk goes on behind pages without bytes only, and each of these has a number.
 */
uint32_t mopsienna_delete_value(const uint8_t *cell, size_t cell_len, const uint8_t *store,
                                size_t store_len, uint32_t *numbers, size_t numbers_len,
                                uint64_t out[8]);

/*
 * Where a page is to be read from while a save is under way: its pending pages lie one after another
 * in `pending`, each with its number in `numbers`; the first with this number is taken, and else the
 * store's page.
 *
 *   out[0]  0 for `pending`, 1 for `store`
 *   out[1]  the byte there at which the page's 4,096 bytes start
 *
 * Refusals, in this order:
 *   9   `pending` is shorter than 4,096 bytes for each number
 *   15  the page is not pending and lies past the store; out[0] is the page
 */
uint32_t mopsienna_lookup(const uint32_t *numbers, size_t numbers_len, const uint8_t *pending,
                          size_t pending_len, const uint8_t *store, size_t store_len, uint32_t page,
                          uint64_t out[8]);

/*
 * A batch recording is rows of four readings: bean, exhaust, airflow and drum, 2 bytes each,
 * little-endian. Its columns are as many bytes: all of the first column, then the second, third and
 * fourth. In a column the first reading stays, and in place of each other one stands that reading less
 * the reading before it, modulo 65,536; again 2 bytes each, little-endian.
 *
 * mopsienna_columns makes columns of `rows`, and mopsienna_rows makes rows of `columns`. Each reads its
 * first buffer and writes as many bytes to the start of its second; the two must not overlap. Later
 * bytes of the second stay as they were, and after a refusal all its bytes do. A length of 0 is taken,
 * and nothing is written.
 *
 * Each undoes the other, on all bytes whose length is a multiple of 8, 0 too, where it is given exactly
 * the bytes that the other wrote: not later bytes of that buffer, nor a part. Nothing in the bytes tells
 * whether they are rows or columns.
 *
 * Refusals of both, in this order:
 *   26  the length of the first buffer is no multiple of 8
 *   27  the second buffer is shorter than the first
 */
uint32_t mopsienna_columns(const uint8_t *rows, size_t rows_len, uint8_t *columns,
                           size_t columns_len);

uint32_t mopsienna_rows(const uint8_t *columns, size_t columns_len, uint8_t *rows, size_t rows_len);

#ifdef __cplusplus
}
#endif

#endif
