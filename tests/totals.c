/* Values of the least size of which the new total and the old one differ: 1,038 pages and 1,039, or
 * 270 and 271 of 1,024 bytes. Chains of either total, laid out here as document 01 has it, are read
 * and deleted; so are damaged ones, in which the numbers found with the first bytes decide which
 * total the value has, and ones of which a page claims more than its body. */
#include "page_size.h"

#include <stdio.h>
#include <string.h>

enum { SIZE = LEAST, IN_CELL = 15, FIRST = 3, ROOM = OLD + 1 };

static int checks, failures;

static void check(const char *what, int right) {
    checks++;
    if (!right) {
        failures++;
        printf("%s: wrong\n", what);
    }
}

static uint8_t value[SIZE], back[SIZE], store[(FIRST + OLD) * PAGE];
static uint8_t cell[40 + 4 * IN_CELL];
static uint32_t numbers[OLD], found[ROOM];

/* What the places of tables, buffers and `out` hold before a call. */
static const uint32_t FILLER = UINT32_C(0xA5A5A5A5);
static const uint64_t UNTOUCHED = UINT64_C(0xA5A5A5A5A5A5A5A5);

static void put16(uint8_t *at, unsigned n) {
    at[0] = (uint8_t)n;
    at[1] = (uint8_t)(n >> 8);
}

static void put32(uint8_t *at, uint32_t n) {
    put16(at, n & 0xFFFF);
    put16(at + 2, n >> 16);
}

/* Lays out the value on `pages` pages, the first of which has `most` numbers at most and the others
 * one, where `late` says so on the page of that index alone; value bytes take the room left. */
static void lay_out(int pages, int most, int late) {
    int named = IN_CELL;
    size_t at = 0;
    memset(store, 0, sizeof store);
    for (int i = 0; i < pages; i++) {
        uint8_t *page = store + (size_t)numbers[i] * PAGE;
        int count = pages - named < most ? pages - named : most;
        if (i > 0 && late > 0)
            count = i == late ? pages - named : 0;
        for (int k = 0; k < count; k++)
            put32(page + 4 + 4 * k, numbers[named + k]);
        named += count;
        size_t left = BODY - 4 * (size_t)count;
        size_t bytes = SIZE - at < left ? SIZE - at : left;
        memcpy(page + 4 + 4 * count, value + at, bytes);
        at += bytes;
        put16(page, (unsigned)count);
        put16(page + 2, (unsigned)bytes);
    }
    const uint8_t *hash = (const uint8_t *)"a hash of 32 bytes, not looked at";
    check("a cell", CALL(encode_cell)(SIZE, hash, numbers, IN_CELL, cell, sizeof cell) == 0);
}

/* The status, out[0] to out[1], and the table: the first `held` numbers, and the others untouched.
 */
static void read(const char *what, size_t room, uint32_t status, uint64_t first, uint64_t second,
                 int held) {
    uint64_t out[8] = {UNTOUCHED, UNTOUCHED, UNTOUCHED, UNTOUCHED,
                       UNTOUCHED, UNTOUCHED, UNTOUCHED, UNTOUCHED};
    memset(found, 0xA5, sizeof found);
    memset(back, 0xA5, sizeof back);
    uint32_t got =
        CALL(read_value)(cell, sizeof cell, store, sizeof store, found, room, back, SIZE, out);
    check(what, got == status && out[0] == first && out[1] == second && out[2] == UNTOUCHED);
    check(what, memcmp(found, numbers, 4 * (size_t)held) == 0 && found[held] == FILLER &&
                    found[OLD] == FILLER);
    check(what,
          status == 0 ? memcmp(back, value, SIZE) == 0 : back[0] == 0xA5 && back[SIZE - 1] == 0xA5);
}

static void deleted(const char *what, size_t room, uint32_t status, uint64_t first, int held) {
    uint64_t out[8] = {UNTOUCHED, UNTOUCHED};
    memset(found, 0xA5, sizeof found);
    uint32_t got = CALL(delete_value)(cell, sizeof cell, store, sizeof store, found, room, out);
    check(what, got == status && out[0] == first && out[1] == UNTOUCHED);
    check(what, memcmp(found, numbers, 4 * (size_t)held) == 0 && found[held] == FILLER &&
                    found[OLD] == FILLER);
}

/* The writer makes the pages of the new total, and takes no other count of numbers. */
static void written(void) {
    static uint8_t page[PAGE];
    int same = 1;
    lay_out(NEW, MOST, 0);
    for (int i = 0; i < NEW; i++)
        same = same &&
               CALL(write_value_page)(value, SIZE, numbers, NEW, (uint64_t)i, page, PAGE) == 0 &&
               memcmp(page, store + (size_t)numbers[i] * PAGE, PAGE) == 0;
    check("the pages of the new total", same);
    check("as many numbers as the old total",
          CALL(write_value_page)(value, SIZE, numbers, OLD, 0, page, PAGE) == MOPSIENNA_INDEX);
    check("the page past the new total",
          CALL(write_value_page)(value, SIZE, numbers, NEW, NEW, page, PAGE) == MOPSIENNA_INDEX);
}

/* Page 0 has as many numbers as a page can, and page 1 a number and bytes on the rest of it, page 2
 * bytes alone. Each is refused with one number or byte more; a delete ends with page 1. */
static void overfull(void) {
    uint8_t *first = store + (size_t)numbers[0] * PAGE, *second = store + (size_t)numbers[1] * PAGE;
    uint8_t *third = store + (size_t)numbers[2] * PAGE;
    const uint32_t refused = MOPSIENNA_VALUE_PAGE;
    lay_out(OLD, MOST, 0);
    put16(first, MOST + 1);
    read("a number more than a page has room for", OLD, refused, 0, UNTOUCHED, IN_CELL);
    deleted("a number more than a page has room for, deleted", OLD, refused, 0, IN_CELL);
    put16(first, MOST);
    put16(first + 2, 1);
    read("a byte behind all numbers", OLD, refused, 0, UNTOUCHED, IN_CELL);
    deleted("a byte behind all numbers, deleted", OLD, refused, 0, IN_CELL);
    put16(first + 2, 0);
    put16(second + 2, BODY - 4 + 1);
    read("a byte more behind one number", OLD, refused, 1, UNTOUCHED, IN_CELL + MOST);
    deleted("a byte more behind one number, deleted", OLD, refused, 1, IN_CELL + MOST);
    put16(second + 2, BODY - 4);
    put16(third + 2, BODY + 1);
    read("a byte more than a page has room for", OLD, refused, 2, UNTOUCHED, OLD);
    deleted("a byte more, behind the first bytes", OLD, 0, OLD, OLD);
    put16(third + 2, BODY);
    read("as many as there is room for", OLD, 0, SIZE, OLD, OLD);
}

int main(void) {
    for (size_t i = 0; i < SIZE; i++)
        value[i] = (uint8_t)(i * 7 + i / 251);
    for (uint32_t i = 0; i < OLD; i++)
        numbers[i] = FIRST + OLD - 1 - i;
    written();

    lay_out(NEW, MOST, 0);
    read("the new total read", OLD, 0, SIZE, NEW, NEW);
    deleted("the new total deleted", OLD, 0, NEW, NEW);
    read("the new total, a table of its length", NEW, MOPSIENNA_ROOM, UNTOUCHED, UNTOUCHED, 0);
    deleted("the new total deleted, a table of its length", NEW, MOPSIENNA_ROOM, UNTOUCHED, 0);

    lay_out(OLD, MOST, 0);
    read("the old total read", OLD, 0, SIZE, OLD, OLD);
    deleted("the old total deleted", OLD, 0, OLD, OLD);
    read("the old total, a short table", OLD - 1, MOPSIENNA_ROOM, UNTOUCHED, UNTOUCHED, 0);

    /* Page 1 has the first bytes, with which as many numbers are known as the new total; page 2 has
     * one more. */
    lay_out(OLD, MOST, 2);
    read("one more number behind the new total", OLD, MOPSIENNA_NUMBERS, UNTOUCHED, UNTOUCHED, NEW);
    deleted("one more number behind the new total, deleted", OLD, 0, NEW, NEW);

    /* Page 0 has the first bytes, with one number fewer than the new total; page 1 has the others.
     */
    lay_out(OLD, MOST - 1, 1);
    read("one number fewer than the new total", OLD, 0, SIZE, OLD, OLD);
    deleted("one number fewer than the new total, deleted", OLD, MOPSIENNA_NUMBERS, UNTOUCHED,
            NEW - 1);

    overfull();

    if (failures == 0)
        printf("totals, pages of %d bytes: %d checks, none wrong\n", PAGE, checks);
    return failures != 0;
}
