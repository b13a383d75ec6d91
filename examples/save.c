/* A first program: a store in memory that holds one value, saved three times. The power is cut in the
 * third save, and the second one reads as before, to the byte; exit status 1 if it does not. */
#include "mopsienna.h"
#include <stdio.h>
#include <stdlib.h>
#include <string.h>

enum { PAGE = 4096, LENGTH = 8192, ROOM = 64, SIZE = 61381 };

/* What the host keeps of its last save. Here the store is new: page 0 is the host's, no other is used. */
static struct root {
    uint32_t head, bump, cell_len;
    uint8_t cell[100];
} root = {.head = 0, .bump = 1};
static uint8_t store[(size_t)LENGTH * PAGE];
static uint8_t map[LENGTH / 8];  /* a bit for each page, to find a number that occurs twice */
static uint32_t length = LENGTH; /* the store's, in pages: no save takes it back */
static int power_is_cut;

static void must(int right) {
    if (!right) {
        puts("not as it should be");
        exit(1);
    }
}

/* Writes a page. Once the power is cut, odd pages are lost. */
static void write_page(uint32_t number, const uint8_t page[PAGE]) {
    if (!power_is_cut || number % 2 == 0)
        memcpy(store + (size_t)number * PAGE, page, PAGE);
}

/* One more save: this value takes the place of the last one, if there is one. */
static void save(const uint8_t value[SIZE]) {
    struct root new = root;
    size_t used = (size_t)root.bump * PAGE;
    uint32_t pages[ROOM], entries[ROOM], freed[ROOM], numbers[ROOM], list_numbers[ROOM];
    uint8_t page[PAGE], buffer[2 * PAGE], hash[32] = {0};
    uint64_t out[8] = {0}, count = 0;
    if (root.cell_len != 0)
        must(mopsienna_delete_value(root.cell, root.cell_len, store, used, freed, ROOM, out) == 0);
    uint64_t freed_len = out[0]; /* 0 if there is no last value */
    must(mopsienna_read_list(store, used, root.head, pages, ROOM, entries, ROOM, map, sizeof map, out) == 0);
    uint64_t P = out[0], L = out[1];
    must(mopsienna_total(SIZE, out) == 0);
    uint64_t total = out[0], in_cell = out[1];
    /* A number for each page of the value. Count and length move on, the bump stays. */
    for (uint64_t i = 0; i < total; i++) {
        must(mopsienna_hand_out(root.bump, length, P, L, count, pages, ROOM, entries, ROOM, out) == 0);
        numbers[i] = (uint32_t)out[0];
        count = out[1];
        length = (uint32_t)out[2];
    }
    /* The value's pages, and the cell that leads to them. */
    for (uint64_t i = 0; i < total; i++) {
        must(mopsienna_write_value_page(value, SIZE, numbers, total, i, page, PAGE) == 0);
        write_page(numbers[i], page);
    }
    must(mopsienna_encode_cell(SIZE, hash, numbers, in_cell, new.cell, sizeof new.cell) == 0);
    new.cell_len = 40 + 4 * (uint32_t)in_cell;
    /* The new free list, with the freed numbers, and the pages of it that are to be written. */
    must(mopsienna_finish(root.bump, length, P, L, count, pages, ROOM, entries, ROOM, freed, freed_len,
                          buffer, sizeof buffer, list_numbers, ROOM, map, sizeof map, out) == 0);
    new.head = (uint32_t)out[0];
    new.bump = (uint32_t)out[1];
    length = (uint32_t)out[2];
    for (uint64_t i = 0; i < out[5]; i++)
        write_page(list_numbers[i], buffer + i * PAGE);
    /* The root comes last. On a disk: fsync before it, and again behind it. */
    if (!power_is_cut)
        root = new;
}

/* Reads what the root leads to: the free list into `entries`, and the value, which must be this one. */
static void read_back(const char *name, uint32_t entries[ROOM], const uint8_t expected[SIZE]) {
    static uint8_t value[SIZE];
    size_t used = (size_t)root.bump * PAGE;
    uint32_t pages[ROOM], numbers[ROOM];
    uint64_t out[8];
    must(mopsienna_read_value(root.cell, root.cell_len, store, used, numbers, ROOM, value, SIZE, out) == 0);
    must(out[0] == SIZE && memcmp(value, expected, SIZE) == 0);
    must(mopsienna_read_list(store, used, root.head, pages, ROOM, entries, ROOM, map, sizeof map, out) == 0);
    printf("%s: reads; head %u, bump %u, %u free pages\n", name, root.head, root.bump, (unsigned)out[1]);
}

int main(void) {
    static uint8_t value[3][SIZE];
    uint32_t before[ROOM] = {0}, after[ROOM] = {0};
    for (int i = 0; i < 3 * SIZE; i++)
        value[i / SIZE][i % SIZE] = (uint8_t)(i * 7 + i / 251);
    save(value[0]);
    read_back("save 1", before, value[0]);
    save(value[1]);
    read_back("save 2", before, value[1]);
    power_is_cut = 1;
    save(value[2]);
    puts("save 3: cut; its odd pages and its root are lost");
    read_back("save 2", after, value[1]);
    must(memcmp(before, after, sizeof after) == 0);
}
