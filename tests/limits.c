/* The limits, tried in a thread with a stack of 256 KiB: the largest bump and the largest page count with
 * their bit maps, counts that no list has, tables, buffers and maps one place short, stores that end within a
 * page, a store of 1 TiB whose list goes round, long lists, ten million freed numbers, a finish that uses up
 * 333,334 list pages, the largest value, a store from its first save on. A finish nests calls while it uses
 * up list pages, a fixed number at most, and then goes on in a loop; nothing else that takes stack grows with
 * its input. */
#define _DEFAULT_SOURCE
#include "page_size.h"

#include <pthread.h>
#include <stdio.h>
#include <stdlib.h>
#include <string.h>
#include <sys/mman.h>

#define STACK (256 * 1024)

/* The bytes of a page of the machine, of which one stands before all memory that is mapped and one behind. */
#define GUARD 4096

static int failures;
static int checks;

/* So many bytes in whole pages of the machine. */
static size_t mapped(size_t bytes) { return (bytes + GUARD - 1) / GUARD * GUARD; }

/*
 * Zeros that take memory only where they are touched. Nothing behind them can be read or written, and nothing
 * before the first page of the machine.
 */
static uint8_t *new_memory(size_t bytes) {
    const size_t inside = mapped(bytes);
    uint8_t *around =
        mmap(NULL, inside + 2 * GUARD, PROT_NONE, MAP_PRIVATE | MAP_ANONYMOUS | MAP_NORESERVE, -1, 0);
    if (around == MAP_FAILED || mprotect(around + GUARD, inside, PROT_READ | PROT_WRITE) != 0) {
        perror("limits: mmap");
        exit(2);
    }
    return around + GUARD + inside - bytes;
}

static void free_memory(uint8_t *memory, size_t bytes) {
    const size_t inside = mapped(bytes);
    munmap(memory + bytes - inside - GUARD, inside + 2 * GUARD);
}

static uint8_t *new_store(size_t pages) { return new_memory(pages * PAGE); }

static void free_store(uint8_t *store, size_t pages) { free_memory(store, pages * PAGE); }

/* What a place of `out` or of a table holds before a call. */
static const uint32_t UNTOUCHED = UINT32_C(0xA5A5A5A5);

static uint32_t *new_table(size_t length) {
    uint32_t *table = malloc(length * sizeof *table);
    if (table == NULL) {
        perror("limits: malloc");
        exit(2);
    }
    for (size_t i = 0; i < length; i++)
        table[i] = UNTOUCHED;
    return table;
}

/* The places of `out` from this one on are untouched. */
static int untouched(const uint64_t out[8], int from) {
    int right = 1;
    for (int i = from; i < 8; i++)
        right = right && out[i] == UNTOUCHED;
    return right;
}

/* How many bytes a bit map of so many bits has. */
static size_t map_bytes(uint64_t bits) { return (bits + 7) / 8; }

/* A bit map of so many bytes, which hold anything. */
static uint8_t *new_map(size_t length) { return memset(new_memory(length), 0xA5, length); }

static void free_map(uint8_t *map, size_t length) { free_memory(map, length); }

/* All bytes of a map are this one. */
static int map_is(const uint8_t *map, size_t length, uint8_t byte) {
    return length == 0 || (map[0] == byte && memcmp(map, map + 1, length - 1) == 0);
}

static void fill(uint64_t out[8]) {
    for (int i = 0; i < 8; i++)
        out[i] = UNTOUCHED;
}

static void put(uint8_t *at, int bytes, uint32_t number) {
    for (int i = 0; i < bytes; i++)
        at[i] = (uint8_t)(number >> (8 * i));
}

/* Writes a full list page. */
static void write_page(uint8_t *store, uint32_t page, uint32_t prev, const uint32_t entries[FULL]) {
    uint8_t *b = store + (size_t)page * PAGE;
    put(b, 4, prev);
    put(b + 4, 2, FULL);
    for (uint32_t i = 0; i < FULL; i++)
        put(b + 6 + 4 * i, 4, entries[i]);
}

static void expect(const char *call, int right) {
    checks++;
    if (!right) {
        failures++;
        printf("%s: wrong\n", call);
    }
}

/* The pages of the sparse store, which are 1 TiB, and the bump whose map is the largest. The program's
 * argument, a power of 2, is put for both, and leaves out what else takes so much. */
static size_t sparse_pages = ((size_t)1 << 40) / PAGE;
static uint32_t mapped_bump = MOPSIENNA_MAX_BUMP;

/* Two full pages that point at each other in a sparse store: the walk sees that it has come back, and does
 * not come to the map, which is too short. */
static void endless(void) {
    const size_t pages = sparse_pages;
    uint8_t *store = new_store(pages), map[1] = {0xA5};
    uint32_t *table = new_table(2);
    uint32_t entries[FULL];
    uint64_t out[8];
    fill(out);
    for (uint32_t i = 0; i < FULL; i++)
        entries[i] = i + 1;
    write_page(store, 1, (uint32_t)pages - 1, entries);
    write_page(store, (uint32_t)pages - 1, 1, entries);

    uint32_t got = CALL(read_list)(store, pages * PAGE, 1, table, 1, table + 1, 1, map, 1, out);

    expect("two pages that point at each other", got == MOPSIENNA_CHAIN && untouched(out, 0) &&
                                                     table[0] == UNTOUCHED && table[1] == UNTOUCHED &&
                                                     map[0] == 0xA5);
    free(table);
    free_store(store, pages);
}

/* A store of more than 2^32 pages, of which 2^32 - 1 count. Its map has 512 MiB. */
static void largest_store(void) {
    const size_t pages = ((size_t)1 << 32) + 9, map_len = (size_t)1 << 29;
    uint8_t *store = new_store(pages), *map = new_map(map_len);
    uint32_t numbers[1] = {UNTOUCHED}, entries[2] = {UNTOUCHED, UNTOUCHED};
    uint64_t out[8];
    put(store + PAGE + 4, 2, 2);
    put(store + PAGE + 6, 4, UINT32_MAX - 1);
    put(store + PAGE + 10, 4, 2);

    fill(out);
    uint32_t got = CALL(read_list)(store, pages * PAGE, 1, numbers, 1, entries, 2, map, map_len - 1, out);
    expect("the largest page count, and a map of a byte less",
           got == MOPSIENNA_MAP && untouched(out, 0) && map_is(map, map_len, 0xA5));

    got = CALL(read_list)(store, pages * PAGE, 1, numbers, 1, entries, 2, map, map_len, out);
    expect("the largest page count", got == 0 && out[0] == 1 && out[1] == 2 && untouched(out, 2) &&
                                         numbers[0] == 1 && entries[0] == UINT32_MAX - 1 && entries[1] == 2 &&
                                         map_is(map, map_len, 0));
    free_map(map, map_len);
    free_store(store, pages);
}

/* A list of 3,000 full pages, in tables that are one place longer. Its pages are every other one at the front
 * of the store, from the bottom up, and its entries all pages behind them, in another order. */
static void long_list(void) {
    const uint32_t list = 3000, listed = list * FULL, step = 7919;
    const size_t pages = 2 * list + listed, map_len = map_bytes(pages);
    uint8_t *store = new_store(pages), *map = new_map(map_len);
    uint32_t *numbers = new_table(list + 1);
    uint32_t *entries = new_table(listed + 1);
    uint32_t *expected = new_table(listed);
    uint64_t out[8];
    for (uint32_t i = 0; i < listed; i++)
        expected[i] = 2 * list + (uint32_t)((uint64_t)i * step % listed);
    for (uint32_t p = 0; p < list; p++)
        write_page(store, 2 * p + 1, p == 0 ? 0 : 2 * p - 1, expected + p * FULL);
    uint8_t *last = store + (size_t)(2 * list - 1) * PAGE + 6 + 4 * (FULL - 1);

    fill(out);
    uint32_t got = CALL(read_list)(store, pages * PAGE, 2 * list - 1, numbers, list + 1, entries, listed + 1,
                                   map, map_len - 1, out);
    expect("a list of 3,000 full pages, and a map of a byte less",
           got == MOPSIENNA_MAP && untouched(out, 0) && map_is(map, map_len, 0xA5));

    put(last, 4, 1);
    got = CALL(read_list)(store, pages * PAGE, 2 * list - 1, numbers, list + 1, entries, listed + 1, map,
                          map_len, out);
    expect("the bottom page as the last entry", got == MOPSIENNA_REPEAT && untouched(out, 0) &&
                                                    numbers[0] == UNTOUCHED && entries[0] == UNTOUCHED &&
                                                    map_is(map, map_len, 0));

    put(last, 4, expected[listed - 1]);
    memset(map, 0xA5, map_len);
    got = CALL(read_list)(store, pages * PAGE, 2 * list - 1, numbers, list + 1, entries, listed + 1, map,
                          map_len, out);
    int right = got == 0 && out[0] == list && out[1] == listed && untouched(out, 2) &&
                memcmp(entries, expected, listed * sizeof *entries) == 0 && map_is(map, map_len, 0);
    for (uint32_t p = 0; p < list; p++)
        right = right && numbers[p] == 2 * p + 1;
    right = right && numbers[list] == UNTOUCHED && entries[listed] == UNTOUCHED;
    expect("a list of 3,000 full pages", right);
    free(expected);
    free(entries);
    free(numbers);
    free_map(map, map_len);
    free_store(store, pages);
}

/* A list page of so many bytes has this previous number and these entries, and zeros behind them. */
static int page_is(const uint8_t *b, size_t bytes, uint32_t prev, const uint32_t *entries, uint64_t count) {
    uint8_t page[PAGE] = {0};
    put(page, 4, prev);
    put(page + 4, 2, (uint32_t)count);
    for (uint64_t i = 0; i < count; i++)
        put(page + 6 + 4 * i, 4, entries[i]);
    return memcmp(page, b, bytes) == 0;
}

/* How many of a list's entries stand below page j. Where they would just fill the pages below the head, it
 * has one of them, and the page under it a place free. */
static uint64_t below(uint64_t j, uint64_t full, uint64_t P, uint64_t L) {
    if (j == P)
        return L;
    return j > 0 && j == P - 1 && L == j * full ? L - 1 : j * full;
}

/* A finish at pages of 16 + 4 * words bytes. */
uint32_t sized_finish(uint64_t words, uint32_t bump, uint32_t length, uint64_t P, uint64_t L, uint64_t count,
                      uint32_t *pages, size_t pages_len, uint32_t *entries, size_t entries_len,
                      const uint32_t *freed, size_t freed_len, uint8_t *buffer, size_t buffer_len,
                      uint32_t *numbers, size_t numbers_len, uint8_t *map, size_t map_len, uint64_t out[8]);

/* A save without a number handed out, on a list of full pages. */
struct save {
    size_t bytes, full, room, entries_len, freed_len, map_len;
    uint32_t bump, list;
    uint32_t *pages, *entries, *freed, *numbers;
    uint8_t *buffer, *map;
};

static uint32_t finish(struct save *v, uint64_t out[8]) {
    const uint64_t P = v->list, L = P * v->full;
    if (v->bytes == PAGE)
        return CALL(finish)(v->bump, 8192, P, L, 0, v->pages, v->room, v->entries, v->entries_len, v->freed,
                            v->freed_len, v->buffer, v->room * v->bytes, v->numbers, v->room, v->map,
                            v->map_len, out);
    return sized_finish((v->bytes - 16) / 4, v->bump, 8192, P, L, 0, v->pages, v->room, v->entries,
                        v->entries_len, v->freed, v->freed_len, v->buffer, v->room * v->bytes, v->numbers,
                        v->room, v->map, v->map_len, out);
}

/* A save that frees so many numbers, at pages of so many bytes, on a list of so many full pages, of which
 * `kept` are not written. */
static void large_save(const char *call, size_t bytes, uint32_t freed_count, uint32_t list, uint32_t kept) {
    const size_t full = (bytes - 8) / 4, listed = list * full, room = list + freed_count / full + 2;
    struct save v = {.bytes = bytes, .full = full, .room = room, .freed_len = freed_count, .list = list};
    v.entries_len = listed + freed_count + room;
    v.pages = new_table(room);
    v.entries = new_table(v.entries_len);
    v.freed = new_table(freed_count);
    v.numbers = new_table(room);
    v.buffer = new_memory(room * bytes);
    uint64_t out[8];
    /* The entries, the pages and the freed numbers, one after another from 1 up, which are all below the
     * bump. */
    v.bump = 1;
    for (size_t i = 0; i < listed; i++)
        v.entries[i] = v.bump++;
    for (uint32_t p = 0; p < list; p++)
        v.pages[p] = v.bump++;
    for (uint32_t i = 0; i < freed_count; i++)
        v.freed[i] = v.bump++;
    v.map_len = map_bytes(v.bump);
    v.map = new_map(v.map_len);
    fill(out);

    v.freed[freed_count - 1] = 1;
    uint32_t got = finish(&v, out);
    expect("the least number once more, freed last", got == MOPSIENNA_REPEAT && untouched(out, 0) &&
                                                         v.numbers[0] == UNTOUCHED && v.buffer[0] == 0 &&
                                                         map_is(v.map, v.map_len, 0));

    v.freed[freed_count - 1] = v.bump - 1;
    memset(v.map, 0xA5, v.map_len);
    got = finish(&v, out);

    /* Nothing was handed out: what the list holds is what it held, what was freed, and what the bump gave. */
    int right = got == 0 && untouched(out, 6) && out[0] == v.pages[out[3] - 1] &&
                out[3] + out[4] == list + listed + freed_count + (out[1] - v.bump) &&
                (out[3] - 1) * full <= out[4] && out[4] <= out[3] * full && out[3] - out[5] == kept;
    for (uint64_t j = kept; right && j < out[3]; j++) {
        const uint64_t first = below(j, full, out[3], out[4]), next = below(j + 1, full, out[3], out[4]);
        right = v.numbers[j - kept] == v.pages[j] &&
                page_is(v.buffer + (j - kept) * bytes, bytes, j == 0 ? 0 : v.pages[j - 1], v.entries + first,
                        next - first);
    }
    right = right && v.pages[out[3]] == UNTOUCHED && v.entries[out[4]] == UNTOUCHED &&
            v.numbers[out[5]] == UNTOUCHED && v.buffer[out[5] * bytes] == 0 && map_is(v.map, v.map_len, 0);
    expect(call, right);
    free_map(v.map, v.map_len);
    free_memory(v.buffer, room * bytes);
    free(v.numbers);
    free(v.freed);
    free(v.entries);
    free(v.pages);
}

/* The largest value, written page by page, read and deleted, and one of a byte more. */
static void largest_value(void) {
    const size_t size = MAX_SIZE;
    const uint32_t total = MAX_TOTAL, first = 7;
    const size_t pages = first + total;
    uint8_t *store = new_store(pages);
    uint8_t *value = new_memory(size + 1);
    uint8_t *back = new_memory(size + 1);
    uint32_t *numbers = new_table(total);
    uint32_t *found = new_table(total + 1);
    uint8_t hash[32] = {0}, cell[100], page[1] = {0xA5};
    uint64_t out[8];
    for (size_t i = 0; i < size; i++)
        value[i] = (uint8_t)(i ^ (i >> 9) ^ (i >> 17));
    /* The pages stand in the store from its end down. */
    for (uint32_t i = 0; i < total; i++)
        numbers[i] = first + total - 1 - i;

    int written = 1;
    for (uint32_t i = 0; i < total; i++)
        written = written && CALL(write_value_page)(value, size, numbers, total, i,
                                                    store + (size_t)numbers[i] * PAGE, PAGE) == 0;
    expect("the largest value, written",
           written && CALL(encode_cell)(size, hash, numbers, 15, cell, sizeof cell) == 0);

    fill(out);
    uint32_t got =
        CALL(read_value)(cell, sizeof cell, store, pages * PAGE, found, total + 1, back, size + 1, out);
    expect("the largest value, read", got == 0 && out[0] == size && out[1] == total && untouched(out, 2) &&
                                          back[size] == 0 && memcmp(value, back, size) == 0 &&
                                          found[total] == UNTOUCHED &&
                                          memcmp(numbers, found, total * sizeof *numbers) == 0);

    fill(out);
    memset(found, 0, total * sizeof *found);
    got = CALL(delete_value)(cell, sizeof cell, store, pages * PAGE, found, total + 1, out);
    expect("the largest value, deleted", got == 0 && out[0] == total && untouched(out, 1) &&
                                             memcmp(numbers, found, total * sizeof *numbers) == 0);

    got = CALL(write_value_page)(value, size + 1, numbers, total, 0, page, 1);
    expect("a byte more, written", got == MOPSIENNA_SIZE && page[0] == 0xA5);
    cell[0] += 1;
    fill(out);
    got = CALL(read_value)(cell, sizeof cell, store, pages * PAGE, found, total + 1, back, size + 1, out);
    expect("a byte more, read", got == MOPSIENNA_SIZE && untouched(out, 0));
    got = CALL(delete_value)(cell, sizeof cell, store, pages * PAGE, found, total + 1, out);
    expect("a byte more, deleted", got == MOPSIENNA_SIZE && untouched(out, 0));
    free(found);
    free(numbers);
    free_memory(back, size + 1);
    free_memory(value, size + 1);
    free_store(store, pages);
}

/* What the host of a store of so many pages keeps, and a save on it. The numbers below `bump` that are not in
 * the list are in use. */
enum { STORE_PAGES = 16384, STORE_ROOM = 2048, STORE_MAP = STORE_PAGES / 8 };

struct host {
    uint8_t *store;
    uint32_t head, bump, length;
    uint64_t P, L, count;
    uint32_t pages[STORE_ROOM], entries[STORE_ROOM];
};

/* A value, and the numbers of its pages. */
struct stored {
    const uint8_t *value;
    size_t size, cell_len;
    uint64_t total, room;
    uint32_t numbers[STORE_ROOM];
    uint8_t cell[100];
};

/* Hands out the numbers of a value's pages and writes these, and its cell. */
static int put_value(struct host *h, struct stored *s) {
    const uint8_t hash[32] = {0};
    uint64_t out[8];
    fill(out);
    int right = CALL(total)(s->size, out) == 0 && out[0] <= STORE_ROOM;
    s->total = out[0];
    s->room = out[3];
    s->cell_len = 40 + 4 * out[1];
    for (uint64_t i = 0; right && i < s->total; i++) {
        right = CALL(hand_out)(h->bump, h->length, h->P, h->L, h->count, h->pages, STORE_ROOM, h->entries,
                               STORE_ROOM, out) == 0 &&
                out[2] <= STORE_PAGES;
        s->numbers[i] = (uint32_t)out[0];
        h->count = out[1];
        h->length = (uint32_t)out[2];
    }
    for (uint64_t i = 0; right && i < s->total; i++)
        right = CALL(write_value_page)(s->value, s->size, s->numbers, s->total, i,
                                       h->store + (size_t)s->numbers[i] * PAGE, PAGE) == 0;
    return right &&
           CALL(encode_cell)(s->size, hash, s->numbers, (s->cell_len - 40) / 4, s->cell, sizeof s->cell) == 0;
}

/* The value is read, and its pages' numbers are those that a delete tells. */
static int value_stands(const struct host *h, const struct stored *s) {
    uint32_t *found = new_table(s->room);
    uint8_t *back = new_memory(s->size);
    uint64_t out[8];
    int right = CALL(read_value)(s->cell, s->cell_len, h->store, (size_t)STORE_PAGES * PAGE, found, s->room,
                                 back, s->size, out) == 0 &&
                out[0] == s->size && out[1] == s->total && memcmp(back, s->value, s->size) == 0 &&
                memcmp(found, s->numbers, s->total * sizeof *found) == 0;
    memset(found, 0, s->room * sizeof *found);
    right = right &&
            CALL(delete_value)(s->cell, s->cell_len, h->store, (size_t)STORE_PAGES * PAGE, found, s->room,
                               out) == 0 &&
            out[0] == s->total && memcmp(found, s->numbers, s->total * sizeof *found) == 0;
    free_memory(back, s->size);
    free(found);
    return right;
}

/* The list is read as the host has it in its tables. */
static int list_stands(const struct host *h) {
    uint32_t *pages = new_table(STORE_ROOM), *entries = new_table(STORE_ROOM);
    uint8_t *map = new_map(STORE_MAP);
    uint64_t out[8];
    int right = CALL(read_list)(h->store, (size_t)STORE_PAGES * PAGE, h->head, pages, STORE_ROOM, entries,
                                STORE_ROOM, map, STORE_MAP, out) == 0 &&
                out[0] == h->P && out[1] == h->L && memcmp(pages, h->pages, h->P * sizeof *pages) == 0 &&
                memcmp(entries, h->entries, h->L * sizeof *entries) == 0;
    free_map(map, STORE_MAP);
    free(entries);
    free(pages);
    return right;
}

/* Finishes the save and writes its list pages, which until then are looked up in the buffer, and a page of
 * the value in the store. The next save begins. */
static int end_save(struct host *h, const uint32_t *freed, size_t freed_len, const struct stored *s) {
    uint32_t *numbers = new_table(STORE_ROOM);
    uint8_t *buffer = new_store(STORE_ROOM), *map = new_map(STORE_MAP);
    uint64_t out[8], place[8];
    fill(out);
    int right = CALL(finish)(h->bump, h->length, h->P, h->L, h->count, h->pages, STORE_ROOM, h->entries,
                             STORE_ROOM, freed, freed_len, buffer, (size_t)STORE_ROOM * PAGE, numbers,
                             STORE_ROOM, map, STORE_MAP, out) == 0;
    for (uint64_t i = 0; right && i < out[5]; i++)
        right = CALL(lookup)(numbers, out[5], buffer, out[5] * PAGE, h->store, (size_t)STORE_PAGES * PAGE,
                             numbers[i], place) == 0 &&
                place[0] == 0 && place[1] == i * PAGE;
    right = right &&
            CALL(lookup)(numbers, out[5], buffer, out[5] * PAGE, h->store, (size_t)STORE_PAGES * PAGE,
                         s->numbers[0], place) == 0 &&
            place[0] == 1 && place[1] == (uint64_t)s->numbers[0] * PAGE;
    for (uint64_t i = 0; right && i < out[5]; i++)
        memcpy(h->store + (size_t)numbers[i] * PAGE, buffer + i * PAGE, PAGE);
    h->head = (uint32_t)out[0];
    h->bump = (uint32_t)out[1];
    h->length = (uint32_t)out[2];
    h->P = out[3];
    h->L = out[4];
    h->count = 0;
    free_map(map, STORE_MAP);
    free_store(buffer, STORE_ROOM);
    free(numbers);
    return right;
}

/* A store whose first 600 pages are free but in no list yet. A save frees them and writes a value of 2^20
 * bytes, the next one deletes it and writes one of two pages. */
static void two_saves(void) {
    enum { FREE = 600, BUMP = 1001, SIZE = 1 << 20 };
    static struct host h, before;
    static struct stored first, second;
    uint8_t *value = new_memory(SIZE);
    uint32_t *freed = new_table(FREE);
    for (size_t i = 0; i < SIZE; i++)
        value[i] = (uint8_t)(i ^ (i >> 9));
    for (uint32_t i = 0; i < FREE; i++)
        freed[i] = 1 + i;
    h.store = new_store(STORE_PAGES);
    h.bump = BUMP;
    first.value = second.value = value;
    first.size = SIZE;
    second.size = BODY + 1;

    expect("the first value put",
           put_value(&h, &first) && first.numbers[0] == BUMP && h.count == first.total);
    expect("the first save", end_save(&h, freed, FREE, &first));
    const uint64_t from_bump = (FREE + FULL - 1) / FULL;
    expect("the first save's list",
           h.P == from_bump && h.L == FREE && h.bump == BUMP + first.total + from_bump &&
               memcmp(h.entries, freed, FREE * sizeof *freed) == 0 && list_stands(&h));
    expect("the first save's value", value_stands(&h, &first));

    before = h;
    expect("the second value put", put_value(&h, &second) && second.total == 2 && h.count == 2 &&
                                       second.numbers[0] == FREE && second.numbers[1] == FREE - 1);
    expect("the second save", end_save(&h, first.numbers, first.total, &second));
    expect("the second save's list",
           h.P + h.L == before.P + before.L - 2 + first.total + (h.bump - before.bump) &&
               h.bump == before.bump && list_stands(&h));
    expect("the second save's value", value_stands(&h, &second));
    expect("the first save's list, behind the second", list_stands(&before));
    expect("the first save's value, behind the second", value_stands(&before, &first));
    free(freed);
    free_memory(value, SIZE);
    free_store(h.store, STORE_PAGES);
}

/* Hands out one number from a save without a list. */
static void hand_out(const char *call, uint32_t bump, uint64_t count, uint32_t status, uint64_t number) {
    const uint32_t none[1] = {0};
    uint64_t out[8], grown[8];
    fill(out);
    fill(grown);
    mopsienna_grow((uint32_t)number, grown);
    uint32_t got = CALL(hand_out)(bump, 0, 0, 0, count, none, 0, none, 0, out);
    int right = got == status && untouched(out, status == 0 ? 3 : 0);
    if (status == 0)
        right = right && out[0] == number && out[1] == count + 1 && out[2] == grown[0];
    expect(call, right);
}

/* The largest bump, and counts that no save has. */
static void bumps(void) {
    const uint32_t most = MOPSIENNA_MAX_BUMP;
    uint32_t tables[2] = {1, 2};
    uint64_t out[8];
    hand_out("the last number", most - 1, 0, 0, most - 1);
    hand_out("the last number, counted", most - 10, 9, 0, most - 1);
    hand_out("a number past the last", most, 0, MOPSIENNA_LIMIT, 0);
    hand_out("a count past the last", most - 10, 10, MOPSIENNA_LIMIT, 0);
    hand_out("the largest count", 1, UINT64_MAX, MOPSIENNA_LIMIT, 0);
    hand_out("no bump", 0, 0, MOPSIENNA_STATE, 0);
    hand_out("a bump past the last", most + 1, 0, MOPSIENNA_STATE, 0);

    const uint64_t large[] = {1, 2, FULL + 1, UINT64_C(1) << 32, UINT64_MAX / FULL, UINT64_MAX};
    for (size_t p = 0; p < sizeof large / sizeof *large; p++)
        for (size_t l = 0; l < sizeof large / sizeof *large; l++) {
            if (large[p] == 1 && large[l] == 1)
                continue;
            fill(out);
            uint32_t got = CALL(hand_out)(9, 9, large[p], large[l], 0, tables, 1, tables + 1, 1, out);
            expect("P and L of no list", got == MOPSIENNA_STATE && untouched(out, 0));
        }
}

/* A finish that frees one number, with these places lent beside what it needs. */
static void freed_one(const char *call, uint32_t bump, size_t pages_len, size_t entries_len,
                      size_t buffer_len, size_t numbers_len, size_t map_len, uint32_t status) {
    const uint32_t freed[1] = {1};
    uint32_t pages[2] = {UNTOUCHED, UNTOUCHED}, entries[2] = {UNTOUCHED, UNTOUCHED};
    uint32_t numbers[2] = {UNTOUCHED, UNTOUCHED};
    uint8_t buffer[PAGE + 1], expected[PAGE + 1], *map = new_map(map_len);
    uint64_t out[8];
    memset(buffer, 0xA5, sizeof buffer);
    memset(expected, 0xA5, sizeof expected);
    fill(out);

    uint32_t got = CALL(finish)(bump, bump, 0, 0, 0, pages, pages_len, entries, entries_len, freed, 1, buffer,
                                buffer_len, numbers, numbers_len, map, map_len, out);

    int done = status == 0, judged = done || status == MOPSIENNA_TABLES || status == MOPSIENNA_BUFFER;
    if (done) {
        memset(expected, 0, PAGE);
        expected[4] = expected[6] = 1;
    }
    int right = got == status && memcmp(buffer, expected, sizeof buffer) == 0 &&
                pages[0] == (done ? bump : UNTOUCHED) && pages[1] == UNTOUCHED &&
                entries[0] == (done ? 1 : UNTOUCHED) && entries[1] == UNTOUCHED &&
                numbers[0] == (done ? bump : UNTOUCHED) && numbers[1] == UNTOUCHED &&
                map_is(map, map_len, judged ? 0 : 0xA5);
    if (done)
        right = right && out[0] == bump && out[1] == (uint64_t)bump + 1 && out[3] == 1 && out[4] == 1 &&
                out[5] == 1 && untouched(out, 6);
    else
        right = right && untouched(out, 0);
    expect(call, right);
    free_map(map, map_len);
}

static void finishes(void) {
    const uint32_t most = MOPSIENNA_MAX_BUMP;
    freed_one("just the room that it needs", 30, 1, 1, PAGE, 1, 4, 0);
    freed_one("a bump past the last for a list page", most, 1, 1, PAGE, 1, 0, MOPSIENNA_LIMIT);
    freed_one("a page table of no place", 30, 0, 1, PAGE, 1, 4, MOPSIENNA_TABLES);
    freed_one("an entry table of no place", 30, 1, 0, PAGE, 1, 4, MOPSIENNA_TABLES);
    freed_one("a buffer of a byte less", 30, 1, 1, PAGE - 1, 1, 4, MOPSIENNA_BUFFER);
    freed_one("a number list of no place", 30, 1, 1, PAGE, 0, 4, MOPSIENNA_BUFFER);
    freed_one("a map of a byte less", 30, 1, 1, PAGE, 1, 3, MOPSIENNA_MAP);
    if (mapped_bump == most)
        freed_one("the last bump for a list page", most - 1, 1, 1, PAGE, 1, map_bytes(most - 1), 0);
}

/* A save at the largest bump that frees the last number below it, once or twice. The map has 512 MiB. */
static void largest_map(void) {
    const uint32_t bump = mapped_bump, freed[2] = {bump - 1, bump - 1};
    const size_t map_len = map_bytes(bump);
    uint32_t pages[1] = {3}, entries[3] = {1, 2, UNTOUCHED}, numbers[1] = {UNTOUCHED};
    uint8_t buffer[PAGE], *map = new_map(map_len);
    uint64_t out[8];

    fill(out);
    uint32_t got = CALL(finish)(bump, bump, 1, 2, 0, pages, 1, entries, 3, freed, 1, buffer, PAGE, numbers, 1,
                                map, map_len - 1, out);
    expect("the largest bump, and a map of a byte less",
           got == MOPSIENNA_MAP && untouched(out, 0) && map_is(map, map_len, 0xA5));

    got = CALL(finish)(bump, bump, 1, 2, 0, pages, 1, entries, 3, freed, 2, buffer, PAGE, numbers, 1, map,
                       map_len, out);
    expect("the last number twice", got == MOPSIENNA_REPEAT && untouched(out, 0) && entries[1] == 2 &&
                                        numbers[0] == UNTOUCHED && map_is(map, map_len, 0));

    memset(map, 0xA5, map_len);
    got = CALL(finish)(bump, bump, 1, 2, 0, pages, 1, entries, 3, freed, 1, buffer, PAGE, numbers, 1, map,
                       map_len, out);
    expect("the largest bump", got == 0 && out[0] == 2 && out[1] == bump && out[2] == bump && out[3] == 1 &&
                                   out[4] == 3 && out[5] == 1 && untouched(out, 6) && pages[0] == 2 &&
                                   entries[0] == 1 && entries[1] == bump - 1 && entries[2] == 3 &&
                                   numbers[0] == 2 && page_is(buffer, PAGE, 0, entries, 3) &&
                                   map_is(map, map_len, 0));
    free_map(map, map_len);
}

/* A store that ends within its third page: that page is not there. */
static void partial_store(void) {
    const size_t length = 3 * PAGE - 1;
    uint8_t *store = new_store(3), value[1] = {0xA5}, cell[44], map[1] = {0xA5};
    uint32_t numbers[1] = {2}, tables[2] = {UNTOUCHED, UNTOUCHED};
    const uint8_t hash[32] = {0};
    uint64_t out[8];

    put(store + PAGE, 4, 0);
    put(store + PAGE + 4, 2, 1);
    put(store + PAGE + 6, 4, 2);
    fill(out);
    uint32_t got = CALL(read_list)(store, length, 1, tables, 1, tables + 1, 1, map, 1, out);
    expect("an entry in the partial page",
           got == MOPSIENNA_ENTRY && out[0] == 1 && untouched(out, 1) && tables[1] == UNTOUCHED);
    fill(out);
    got = CALL(read_list)(store, length, 2, tables, 1, tables + 1, 1, map, 1, out);
    expect("a list in the partial page", got == MOPSIENNA_LIST_PAGE && out[0] == 2 && untouched(out, 1));
    put(store + PAGE + 6, 4, 1);
    fill(out);
    got = CALL(read_list)(store, length, 1, tables, 1, tables + 1, 1, map, 1, out);
    expect("a list page as its entry", got == MOPSIENNA_REPEAT && untouched(out, 0) && map[0] == 0);

    got = CALL(encode_cell)(1, hash, numbers, 1, cell, sizeof cell);
    expect("a cell of one number", got == 0);
    fill(out);
    got = CALL(read_value)(cell, sizeof cell, store, length, tables, 1, value, 1, out);
    expect("a value in the partial page", got == MOPSIENNA_MISSING && out[0] == 0 && untouched(out, 1) &&
                                              tables[0] == 2 && value[0] == 0xA5);
    fill(out);
    got = CALL(lookup)(numbers, 0, store, 0, store, length, 2, out);
    expect("the partial page", got == MOPSIENNA_MISSING && out[0] == 2 && untouched(out, 1));
    free_store(store, 3);
}

static void *run(void *unused) {
    bumps();
    finishes();
    largest_map();
    partial_store();
    endless();
    if (mapped_bump == MOPSIENNA_MAX_BUMP)
        largest_store();
    long_list();
    large_save("ten million freed, no list", PAGE, 10000000, 0, 0);
    large_save("ten million freed, a list of 3,000 full pages", PAGE, 10000000, 3000,
               PAGE == 4096 ? 2990 : 2844);
    large_save("a million freed, a list of 400,000 full pages of 16 bytes", 16, 1000000, 400000, 66665);
    large_save("a million freed, all pages of 16 bytes used up", 16, 1000000, 100000, 0);
    largest_value();
    two_saves();
    return unused;
}

int main(int count, char **arguments) {
    if (count > 1)
        sparse_pages = mapped_bump = (uint32_t)1 << atoi(arguments[1]);
    pthread_attr_t small;
    pthread_t thread;
    if (pthread_attr_init(&small) != 0 || pthread_attr_setstacksize(&small, STACK) != 0 ||
        pthread_create(&thread, &small, run, NULL) != 0 || pthread_join(thread, NULL) != 0) {
        fprintf(stderr, "limits: no thread\n");
        return 2;
    }
    printf("limits, pages of %d bytes: %d checks, %d wrong\n", PAGE, checks, failures);
    return failures != 0;
}
