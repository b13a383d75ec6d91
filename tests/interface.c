/* Calls each function of the C interface through its header: the documented samples, the limits of
 * its page size, each refusal, and the places of `out` that must stay as they were. */
#include "page_size.h"

#include <stdio.h>
#include <string.h>

static int failures;
static int checks;

/* What the places of `out` hold before a call. */
static const uint64_t UNTOUCHED = UINT64_C(0xA5A5A5A5A5A5A5A5);

static void fill(uint64_t out[8]) {
    for (int i = 0; i < 8; i++)
        out[i] = UNTOUCHED;
}

/* The call returned `status`, and `out` holds `count` values and is untouched behind them. */
static void expect(const char *call, uint32_t got, const uint64_t out[8], uint32_t status,
                   int count, const uint64_t *values) {
    checks++;
    int right = got == status;
    for (int i = 0; i < 8; i++)
        right = right && out[i] == (i < count ? values[i] : UNTOUCHED);
    if (!right) {
        failures++;
        printf("%s: status %u, expected %u; out[0] %llu\n", call, got, status,
               (unsigned long long)out[0]);
    }
}

/* All places of a buffer from `from` on hold the byte. */
static int all(const uint8_t *bytes, size_t from, size_t to, uint8_t byte) {
    for (size_t i = from; i < to; i++)
        if (bytes[i] != byte)
            return 0;
    return 1;
}

static void check(const char *what, int right) {
    checks++;
    if (!right) {
        failures++;
        printf("%s: wrong\n", what);
    }
}

static void grow(uint32_t page, uint32_t status, uint64_t length) {
    uint64_t out[8];
    char call[64];
    fill(out);
    snprintf(call, sizeof call, "grow %u", page);
    uint32_t got = mopsienna_grow(page, out);
    expect(call, got, out, status, status == 0, &length);
}

static void total(uint64_t size, uint32_t status, uint64_t pages, uint64_t cell, uint64_t spare,
                  uint64_t room) {
    uint64_t out[8];
    uint64_t values[4] = {pages, cell, spare, room};
    char call[64];
    fill(out);
    snprintf(call, sizeof call, "total %llu", (unsigned long long)size);
    uint32_t got = CALL(total)(size, out);
    expect(call, got, out, status, status == 0 ? 4 : 0, values);
}

/* What a place of a table, a number list or a page buffer holds before a call. */
static const uint32_t FILLER = UINT32_C(0xA5A5A5A5);

/* MAP bytes are a bit map for more numbers than any list here needs. */
enum { ROOM = FULL + 8, MAP = 160 };

/* What a call with this status leaves of a dirty map of which so many bits are in use. */
static void map_is(const char *call, const uint8_t map[MAP], uint32_t status, uint64_t bits) {
    int used = status == 0 || status == MOPSIENNA_REPEAT || status == MOPSIENNA_TABLES ||
               status == MOPSIENNA_BUFFER;
    size_t zeros = used ? (bits + 7) / 8 : 0;
    checks++;
    if (!all(map, 0, zeros, 0) || !all(map, zeros, MAP, 0xA5)) {
        failures++;
        printf("%s: the map is wrong\n", call);
    }
}

/* A table holds these numbers and then the filler. */
static void holds(const char *table, const uint32_t *got, size_t count, const uint32_t *numbers) {
    checks++;
    int right = 1;
    for (size_t i = 0; i < ROOM; i++)
        right = right && got[i] == (i < count ? numbers[i] : FILLER);
    if (!right) {
        failures++;
        printf("%s: wrong\n", table);
    }
}

/* A store that has room for a list of two pages, and the tables that lists are read into. */
enum { PAGES = FULL + 104 };

static uint8_t lists[PAGES * PAGE];
static uint32_t listed_pages[ROOM], listed_entries[ROOM];

/* Reads a list into so many places of the tables, with so many bytes of a dirty map; on a refusal
 * the tables stay as they were. */
static void read_list(const char *call, size_t store_len, uint32_t head, size_t places,
                      size_t map_len, uint32_t status, int count, const uint64_t *values) {
    uint64_t out[8];
    uint8_t map[MAP];
    fill(out);
    memset(map, 0xA5, sizeof map);
    memset(listed_pages, 0xA5, sizeof listed_pages);
    memset(listed_entries, 0xA5, sizeof listed_entries);
    uint32_t got = CALL(read_list)(lists, store_len, head, listed_pages, places, listed_entries,
                                   places, map, map_len, out);
    expect(call, got, out, status, count, values);
    map_is(call, map, status, store_len / PAGE);
    if (status != 0) {
        holds(call, listed_pages, 0, NULL);
        holds(call, listed_entries, 0, NULL);
    }
}

/* An open save on tables of ROOM places. A finish is lent `places` of both tables, `buffer_len`
 * bytes of the buffer and `map_len` bytes of a map. */
struct save {
    uint32_t bump;
    uint32_t length;
    uint64_t P, L, count;
    uint64_t places, buffer_len, map_len;
    uint32_t pages[ROOM], entries[ROOM], numbers[ROOM];
    uint8_t buffer[4 * PAGE];
};

static struct save new_save(uint32_t bump, uint32_t length, uint64_t P, const uint32_t *pages,
                            uint64_t L, const uint32_t *entries, uint64_t count) {
    struct save v = {.bump = bump, .length = length, .P = P, .L = L, .count = count};
    v.places = ROOM;
    v.buffer_len = sizeof v.buffer;
    v.map_len = MAP;
    for (int i = 0; i < ROOM; i++) {
        v.pages[i] = (uint64_t)i < P ? pages[i] : FILLER;
        v.entries[i] = (uint64_t)i < L ? entries[i] : FILLER;
        v.numbers[i] = FILLER;
    }
    memset(v.buffer, 0xA5, sizeof v.buffer);
    return v;
}

static void hand_out(const char *call, const struct save *v, uint32_t status, uint64_t number,
                     uint64_t length) {
    uint64_t out[8];
    uint64_t values[3] = {number, v->count + 1, length};
    fill(out);
    uint32_t got = CALL(hand_out)(v->bump, v->length, v->P, v->L, v->count, v->pages, ROOM,
                                  v->entries, ROOM, out);
    expect(call, got, out, status, status == 0 ? 3 : 0, values);
}

/* The save is finished with a dirty map; on a refusal all else that is lent stays as it was. */
static void finish(const char *call, struct save *v, const uint32_t *freed, size_t freed_len,
                   uint32_t status, int count, const uint64_t *values) {
    uint64_t out[8];
    uint8_t map[MAP];
    struct save before = *v;
    fill(out);
    memset(map, 0xA5, sizeof map);
    uint32_t got = CALL(finish)(v->bump, v->length, v->P, v->L, v->count, v->pages, v->places,
                                v->entries, v->places, freed, freed_len, v->buffer, v->buffer_len,
                                v->numbers, ROOM, map, v->map_len, out);
    expect(call, got, out, status, count, values);
    map_is(call, map, status, v->bump + (v->count > v->L ? v->count - v->L : 0));
    if (status != 0 && memcmp(&before, v, sizeof before) != 0) {
        failures++;
        printf("%s: refused, but not as it was\n", call);
    }
}

/* A list of one page, number 3, with the entries 1 and 2; the bump is 9. */
static void saves(void) {
    const uint32_t page[1] = {3}, entries[2] = {1, 2}, freed[2] = {5, 7}, bad[2] = {5, 9};
    struct save v = new_save(9, 8192, 1, page, 2, entries, 0);
    hand_out("hand out the last entry", &v, 0, 2, 8192);
    v.count = 1;
    hand_out("hand out the first entry", &v, 0, 1, 8192);
    v.count = 2;
    hand_out("hand out the bump", &v, 0, 9, 8192);
    v.length = 9;
    hand_out("hand out the bump, and grow", &v, 0, 9, 16384);
    v.count = UINT64_MAX;
    hand_out("hand out past the limit", &v, MOPSIENNA_LIMIT, 0, 0);
    v.bump = 0;
    hand_out("hand out with bump 0", &v, MOPSIENNA_STATE, 0, 0);
    finish("finish with bump 0", &v, freed, 2, MOPSIENNA_STATE, 0, NULL);

    v = new_save(9, 8, 1, page, 2, entries, 0);
    const uint64_t same[6] = {3, 9, 16384, 1, 2, 0};
    finish("finish with nothing done", &v, freed, 0, 0, 6, same);
    holds("pages as they were", v.pages, 1, page);
    holds("entries as they were", v.entries, 2, entries);
    holds("no number", v.numbers, 0, NULL);

    const uint64_t second[1] = {1};
    finish("free the bump", &v, bad, 2, MOPSIENNA_FREED, 1, second);
    v.buffer_len = PAGE - 1;
    finish("finish without a buffer", &v, freed, 2, MOPSIENNA_BUFFER, 0, NULL);

    /* 2 is the new page's number; the freed numbers and the old page's follow the entry that is
     * left. */
    const uint64_t changed[6] = {2, 9, 16384, 1, 4, 1};
    const uint32_t new_page[1] = {2}, new_entries[4] = {1, 5, 7, 3};
    v.buffer_len = PAGE;
    finish("free two numbers", &v, freed, 2, 0, 6, changed);
    holds("the new page", v.pages, 1, new_page);
    holds("the new entries", v.entries, 4, new_entries);
    holds("the page written", v.numbers, 1, new_page);

    const uint64_t size[2] = {1, 4};
    memcpy(lists + 2 * PAGE, v.buffer, PAGE);
    read_list("read the new list", 8 * PAGE, 2, ROOM, MAP, 0, 2, size);
    holds("the pages read", listed_pages, 1, new_page);
    holds("the entries read", listed_entries, 4, new_entries);
}

/* A save with bump 9 on a list of one page with two entries. */
static struct save on_list(uint32_t page, uint32_t first, uint32_t second, uint64_t count) {
    const uint32_t pages[1] = {page}, entries[2] = {first, second};
    return new_save(9, 8192, 1, pages, 2, entries, count);
}

/* The save on so many places of the tables, with so many bytes of the buffer and of a map. */
static struct save lent(struct save v, uint64_t places, uint64_t buffer_len, uint64_t map_len) {
    v.places = places;
    v.buffer_len = buffer_len;
    v.map_len = map_len;
    return v;
}

/* A finish that frees these two numbers, where 0 is none, is refused, with 8 for the second one. */
static void refused(const char *call, struct save v, uint32_t first, uint32_t second,
                    uint32_t status) {
    const uint32_t freed[2] = {first, second};
    const uint64_t place[1] = {1};
    finish(call, &v, freed, (first != 0) + (second != 0), status, status == MOPSIENNA_FREED, place);
}

/* Such a finish is answered, with a list of one page if it has entries. */
static void answered(const char *call, struct save v, uint32_t first, uint32_t second,
                     uint64_t head, uint64_t bump, uint64_t L, uint64_t written) {
    const uint32_t freed[2] = {first, second};
    const uint64_t answer[6] = {head, bump, 8192, L != 0, L, written};
    finish(call, &v, freed, (first != 0) + (second != 0), 0, 6, answer);
}

/* Numbers that occur twice, and numbers that do not lie below the bump. */
static void repeats_in_saves(void) {
    const uint32_t again = MOPSIENNA_REPEAT;
    const struct save empty = new_save(9, 8192, 0, NULL, 0, NULL, 0);
    refused("a number freed twice", on_list(3, 1, 2, 0), 5, 5, again);
    refused("a number freed twice, no list", empty, 8, 8, again);
    refused("a number handed out, freed twice", on_list(3, 1, 2, 1), 2, 2, again);
    refused("a number from the bump, freed twice", on_list(3, 1, 2, 3), 9, 9, again);
    refused("a freed list page", on_list(3, 1, 2, 0), 3, 0, again);
    refused("a freed list page that is emptied", on_list(3, 1, 2, 2), 5, 3, again);
    refused("a freed entry", on_list(3, 1, 2, 0), 2, 0, again);
    refused("a freed entry that is left", on_list(3, 1, 2, 1), 5, 1, again);
    refused("an entry twice, nothing done", on_list(3, 1, 1, 0), 0, 0, again);
    refused("the list page as an entry, nothing done", on_list(3, 3, 2, 0), 0, 0, again);
    refused("the list page as the entry that is left", on_list(3, 3, 2, 1), 0, 0, again);
    refused("two entries 0", on_list(3, 0, 0, 0), 0, 0, again);
    refused("page 0 and an entry 0", on_list(0, 1, 0, 0), 5, 0, again);

    refused("a list page at the bump", on_list(9, 1, 2, 0), 0, 0, again);
    refused("an emptied list page at the bump", on_list(9, 1, 2, 2), 5, 0, again);
    refused("a list page at the raised bump", on_list(10, 1, 2, 3), 5, 0, again);
    refused("a list page far past the bump", on_list(UINT32_MAX, 1, 2, 0), 5, 0, again);
    refused("an entry at the bump, nothing done", on_list(3, 1, 9, 0), 0, 0, again);
    refused("an entry past the map's bytes in use", on_list(3, 16, 2, 1), 5, 0, again);
    refused("an entry far past the bump", on_list(3, UINT32_MAX, 2, 0), 5, 0, again);

    answered("a number handed out is freed", on_list(3, 1, 2, 1), 2, 0, 1, 9, 2, 1);
    answered("a number from the bump is freed", on_list(3, 1, 2, 3), 9, 0, 10, 11, 2, 1);
    answered("an entry handed out is left too", on_list(3, 1, 1, 1), 0, 0, 1, 9, 1, 1);
    answered("the list page was handed out", on_list(3, 1, 3, 1), 0, 0, 1, 9, 1, 1);
    answered("an entry handed out past the bump", on_list(3, 1, UINT32_MAX, 1), 0, 0, 1, 9, 1, 1);
    answered("a list page below the raised bump", on_list(9, 1, 2, 3), 0, 0, 10, 11, 1, 1);
    answered("a list page just below the bump", on_list(8, 1, 2, 0), 0, 0, 8, 9, 2, 0);
    answered("one entry 0", on_list(3, 0, 2, 0), 0, 0, 3, 9, 2, 0);
    answered("page 0", on_list(0, 1, 2, 0), 0, 0, 0, 9, 2, 0);

    /* Page 1 with the entries from 3 up, and page 2 with the one behind them. */
    const uint32_t bump = FULL + 4;
    uint32_t pages[2] = {1, 2}, entries[FULL + 1];
    for (uint32_t i = 0; i <= FULL; i++)
        entries[i] = 3 + i;
    const uint64_t both[6] = {2, FULL + 4, 8192, 2, FULL + 1, 0};
    struct save v = new_save(bump, 8192, 2, pages, FULL + 1, entries, 0);
    finish("two list pages", &v, pages, 0, 0, 6, both);
    v.pages[0] = 2;
    refused("two list pages of one number", v, 0, 0, again);
    v.pages[0] = 1;
    v.entries[FULL] = 3;
    refused("an entry on both pages", v, 0, 0, again);
    v.entries[FULL] = 1;
    refused("the lower page as an entry", v, 0, 0, again);
}

/* How long a map must be, and which refusal comes first. */
static void maps_in_saves(void) {
    const uint32_t page[1] = {3}, entries[2] = {1, 2};
    const struct save nine = on_list(3, 1, 2, 0), eight = new_save(8, 8192, 1, page, 2, entries, 0);
    const struct save raised = new_save(8, 8192, 1, page, 2, entries, 3);
    const struct save empty = new_save(1, 8192, 0, NULL, 0, NULL, 0);
    const struct save full = new_save(MOPSIENNA_MAX_BUMP, 8192, 0, NULL, 0, NULL, 0);
    const struct save none = new_save(0, 8192, 1, page, 2, entries, 0);
    const struct save most = on_list(3, 1, 2, UINT64_MAX);

    answered("9 bits in two bytes", lent(nine, ROOM, PAGE, 2), 5, 7, 2, 9, 4, 1);
    refused("9 bits in one byte", lent(nine, ROOM, PAGE, 1), 5, 7, MOPSIENNA_MAP);
    answered("the same, nothing done", lent(nine, ROOM, PAGE, 2), 0, 0, 3, 9, 2, 0);
    refused("one byte, nothing done", lent(nine, ROOM, PAGE, 1), 0, 0, MOPSIENNA_MAP);
    answered("8 bits in one byte", lent(eight, ROOM, PAGE, 1), 5, 7, 2, 8, 4, 1);
    refused("8 bits in no byte", lent(eight, ROOM, PAGE, 0), 5, 7, MOPSIENNA_MAP);
    answered("a raised bump, two bytes", lent(raised, ROOM, PAGE, 2), 5, 7, 9, 10, 3, 1);
    refused("a raised bump, one byte", lent(raised, ROOM, PAGE, 1), 5, 7, MOPSIENNA_MAP);
    answered("no list, one byte", lent(empty, ROOM, PAGE, 1), 0, 0, 0, 1, 0, 0);
    refused("no list, no byte", lent(empty, ROOM, PAGE, 0), 0, 0, MOPSIENNA_MAP);

    refused("1 before 21", lent(none, ROOM, PAGE, 0), 5, 5, MOPSIENNA_STATE);
    refused("7 before 21", lent(full, ROOM, PAGE, 0), 5, 5, MOPSIENNA_LIMIT);
    refused("7 for a count past all numbers", lent(most, ROOM, PAGE, 0), 5, 5, MOPSIENNA_LIMIT);
    refused("8 before 21", lent(nine, ROOM, PAGE, 0), 5, 9, MOPSIENNA_FREED);
    refused("8 before 22", on_list(3, 1, 1, 0), 5, 9, MOPSIENNA_FREED);
    refused("21 before 22, 6 and 9", lent(nine, 2, 0, 1), 5, 5, MOPSIENNA_MAP);
    refused("22 before 6 and 9", lent(nine, 2, 0, 2), 5, 5, MOPSIENNA_REPEAT);
    refused("22 before 6", lent(nine, 2, PAGE, 2), 5, 5, MOPSIENNA_REPEAT);
    refused("22 before 9", lent(nine, ROOM, 0, 2), 5, 5, MOPSIENNA_REPEAT);
    refused("6 before 9", lent(nine, 2, 0, 2), 5, 7, MOPSIENNA_TABLES);
    refused("9 with a map of two bytes", lent(nine, ROOM, 0, 2), 5, 7, MOPSIENNA_BUFFER);
}

/* A finish that frees these numbers is answered with a list of one page, where `upper` is 0, or of
 * two. All of it is written, and it is read back. */
static void filled(const char *call, struct save v, const uint32_t *freed, size_t freed_len,
                   uint64_t bump, uint32_t lower, uint32_t upper, uint64_t L,
                   const uint32_t *entries) {
    const uint32_t pages[2] = {lower, upper};
    const uint64_t P = upper == 0 ? 1 : 2, size[2] = {P, L};
    const uint64_t answer[6] = {pages[P - 1], bump, 8192, P, L, P};
    finish(call, &v, freed, freed_len, 0, 6, answer);
    holds(call, v.pages, P, pages);
    holds(call, v.entries, L, entries);
    holds(call, v.numbers, P, pages);
    check(call, all(v.buffer, P * PAGE, sizeof v.buffer, 0xA5));
    for (uint64_t i = 0; i < P; i++)
        memcpy(lists + pages[i] * PAGE, v.buffer + i * PAGE, PAGE);
    read_list(call, sizeof lists, pages[P - 1], ROOM, MAP, 0, 2, size);
    holds(call, listed_pages, P, pages);
    holds(call, listed_entries, L, entries);
}

/* Finishes that just fill a page, and those with a number more, which take a further page. */
static void full_pages_in_saves(void) {
    enum { TEN = 10, LAST = 100 + FULL };
    const uint32_t ten[1] = {TEN}, one[1] = {15}, two[2] = {15, 16}, next[1] = {16};
    uint32_t entries[FULL + 1], new_entries[FULL + 1], freed[FULL + 1];
    for (uint32_t i = 0; i <= FULL; i++) {
        entries[i] = 101 + i;
        freed[i] = 1 + i;
    }
    memcpy(new_entries, entries, sizeof entries);

    /* Pages from the bump. */
    const struct save empty = new_save(FULL + 2, 8192, 0, NULL, 0, NULL, 0);
    filled("as many freed as a page has", empty, freed, FULL, FULL + 3, FULL + 2, 0, FULL, freed);
    filled("one more", empty, freed, FULL + 1, FULL + 4, FULL + 2, FULL + 3, FULL + 1, freed);

    /* The last entry is the new page's number, and page 10 the last entry. */
    const struct save less = new_save(LAST, 8192, 1, ten, FULL - 1, entries, 0);
    new_entries[FULL - 2] = 15;
    new_entries[FULL - 1] = TEN;
    filled("one freed, on a page with a place", less, one, 1, LAST, LAST - 1, 0, FULL, new_entries);

    /* The last entry but one is the number of a further page, for which one place is left free. */
    new_entries[FULL - 3] = 15;
    new_entries[FULL - 2] = 16;
    filled("two freed, on a page with a place", less, two, 2, LAST, LAST - 1, LAST - 2, FULL,
           new_entries);

    /* The samples of document 01: one freed on a full page, and then another one. */
    const struct save full = new_save(LAST + 1, 8192, 1, ten, FULL, entries, 0);
    new_entries[FULL - 3] = LAST - 2;
    new_entries[FULL - 2] = 15;
    filled("one freed, on a full page", full, one, 1, LAST + 1, LAST, LAST - 1, FULL, new_entries);
    const uint32_t both[2] = {LAST, LAST - 1};
    const struct save one_free = new_save(LAST + 1, 8192, 2, both, FULL, new_entries, 0);
    new_entries[FULL - 2] = 16;
    new_entries[FULL - 1] = LAST;
    new_entries[FULL] = LAST - 1;
    filled("one freed, where a place was left free", one_free, next, 1, LAST + 1, TEN, 15, FULL + 1,
           new_entries);

    /* The most entries on one page, and the fewest on two. */
    struct save v = full;
    hand_out("from a full page", &v, 0, LAST, 8192);
    v.L = FULL + 1;
    hand_out("from a page with an entry too many", &v, MOPSIENNA_STATE, 0, 0);
    finish("a page with an entry too many", &v, one, 1, MOPSIENNA_STATE, 0, NULL);
    v = one_free;
    hand_out("from two pages, one with a place free", &v, 0, TEN, 8192);
    v.L = FULL - 1;
    hand_out("from two pages, two places free", &v, MOPSIENNA_STATE, 0, 0);
    finish("two pages, two places free", &v, one, 1, MOPSIENNA_STATE, 0, NULL);
}

/* Writes a list page with the entries from `first` up. */
static void write_list_page(uint32_t page, uint32_t prev, uint32_t count, uint32_t first) {
    uint8_t *b = lists + page * PAGE;
    for (int k = 0; k < 4; k++)
        b[k] = (uint8_t)(prev >> 8 * k);
    for (int k = 0; k < 2; k++)
        b[4 + k] = (uint8_t)(count >> 8 * k);
    for (uint32_t i = 0; i < count; i++)
        for (int k = 0; k < 4; k++)
            b[6 + 4 * i + k] = (uint8_t)((first + i) >> 8 * k);
}

/* Makes the count of a list page another one. */
static void put_count(uint32_t page, uint32_t count) {
    uint8_t *b = lists + page * PAGE + 4;
    b[0] = (uint8_t)count;
    b[1] = (uint8_t)(count >> 8);
}

/* Makes an entry of a list page another number. */
static void put_entry(uint32_t page, uint32_t i, uint8_t number) {
    uint8_t *b = lists + page * PAGE + 6 + 4 * i;
    memset(b, 0, 4);
    b[0] = number;
}

/* A list on page 2, which has the entries 5, 6 and 7, in a store of nine pages. */
static void short_lists(void) {
    const size_t nine = 9 * PAGE, eight = 8 * PAGE;
    const uint32_t page[1] = {2}, entries[3] = {5, 6, 7};
    const uint64_t size[2] = {1, 3}, none[2] = {0, 0}, one[1] = {1}, two[1] = {2};
    write_list_page(2, 0, 3, 5);
    read_list("a list", nine, 2, ROOM, MAP, 0, 2, size);
    holds("its page", listed_pages, 1, page);
    holds("its entries", listed_entries, 3, entries);
    read_list("short tables", nine, 2, 2, MAP, MOPSIENNA_TABLES, 0, NULL);

    read_list("nine pages, two bytes", nine, 2, ROOM, 2, 0, 2, size);
    read_list("nine pages, one byte", nine, 2, ROOM, 1, MOPSIENNA_MAP, 0, NULL);
    read_list("eight pages, one byte", eight, 2, ROOM, 1, 0, 2, size);
    read_list("eight pages and a part, one byte", nine - 1, 2, ROOM, 1, 0, 2, size);
    read_list("eight pages, no byte", eight, 2, ROOM, 0, MOPSIENNA_MAP, 0, NULL);
    read_list("no list, two bytes", nine, 0, 0, 2, 0, 2, none);
    read_list("no list, one byte", nine, 0, 0, 1, MOPSIENNA_MAP, 0, NULL);
    read_list("no list, no whole page, no byte", PAGE - 1, 0, 0, 0, 0, 2, none);

    put_entry(2, 2, 5);
    read_list("an entry twice", nine, 2, ROOM, 2, MOPSIENNA_REPEAT, 0, NULL);
    read_list("21 before 22", nine, 2, ROOM, 1, MOPSIENNA_MAP, 0, NULL);
    read_list("22 before 6", nine, 2, 0, 2, MOPSIENNA_REPEAT, 0, NULL);
    put_entry(2, 2, 7);
    read_list("21 before 6", nine, 2, 0, 1, MOPSIENNA_MAP, 0, NULL);
    put_entry(2, 2, 2);
    read_list("the list page as an entry", nine, 2, ROOM, 2, MOPSIENNA_REPEAT, 0, NULL);

    put_entry(2, 1, 5);
    put_entry(2, 2, 9);
    read_list("2 before 21", 2 * PAGE, 2, ROOM, 0, MOPSIENNA_LIST_PAGE, 1, two);
    read_list("3 before 21", nine, 1, ROOM, 0, MOPSIENNA_COUNT, 1, one);
    read_list("4 before 21", nine, 2, ROOM, 0, MOPSIENNA_ENTRY, 1, two);
    read_list("4 before 22", nine, 2, ROOM, 2, MOPSIENNA_ENTRY, 1, two);
}

/* Page 1 with the entries from 3 up, and page 2 with the one behind them. */
static void two_pages(void) {
    const size_t length = sizeof lists, map_len = (PAGES + 7) / 8;
    const uint64_t size[2] = {2, FULL + 1};
    write_list_page(1, 0, FULL, 3);
    write_list_page(2, 1, 1, FULL + 3);
    read_list("two pages", length, 2, ROOM, map_len, 0, 2, size);
    put_entry(2, 0, 3);
    read_list("an entry on both", length, 2, ROOM, map_len, MOPSIENNA_REPEAT, 0, NULL);
    put_entry(2, 0, 1);
    read_list("the lower as an entry", length, 2, ROOM, map_len, MOPSIENNA_REPEAT, 0, NULL);
    put_entry(2, 0, 2);
    read_list("the head as its entry", length, 2, ROOM, map_len, MOPSIENNA_REPEAT, 0, NULL);
    write_list_page(2, 1, 1, FULL + 3);
    put_entry(1, FULL - 1, 2);
    read_list("the head as an entry below", length, 2, ROOM, map_len, MOPSIENNA_REPEAT, 0, NULL);

    /* Each is now the page below the other, and full. */
    write_list_page(1, 2, FULL, 3);
    write_list_page(2, 1, FULL, 3);
    read_list("5 before 22", length, 2, ROOM, map_len, MOPSIENNA_CHAIN, 0, NULL);
    read_list("5 before 21", length, 2, ROOM, 0, MOPSIENNA_CHAIN, 0, NULL);
    read_list("5 before 21, no whole page", PAGE - 1, 2, ROOM, 0, MOPSIENNA_CHAIN, 0, NULL);
}

/* The most entries that a list page may have, and the fewest below the head. */
static void full_lists(void) {
    const size_t length = sizeof lists;
    const uint64_t size[2] = {1, FULL}, fewest[2] = {2, FULL}, one[1] = {1}, two[1] = {2};
    const uint32_t pages[2] = {1, 2};
    uint32_t entries[FULL];
    for (uint32_t i = 0; i < FULL; i++)
        entries[i] = 3 + i;
    write_list_page(2, 0, FULL, 3);
    read_list("a full page", length, 2, ROOM, MAP, 0, 2, size);
    holds("the full page", listed_pages, 1, pages + 1);
    holds("its entries", listed_entries, FULL, entries);
    put_count(2, FULL + 1);
    read_list("an entry more than a page has room for", length, 2, ROOM, MAP, MOPSIENNA_COUNT, 1,
              two);
    put_count(2, UINT16_MAX);
    read_list("the largest count", length, 2, ROOM, MAP, MOPSIENNA_COUNT, 1, two);

    write_list_page(1, 0, FULL - 1, 3);
    write_list_page(2, 1, 1, FULL + 2);
    read_list("a place free under one entry", length, 2, ROOM, MAP, 0, 2, fewest);
    holds("both pages", listed_pages, 2, pages);
    holds("their entries", listed_entries, FULL, entries);
    put_count(1, FULL - 2);
    read_list("two places free under one entry", length, 2, ROOM, MAP, MOPSIENNA_COUNT, 1, one);
    put_count(1, FULL + 1);
    read_list("an entry too many under one", length, 2, ROOM, MAP, MOPSIENNA_COUNT, 1, one);
    put_count(1, FULL - 1);
    write_list_page(2, 1, 2, FULL + 2);
    read_list("a place free under two entries", length, 2, ROOM, MAP, MOPSIENNA_COUNT, 1, one);
}

/* The pages of a value of SIZE bytes: 16 of them, numbered from FIRST on. */
enum { SIZE = 15 * BODY + 1, TOTAL = 16, FIRST = 3, STORE = (FIRST + TOTAL) * PAGE };

static uint8_t value[SIZE], read_back[SIZE + 8], store[STORE], cell[128];
static uint32_t numbers[TOTAL], found[TOTAL + 2];

/* Writes the value into the store, and its cell. */
static void write_value(void) {
    uint8_t page[PAGE + 8], hash[32];
    for (size_t i = 0; i < SIZE; i++)
        value[i] = (uint8_t)(i * 7 + i / 251);
    for (uint32_t i = 0; i < TOTAL; i++)
        numbers[i] = FIRST + i;
    for (uint64_t i = 0; i < TOTAL; i++) {
        memset(page, 0xA5, sizeof page);
        uint32_t got = CALL(write_value_page)(value, SIZE, numbers, TOTAL, i, page, sizeof page);
        check("a value page", got == 0 && all(page, PAGE, sizeof page, 0xA5));
        memcpy(store + PAGE * (FIRST + i), page, PAGE);
    }
    const uint8_t first[8] = {1, 0, 0xF8, BODY >> 8, FIRST + 15, 0, 0, 0}, last[4] = {0, 0, 5, 0};
    check("page 0: one number, 4,088 or 1,016 bytes", memcmp(store + PAGE * FIRST, first, 8) == 0);
    check("page 15: 5 bytes", memcmp(store + PAGE * (FIRST + 15), last, 4) == 0);
    check("no byte",
          CALL(write_value_page)(value, 0, numbers, TOTAL, 0, page, PAGE) == MOPSIENNA_SIZE);
    check("a number less", CALL(write_value_page)(value, SIZE, numbers, TOTAL - 1, 0, page, PAGE) ==
                               MOPSIENNA_INDEX);
    check("index 16", CALL(write_value_page)(value, SIZE, numbers, TOTAL, TOTAL, page, PAGE) ==
                          MOPSIENNA_INDEX);
    check("a byte less", CALL(write_value_page)(value, SIZE, numbers, TOTAL, 0, page, PAGE - 1) ==
                             MOPSIENNA_BUFFER);

    memset(hash, 0x11, sizeof hash);
    memset(cell, 0xA5, sizeof cell);
    check("a cell", CALL(encode_cell)(SIZE, hash, numbers, 15, cell, sizeof cell) == 0);
    check("behind the cell", all(cell, 100, sizeof cell, 0xA5));
    check("a cell too large",
          CALL(encode_cell)(MAX_SIZE + 1, hash, numbers, 15, cell, 100) == MOPSIENNA_SIZE);
    check("a cell's byte less",
          CALL(encode_cell)(SIZE, hash, numbers, 15, cell, 99) == MOPSIENNA_ROOM);
}

/* Makes a read and a delete of the cell's first bytes over this much of the store, each expected to
 * return the same; `index` is the value of refusals 14 to 16 and 25. */
static void walk(const char *call, size_t cell_len, size_t store_len, uint32_t status,
                 uint64_t index) {
    uint64_t out[8];
    int valued = (status >= MOPSIENNA_UNKNOWN && status <= MOPSIENNA_VALUE_PAGE) ||
                 status == MOPSIENNA_EMPTY_PAGE;
    fill(out);
    memset(read_back, 0xA5, sizeof read_back);
    uint32_t got = CALL(read_value)(cell, cell_len, store, store_len, found, TOTAL + 2, read_back,
                                    sizeof read_back, out);
    expect(call, got, out, status, valued, &index);
    check("the value buffer after a refusal", all(read_back, 0, sizeof read_back, 0xA5));
    fill(out);
    got = CALL(delete_value)(cell, cell_len, store, store_len, found, TOTAL + 2, out);
    expect(call, got, out, status, valued, &index);
}

/* Empties the first page of the value, and then the last one, which a delete does not come to, since
 * the first page has bytes. */
static void empty_pages(void) {
    uint8_t first[4], last[4];
    memcpy(first, store + PAGE * FIRST, 4);
    memcpy(last, store + PAGE * (FIRST + 15), 4);

    memset(store + PAGE * FIRST, 0, 4);
    memset(found, 0xA5, sizeof found);
    walk("an empty first page", 100, STORE, MOPSIENNA_EMPTY_PAGE, 0);
    check("the cell's numbers", memcmp(found, numbers, 15 * 4) == 0 && found[15] == FILLER);
    memcpy(store + PAGE * FIRST, first, 4);

    uint64_t out[8];
    const uint64_t fifteen = 15, deleted = TOTAL;
    memset(store + PAGE * (FIRST + 15), 0, 4);
    memset(found, 0xA5, sizeof found);
    memset(read_back, 0xA5, sizeof read_back);
    fill(out);
    uint32_t got = CALL(read_value)(cell, 100, store, STORE, found, TOTAL + 2, read_back,
                                    sizeof read_back, out);
    expect("an empty last page", got, out, MOPSIENNA_EMPTY_PAGE, 1, &fifteen);
    check("all numbers", memcmp(found, numbers, sizeof numbers) == 0 && found[TOTAL] == FILLER);
    check("no byte of the value", all(read_back, 0, sizeof read_back, 0xA5));
    fill(out);
    got = CALL(delete_value)(cell, 100, store, STORE, found, TOTAL + 2, out);
    expect("a delete that ends before it", got, out, 0, 1, &deleted);
    memcpy(store + PAGE * (FIRST + 15), last, 4);
}

static void values(void) {
    write_value();

    uint64_t out[8];
    uint8_t hash[32];
    fill(out);
    const uint64_t counts[2] = {SIZE, 15};
    uint32_t got = CALL(decode_cell)(cell, 100, hash, out);
    expect("decode the cell", got, out, 0, 2, counts);
    check("the hash", all(hash, 0, sizeof hash, 0x11));

    const uint64_t read[2] = {SIZE, TOTAL}, deleted[1] = {TOTAL};
    fill(out);
    memset(read_back, 0xA5, sizeof read_back);
    memset(found, 0xA5, sizeof found);
    got = CALL(read_value)(cell, 100, store, STORE, found, TOTAL + 2, read_back, sizeof read_back,
                           out);
    expect("read the value", got, out, 0, 2, read);
    check("the value",
          memcmp(read_back, value, SIZE) == 0 && all(read_back, SIZE, sizeof read_back, 0xA5));
    check("its numbers", memcmp(found, numbers, sizeof numbers) == 0 && found[TOTAL] == FILLER);
    fill(out);
    memset(found, 0xA5, sizeof found);
    got = CALL(delete_value)(cell, 100, store, STORE, found, TOTAL + 2, out);
    expect("delete the value", got, out, 0, 1, deleted);
    check("the numbers deleted",
          memcmp(found, numbers, sizeof numbers) == 0 && found[TOTAL] == FILLER);

    fill(out);
    got = CALL(read_value)(cell, 100, store, STORE, found, TOTAL - 1, read_back, SIZE, out);
    expect("a short number table", got, out, MOPSIENNA_ROOM, 0, out);
    got = CALL(read_value)(cell, 100, store, STORE, found, TOTAL, read_back, SIZE - 1, out);
    expect("a short value buffer", got, out, MOPSIENNA_ROOM, 0, out);
    walk("a short cell", 40, STORE, MOPSIENNA_CELL, 0);
    walk("a cell of no whole numbers", 98, STORE, MOPSIENNA_CELL, 0);
    walk("a store of three pages", 100, (FIRST + 0) * PAGE, MOPSIENNA_MISSING, 0);

    /* Page 0 claims a number less: the number of page 15 is not known. Then a byte more than fits.
     */
    store[PAGE * FIRST] = 0;
    memset(read_back, 0xA5, sizeof read_back);
    fill(out);
    const uint64_t fifteen = 15;
    got = CALL(read_value)(cell, 100, store, STORE, found, TOTAL, read_back, SIZE, out);
    expect("an unknown number", got, out, MOPSIENNA_UNKNOWN, 1, &fifteen);
    store[PAGE * FIRST] = 1;
    store[PAGE * FIRST + 2] += 1;
    walk("a page that claims too much", 100, STORE, MOPSIENNA_VALUE_PAGE, 0);
    store[PAGE * FIRST + 2] -= 1;
    empty_pages();

    /* A number more than there are pages, and a byte less than there should be. */
    memcpy(cell + 100, cell + 40, 4);
    walk("a number too many", 104, STORE, MOPSIENNA_NUMBERS, 0);
    store[PAGE * (FIRST + 15) + 2] = 4;
    fill(out);
    got = CALL(read_value)(cell, 100, store, STORE, found, TOTAL, read_back, SIZE, out);
    expect("a byte too few", got, out, MOPSIENNA_BYTES, 0, out);
    store[PAGE * (FIRST + 15) + 2] = 5;
    memset(cell, 0, 8);
    walk("a size of 0", 100, STORE, MOPSIENNA_SIZE, 0);
}

/* The largest size in a cell, and one more. */
static void sizes_in_cells(void) {
    const uint64_t counts[2] = {MAX_SIZE, 15};
    uint8_t hash[32];
    uint64_t out[8];
    memset(hash, 0x11, sizeof hash);
    check("the largest size out", CALL(encode_cell)(MAX_SIZE, hash, numbers, 15, cell, 100) == 0);
    fill(out);
    memset(hash, 0xA5, sizeof hash);
    uint32_t got = CALL(decode_cell)(cell, 100, hash, out);
    expect("the largest size in", got, out, 0, 2, counts);
    check("its hash", all(hash, 0, sizeof hash, 0x11));
    walk("the largest size", 100, STORE, MOPSIENNA_ROOM, 0);

    check("one more out",
          CALL(encode_cell)(MAX_SIZE + 1, hash, numbers, 15, cell, 100) == MOPSIENNA_SIZE);
    cell[0] += 1;
    fill(out);
    memset(hash, 0xA5, sizeof hash);
    got = CALL(decode_cell)(cell, 100, hash, out);
    expect("one more in", got, out, MOPSIENNA_SIZE, 0, NULL);
    check("no hash", all(hash, 0, sizeof hash, 0xA5));
    walk("one more", 100, STORE, MOPSIENNA_SIZE, 0);
}

static void lookup(const char *call, size_t pending_len, uint32_t page, uint32_t status, int count,
                   uint64_t first, uint64_t second) {
    static const uint32_t pending_numbers[3] = {1000, 4, 4};
    uint64_t out[8], expected[2] = {first, second};
    fill(out);
    uint32_t got =
        CALL(lookup)(pending_numbers, 3, read_back, pending_len, store, STORE, page, out);
    expect(call, got, out, status, count, expected);
}

static void lookups(void) {
    lookup("a pending page", 3 * PAGE, 4, 0, 2, 0, PAGE);
    lookup("a pending page past the store", 3 * PAGE, 1000, 0, 2, 0, 0);
    lookup("a page of the store", 3 * PAGE, 5, 0, 2, 1, 5 * PAGE);
    lookup("page 0", 3 * PAGE, 0, 0, 2, 1, 0);
    lookup("a page past the store", 3 * PAGE, FIRST + TOTAL, MOPSIENNA_MISSING, 1, FIRST + TOTAL,
           0);
    lookup("too few pending bytes", 3 * PAGE - 1, 4, MOPSIENNA_BUFFER, 0, 0, 0);
}

static void grows(void) {
    grow(0, 0, 8192);
    grow(1, 0, 8192);
    grow(2, 0, 16384);
    grow(8193, 0, 16384);
    grow(8194, 0, 24576);
    grow(MOPSIENNA_MAX_BUMP, 0, 4294959104);
    grow(MOPSIENNA_MAX_BUMP + 1, MOPSIENNA_LIMIT, 0);
    grow(UINT32_MAX, MOPSIENNA_LIMIT, 0);
}

static void totals(void) {
#ifdef PANEL
    total(1, 0, 1, 1, 1019, 1);
    total(15300, 0, 15, 15, 0, 15);
    total(15301, 0, 16, 15, 1015, 16);
    total(16316, 0, 16, 15, 0, 16);
    total(16317, 0, 17, 15, 1015, 17);
    total(274378, 0, 270, 15, 2, 270);
    total(274379, 0, 270, 15, 1, 271);
    total(274380, 0, 270, 15, 0, 271);
    total(274381, 0, 271, 15, 1015, 271);
    total(MAX_SIZE, 0, 1033, 15, 1012, 1033);
#else
    total(1, 0, 1, 1, 4091, 1);
    total(61380, 0, 15, 15, 0, 15);
    total(61381, 0, 16, 15, 4087, 16);
    total(65468, 0, 16, 15, 0, 16);
    total(65469, 0, 17, 15, 4087, 17);
    total(4243402, 0, 1038, 15, 2, 1038);
    total(4243403, 0, 1038, 15, 1, 1039);
    total(4243404, 0, 1038, 15, 0, 1039);
    total(4243405, 0, 1039, 15, 4087, 1039);
    total(MAX_SIZE, 0, 131329, 15, 2100, 131329);
#endif
    total(0, MOPSIENNA_SIZE, 0, 0, 0, 0);
    total(MAX_SIZE + 1, MOPSIENNA_SIZE, 0, 0, 0, 0);
    total(UINT64_MAX, MOPSIENNA_SIZE, 0, 0, 0, 0);
}

/* Three rows, and what docs/FORMAT.md has for their columns. */
static const uint8_t ROWS[24] = {0xD0, 0x07, 0xDC, 0x05, 0x2C, 0x01, 0x3C, 0x00, 0xDA, 0x07, 0xD2, 0x05,
                                 0x2C, 0x01, 0x3D, 0x00, 0xD5, 0x07, 0xD7, 0x05, 0x36, 0x01, 0x3C, 0x00};
static const uint8_t COLUMNS[24] = {0xD0, 0x07, 0x0A, 0x00, 0xFB, 0xFF, 0xDC, 0x05, 0xF6, 0xFF, 0x05, 0x00,
                                    0x2C, 0x01, 0x00, 0x00, 0x0A, 0x00, 0x3C, 0x00, 0x01, 0x00, 0xFF, 0xFF};

/* Bean goes round at 65,536, up and down; drum goes by half of it. */
static const uint8_t ROUND[24] = {0xFF, 0xFF, 1, 2, 3, 4, 0x00, 0x80, 0x00, 0x00, 5, 6,
                                  7, 8, 0x00, 0x00, 0xFF, 0xFF, 9, 9, 9, 9, 0x00, 0x80};
static const uint8_t ROUND_COLUMNS[24] = {0xFF, 0xFF, 0x01, 0x00, 0xFF, 0xFF, 1, 2, 4, 4, 4, 3,
                                          3, 4, 4, 4, 2, 1, 0x00, 0x80, 0x00, 0x80, 0x00, 0x80};

typedef uint32_t rearrangement(const uint8_t *, size_t, uint8_t *, size_t);

/* `from` gives `len` bytes in a second buffer of `room`, whose later bytes stay; on a refusal all do. */
static void rearrange(const char *call, rearrangement *way, const uint8_t *from, size_t len, size_t room,
                      uint32_t status, const uint8_t *expected) {
    uint8_t buffer[32];
    memset(buffer, 0xA5, sizeof buffer);
    size_t made = status == 0 ? len : 0;
    check(call, way(from, len, buffer, room) == status);
    check(call, memcmp(buffer, expected, made) == 0 && all(buffer, made, sizeof buffer, 0xA5));
}

static void recordings(void) {
    rearrange("columns", mopsienna_columns, ROWS, 24, 32, 0, COLUMNS);
    rearrange("rows", mopsienna_rows, COLUMNS, 24, 32, 0, ROWS);
    rearrange("columns, just room", mopsienna_columns, ROWS, 24, 24, 0, COLUMNS);
    rearrange("rows, just room", mopsienna_rows, COLUMNS, 24, 24, 0, ROWS);
    rearrange("columns, going round", mopsienna_columns, ROUND, 24, 24, 0, ROUND_COLUMNS);
    rearrange("rows, going round", mopsienna_rows, ROUND_COLUMNS, 24, 24, 0, ROUND);
    rearrange("columns of one row", mopsienna_columns, ROWS, 8, 9, 0, ROWS);
    rearrange("one row", mopsienna_rows, ROWS, 8, 9, 0, ROWS);
    rearrange("columns of no row", mopsienna_columns, ROWS, 0, 0, 0, ROWS);
    rearrange("no row", mopsienna_rows, ROWS, 0, 0, 0, ROWS);
    for (size_t len = 1; len < 24; len++) {
        if (len % 8 == 0)
            continue;
        rearrange("columns of a part of a row", mopsienna_columns, ROWS, len, 24, MOPSIENNA_ROWS, ROWS);
        rearrange("a part of a row", mopsienna_rows, ROWS, len, 24, MOPSIENNA_ROWS, ROWS);
    }
    for (size_t room = 0; room < 24; room++) {
        rearrange("columns, no room", mopsienna_columns, ROWS, 24, room, MOPSIENNA_SECOND_BUFFER, ROWS);
        rearrange("rows, no room", mopsienna_rows, ROWS, 24, room, MOPSIENNA_SECOND_BUFFER, ROWS);
    }
    rearrange("columns of a part, no room", mopsienna_columns, ROWS, 23, 22, MOPSIENNA_ROWS, ROWS);
    rearrange("a part, no room", mopsienna_rows, ROWS, 23, 22, MOPSIENNA_ROWS, ROWS);
}

int main(void) {
    saves();
    repeats_in_saves();
    maps_in_saves();
    full_pages_in_saves();
    short_lists();
    two_pages();
    full_lists();
    values();
    sizes_in_cells();
    lookups();
    grows();
    totals();
    recordings();

    printf("C interface, pages of %d bytes: %d checks, %d wrong\n", PAGE, checks, failures);
    return failures != 0;
}
