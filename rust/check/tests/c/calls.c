/* Every call from C, on a sound tray and on bad input, through the header alone. Prints 'N passed, M failed', and its status says the same. */
#include "kanyorith.h"

#include <stdio.h>
#include <stdlib.h>
#include <string.h>

static int passed, failed;

static void check(int right, const char *what) {
    if (right) {
        passed++;
    } else {
        failed++;
        printf("calls: FAILED: %s\n", what);
    }
}

/* The worked example of docs/FORMAT.md: run 0 has point 1 of sheet 7, run 1 an old version of it, and point 2. */
static const uint8_t sample_tray[83] = {
    2, 0, 0, 0, 0, 1, 0, 2,                                                                /* two runs, of one record and of two */
    0, 0, 0, 0, 0, 7, 0, 1, 0, 0, 0, 3,   32, 0, 0, 1, 144, 0, 0, 0, 1, 0,   0,   0,   2,  /* point 1, column 800, row 400 */
    0, 0, 0, 0, 0, 7, 0, 1, 0, 0, 0, 0, 100, 0, 0, 0,  50, 0, 0, 0, 1, 0,   0,   0,   2,   /* point 1, column 100, row 50 */
    0, 0, 0, 0, 0, 7, 0, 2, 0, 0, 0, 0, 101, 0, 0, 0,  50, 0, 0, 0, 0, 255, 255, 255, 255, /* point 2, column 101, row 50 */
};

/* Its index for segments of 4 selectors. */
static const uint8_t sample_index[24] = {
    2, 4, 0, 0, 0, 0, 0, 1,       /* two runs, D 4, one segment */
    0, 0, 0, 0, 0, 7, 0, 1,       /* the anchor */
    0, 0, 0, 0, 0x00, 0x81, 0x01, /* offsets, and three records */
    0x3f,                         /* a placeholder */
};

/* Both in blocks of exactly their length, so that a memory checker sees every byte read past them. */
static uint8_t *tray, *tray_index;
#define TRAY tray, sizeof sample_tray
#define INDEX tray_index, sizeof sample_index

static uint8_t *block(const uint8_t *bytes, size_t length) {
    uint8_t *copy = (uint8_t *)malloc(length);
    if (copy == NULL) exit(2);
    memcpy(copy, bytes, length);
    return copy;
}

static const uint8_t point_1[KANYORITH_KEY_SIZE] = {0, 0, 0, 0, 0, 7, 0, 1};
static const uint8_t point_2[KANYORITH_KEY_SIZE] = {0, 0, 0, 0, 0, 7, 0, 2};
static const uint8_t point_3[KANYORITH_KEY_SIZE] = {0, 0, 0, 0, 0, 7, 0, 3};

/* The value of a point as it stands in the tray. */
static const uint8_t *value_of(int record) { return tray + 8 + 25 * record + 9; }

/* Whether every byte is still the one that an output was filled with. */
static int untouched(const uint8_t *from, const uint8_t *to) {
    while (from < to) {
        if (*from++ != 0xaa) return 0;
    }
    return 1;
}

static void check_tray(void) {
    uint64_t figure = 99;
    uint8_t bad[83];
    check(kanyorith_check_tray(TRAY, &figure) == KANYORITH_OK && figure == 3, "check tray: 3 records");
    check(kanyorith_check_tray(tray, 82, &figure) == KANYORITH_TRAY_FRAME && figure == 0, "check tray: a byte short");
    check(kanyorith_check_tray(tray, 0, &figure) == KANYORITH_TRAY_FRAME && figure == 0, "check tray: nothing");
    memcpy(bad, tray, 83);
    bad[8 + 50 + 7] = 1;
    check(kanyorith_check_tray(bad, 83, &figure) == KANYORITH_KEY_ORDER && figure == 2, "check tray: an equal key");
    bad[8 + 25 + 8] = 1;
    check(kanyorith_check_tray(bad, 83, &figure) == KANYORITH_RECORD_KIND && figure == 1, "check tray: gone with a value");
}

static void check_index(void) {
    uint64_t figure = 99;
    uint8_t bad[24];
    check(kanyorith_check_index(TRAY, INDEX, &figure) == KANYORITH_OK && figure == 1, "check index: 1 segment");
    check(kanyorith_check_index(TRAY, tray_index, 23, &figure) == KANYORITH_INDEX_FRAME && figure == 0, "check index: a byte short");
    check(kanyorith_check_index(tray, 80, INDEX, &figure) == KANYORITH_TRAY_FRAME, "check index: no tray");
    memcpy(bad, tray_index, 24);
    bad[21] = 0x01;
    check(kanyorith_check_index(TRAY, bad, 24, &figure) == KANYORITH_SEGMENT && figure == 0, "check index: an old mark left off");
}

static void build(void) {
    uint64_t figure = 99;
    uint8_t out[30];
    memset(out, 0xaa, sizeof out);
    check(kanyorith_build(TRAY, 4, out, 23, &figure) == KANYORITH_ROOM && figure == 24, "build: a byte short");
    check(untouched(out, out + 30), "build: refused, it writes nothing");
    check(kanyorith_build(TRAY, 4, out, 30, &figure) == KANYORITH_OK && figure == 24, "build: 24 bytes");
    check(memcmp(out, tray_index, 24) == 0, "build: the index");
    check(untouched(out + 24, out + 30), "build: nothing past it");
    check(kanyorith_build(TRAY, 1, out, 30, &figure) == KANYORITH_SEGMENT_SIZE && figure == 1, "build: D below H");
    check(kanyorith_build(TRAY, 129, out, 30, &figure) == KANYORITH_SEGMENT_SIZE && figure == 129, "build: D 129");
    check(kanyorith_build(TRAY, UINT64_MAX, out, 30, &figure) == KANYORITH_SEGMENT_SIZE && figure == UINT64_MAX, "build: the widest D");
    check(kanyorith_build(tray, 8, 4, out, 30, &figure) == KANYORITH_TRAY_FRAME && figure == 0, "build: no tray");
}

static void get(void) {
    uint64_t figure = 99;
    uint8_t value[KANYORITH_VALUE_SIZE];
    uint8_t lost[24];
    memset(value, 0xaa, sizeof value);
    check(kanyorith_get(TRAY, INDEX, point_3, value, &figure) == KANYORITH_OK && figure == 0, "get: absent");
    check(untouched(value, value + 16), "get: absent, it writes nothing");
    check(kanyorith_get(TRAY, tray_index, 8, point_1, value, &figure) == KANYORITH_INDEX_FRAME && figure == 0, "get: no index");
    check(untouched(value, value + 16), "get: refused, it writes nothing");
    check(kanyorith_get(TRAY, INDEX, point_1, value, &figure) == KANYORITH_OK && figure == 1, "get: found");
    check(memcmp(value, value_of(0), 16) == 0, "get: the newest value");
    memcpy(lost, tray_index, 24);
    lost[22] = 0x05;
    check(kanyorith_get(TRAY, lost, 24, point_2, value, &figure) == KANYORITH_LOST && figure == 2, "get: lost at selector 2");
}

static void seek_and_next(void) {
    uint64_t figure = 99;
    uint8_t run = 77;
    uint16_t place = 777;
    kanyorith_cursor cursor, kept;
    kanyorith_cursor end = {0, 1};
    memset(cursor, 0xaa, sizeof cursor);
    memcpy(kept, cursor, sizeof kept);
    check(kanyorith_seek(tray, 0, INDEX, point_1, &run, &place, cursor, &figure) == KANYORITH_TRAY_FRAME, "seek: no tray");
    check(run == 77 && place == 777 && memcmp(cursor, kept, sizeof kept) == 0, "seek: refused, it writes nothing");
    check(kanyorith_seek(TRAY, INDEX, point_1, &run, &place, cursor, &figure) == KANYORITH_OK && figure == 1, "seek: found");
    check(run == 0 && place == 0, "seek: the newest version");
    check(kanyorith_next(TRAY, INDEX, &run, &place, cursor, &figure) == KANYORITH_OK && figure == 1, "next: found");
    check(run == 1 && place == 1, "next: past the old version");
    check(cursor[0] == 0 && cursor[1] == 0 && cursor[2] == 2 && cursor[3] == 1 && cursor[4] == 1, "next: segment, selector and places");
    memcpy(kept, cursor, sizeof kept);
    cursor[5]++;
    check(kanyorith_next(TRAY, INDEX, &run, &place, cursor, &figure) == KANYORITH_CURSOR && figure == 0, "next: a cursor that doesn't belong");
    memcpy(cursor, kept, sizeof kept);
    run = 77;
    place = 777;
    check(kanyorith_next(TRAY, INDEX, &run, &place, cursor, &figure) == KANYORITH_OK && figure == 0, "next: the end");
    check(run == 77 && place == 777 && memcmp(cursor, end, sizeof end) == 0, "next: the cursor of the end alone");
    check(kanyorith_next(TRAY, INDEX, &run, &place, cursor, &figure) == KANYORITH_OK && figure == 0, "next: the end again");
    check(kanyorith_seek(TRAY, INDEX, point_3, &run, &place, cursor, &figure) == KANYORITH_OK && figure == 0, "seek: the end");
    check(memcmp(cursor, end, sizeof end) == 0, "seek: the cursor of the end");
}

static void page(void) {
    uint64_t figure = 99, count = 99;
    uint8_t out[60], run;
    uint8_t lost[24];
    uint16_t place;
    kanyorith_cursor cursor, start;
    check(kanyorith_seek(TRAY, INDEX, point_1, &run, &place, start, &figure) == KANYORITH_OK, "page: a cursor");
    memcpy(cursor, start, sizeof start);
    memset(out, 0xaa, sizeof out);
    check(kanyorith_page(TRAY, INDEX, cursor, out, 47, &count, &figure) == KANYORITH_OK && figure == 1 && count == 1, "page: one and more");
    check(memcmp(out, point_1, 8) == 0 && memcmp(out + 8, value_of(0), 16) == 0, "page: key and value");
    check(untouched(out + 24, out + 60), "page: nothing past it");
    check(kanyorith_page(TRAY, INDEX, cursor, out, 24, &count, &figure) == KANYORITH_OK && figure == 0 && count == 1, "page: one and the end");
    check(memcmp(out, point_2, 8) == 0 && memcmp(out + 8, value_of(2), 16) == 0, "page: the second");
    check(kanyorith_page(TRAY, INDEX, cursor, out, 60, &count, &figure) == KANYORITH_OK && figure == 0 && count == 0, "page: from the end");
    memcpy(lost, tray_index, 24);
    lost[22] = 0xff;
    memcpy(cursor, start, sizeof start);
    count = 99;
    check(kanyorith_page(TRAY, lost, 24, cursor, out, 60, &count, &figure) == KANYORITH_LOST && figure == 2 && count == 1, "page: lost after one");
    check(memcmp(out, point_1, 8) == 0 && memcmp(cursor, start, sizeof start) == 0, "page: lost, it keeps the record and the cursor");
    cursor[2] = 9;
    check(kanyorith_page(TRAY, INDEX, cursor, out, 60, &count, &figure) == KANYORITH_CURSOR && figure == 0 && count == 0, "page: a cursor that doesn't belong");
}

static void sheet(void) {
    uint64_t figure = 99;
    uint8_t out[50];
    const uint8_t last_byte[2] = {0, 255};
    memset(out, 0xaa, sizeof out);
    check(kanyorith_sheet(TRAY, INDEX, point_1, 6, out, 47, &figure) == KANYORITH_ROOM && figure == 48, "sheet: a byte short");
    check(untouched(out, out + 50), "sheet: refused, it writes nothing");
    check(kanyorith_sheet(TRAY, INDEX, point_1, 6, out, 50, &figure) == KANYORITH_OK && figure == 2, "sheet: 2 records");
    check(memcmp(out, point_1, 8) == 0 && memcmp(out + 24, point_2, 8) == 0 && memcmp(out + 32, value_of(2), 16) == 0, "sheet: in key order");
    check(untouched(out + 48, out + 50), "sheet: nothing past them");
    check(kanyorith_sheet(TRAY, INDEX, point_1, 0, out, 50, &figure) == KANYORITH_BOUNDS && figure == 0, "sheet: no prefix");
    check(kanyorith_sheet(TRAY, INDEX, tray, 9, out, 50, &figure) == KANYORITH_BOUNDS && figure == 9, "sheet: nine bytes");
    check(kanyorith_sheet(TRAY, INDEX, last_byte, 2, out, 50, &figure) == KANYORITH_PREFIX_END && figure == 2, "sheet: 00ff");
}

static void fold(void) {
    uint64_t figure = 99;
    uint8_t out[90];
    const uint8_t head[6] = {1, 0, 0, 0, 0, 2};
    memset(out, 0xaa, sizeof out);
    check(kanyorith_fold(TRAY, 0, 1, out, 55, &figure) == KANYORITH_ROOM && figure == 56, "fold: a byte short");
    check(untouched(out, out + 90), "fold: refused, it writes nothing");
    check(kanyorith_fold(TRAY, 0, 1, out, 90, &figure) == KANYORITH_OK && figure == 56, "fold: 56 bytes");
    check(memcmp(out, head, 6) == 0 && memcmp(out + 6, tray + 8, 25) == 0 && memcmp(out + 31, tray + 58, 25) == 0, "fold: the newest of each key");
    check(untouched(out + 56, out + 90), "fold: nothing past it");
    check(kanyorith_fold(TRAY, 1, 1, out, 90, &figure) == KANYORITH_OK && figure == 83 && memcmp(out, tray, 83) == 0, "fold: a copy");
    check(kanyorith_fold(TRAY, 1, 0, out, 90, &figure) == KANYORITH_BOUNDS && figure == 0, "fold: a above b");
    check(kanyorith_fold(TRAY, 0, (uint64_t)1 << 32, out, 90, &figure) == KANYORITH_BOUNDS && figure == (uint64_t)1 << 32, "fold: a wide b");
}

/* Two runs that share no key and have 4,097 records. */
static void fold_too_long(void) {
    static uint8_t long_tray[4 + 2 * 2 + 25 * 4097];
    static uint8_t out[sizeof long_tray];
    uint64_t figure = 99;
    long_tray[0] = 2;
    long_tray[4] = 0x10;
    long_tray[7] = 1;
    for (int record = 0; record < 4097; record++) {
        uint8_t *key = long_tray + 8 + 25 * record;
        key[6] = (uint8_t)(record >> 8);
        key[7] = (uint8_t)record;
    }
    check(kanyorith_check_tray(long_tray, sizeof long_tray, &figure) == KANYORITH_OK && figure == 4097, "fold: a sound tray");
    check(kanyorith_fold(long_tray, sizeof long_tray, 0, 1, out, sizeof out, &figure) == KANYORITH_RUN_LENGTH && figure == 4097, "fold: 4,097 records");
}

static void texts(void) {
    for (uint32_t number = 0; number <= 12; number++) {
        check(strcmp(kanyorith_refusal_text(number), "no such refusal") != 0, "a text for each number");
        check(strcmp(kanyorith_refusal_text(number), kanyorith_refusal_text(number + 1)) != 0, "a text of its own");
    }
    check(strcmp(kanyorith_refusal_text(13), "no such refusal") == 0, "no text for 13");
}

static void version(void) {
    char text[64];
    snprintf(text, sizeof text, "%d.%d.%d", KANYORITH_VERSION_MAJOR, KANYORITH_VERSION_MINOR, KANYORITH_VERSION_PATCH);
    check(strcmp(text, KANYORITH_VERSION) == 0, "the version as numbers and as a string");
}

int main(void) {
    tray = block(sample_tray, sizeof sample_tray);
    tray_index = block(sample_index, sizeof sample_index);
    check_tray();
    check_index();
    build();
    get();
    seek_and_next();
    page();
    sheet();
    fold();
    fold_too_long();
    texts();
    version();
    free(tray);
    free(tray_index);
    printf("%d passed, %d failed\n", passed, failed);
    return failed != 0;
}
