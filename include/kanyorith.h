/* kanyorith.h: control points of scanned maps, read through REMIX indexes.
 *
 * A tray is up to 63 sorted runs of points, newest first. An index belongs to a tray and says, key by key, which run the next point comes from.
 * The library checks trays and indexes, builds indexes, answers through an index, and folds neighbouring runs into one. The formats are described
 * in docs/FORMAT.md, and what is proved of each call in docs/PROMISES.md.
 *
 * CONVENTIONS
 *
 * Input. Every call accepts any bytes, and returns. A tray, an index, a key, a prefix or a cursor need not be valid: if it is not, the call's
 * answer says what is wrong.
 *
 * Memory. The caller owns all memory. A call reads and writes only what it is given, keeps no pointer after it returns, allocates nothing, has
 * no state, and may run in any number of threads at once. A pair (pointer, length) gives the call that many bytes. The pointer of an empty pair is
 * not dereferenced, but it must not be NULL: pass any address. Every other pointer must point to what its type says. Memory that a call writes to
 * must not overlap with anything else that the call is given.
 *
 * Answers. Each call returns the number of its refusal, or 0 (KANYORITH_OK), and writes one figure to *figure. If nothing is refused, the figure
 * is the call's answer. If the call is refused, the figure belongs to the refusal:
 *
 *      number                         returned exactly when                                                   figure
 *   1  KANYORITH_TRAY_FRAME           the tray breaks the header, count or length rules                       0
 *   2  KANYORITH_KEY_ORDER            a key is not above the key before it in its run                         record, counted over the tray
 *   3  KANYORITH_RECORD_KIND          a kind is above 1, or a gone record has a value                         record, counted over the tray
 *   4  KANYORITH_INDEX_FRAME          the index has under 8 bytes, an H other than the tray's, a D outside    0
 *                                     H to 128, a byte 2 or 3 that is not 0, or a length other than
 *                                     8 + S (8 + 2 H + D)
 *   5  KANYORITH_SEGMENT              the index is not accepted, though refusal 4 does not apply              first wrong segment, or S if
 *                                                                                                             records are left over
 *   6  KANYORITH_SEGMENT_SIZE         the D asked for is outside H to 128                                     D
 *   7  KANYORITH_ROOM                 the output is too short                                                 bytes needed
 *   8  KANYORITH_BOUNDS               fold: a > b or b >= H; sheet: a prefix of 0 or more than 8 bytes        b; the prefix's length
 *   9  KANYORITH_PREFIX_END           the prefix's last byte is 255                                           the prefix's length
 *  10  KANYORITH_LOST                 the walk is lost: a selector names a run or a place that is not there   segment * 128 + selector
 *  11  KANYORITH_CURSOR               the cursor does not belong to this index                                the cursor's segment
 *  12  KANYORITH_RUN_LENGTH           the folded run would have more than 4,096 records                       its number of records
 *
 * H is the tray's number of runs, D the index's segment size, S its number of segments. Records, segments and selectors count from 0.
 *
 * Order. Each call lists its refusals below in the order of its tests, and returns the first that applies. "3/2" stands for the first wrong record
 * in tray order: 2 or 3, and 3 if both apply to it.
 *
 * After a refusal. A refused call has written *figure, and page has also written *count. Outputs, cursor, run and place are as they were, with one
 * exception: a page refused by 10 keeps the records that it has written, and *count says how many; refused by any other number, it has written
 * none. No call touches an output past what it writes.
 *
 * Visible records. A record is old if a newer run has its key, and gone if its kind is 1, which says that the point is deleted. The index marks
 * both. A record that bears neither mark is visible.
 *
 * Accepted indexes. The quick calls (get, seek, next, page, sheet) test 1, 4 and every place that they follow, not the whole index. If
 * kanyorith_check_index accepts tray and index, these calls are never refused by 10, and they give exactly the points of the full merge whose newest
 * version is not deleted, in that version and in key order. An index that is not accepted may hide points or show old ones.
 */
#ifndef KANYORITH_H
#define KANYORITH_H

#include <stddef.h>
#include <stdint.h>

#ifdef __cplusplus
extern "C" {
#endif

/* The version of this header and of the library that it belongs to. */
#define KANYORITH_VERSION_MAJOR 0
#define KANYORITH_VERSION_MINOR 1
#define KANYORITH_VERSION_PATCH 0
#define KANYORITH_VERSION "0.1.0"

enum {
    KANYORITH_OK = 0,
    KANYORITH_TRAY_FRAME = 1,
    KANYORITH_KEY_ORDER = 2,
    KANYORITH_RECORD_KIND = 3,
    KANYORITH_INDEX_FRAME = 4,
    KANYORITH_SEGMENT = 5,
    KANYORITH_SEGMENT_SIZE = 6,
    KANYORITH_ROOM = 7,
    KANYORITH_BOUNDS = 8,
    KANYORITH_PREFIX_END = 9,
    KANYORITH_LOST = 10,
    KANYORITH_CURSOR = 11,
    KANYORITH_RUN_LENGTH = 12
};

/* Sizes in bytes: a key, a value, a record of a listing (key, then value), a record of a tray (key, kind, value). */
enum {
    KANYORITH_KEY_SIZE = 8,
    KANYORITH_VALUE_SIZE = 16,
    KANYORITH_LISTED_SIZE = 24,
    KANYORITH_RECORD_SIZE = 25
};

/* A cursor is 66 numbers: the high and the low 16 bits of the segment, the selector, and 63 places. Keep it as a whole and pass it back as it
 * is. It holds no pointer, and may be copied, stored and used again with the same tray and index. The cursor of the end is (S, 0, all places 0). */
enum { KANYORITH_CURSOR_SIZE = 66 };
typedef uint16_t kanyorith_cursor[KANYORITH_CURSOR_SIZE];

/* Check tray. Answers how many records a sound tray has.
 * Refusals: 1, 3/2. */
uint32_t kanyorith_check_tray(const uint8_t *tray, size_t tray_length, uint64_t *figure);

/* Check index. Answers how many segments the index has, if it follows the rules for that tray.
 * Refusals: 1, 3/2, 4, 5. */
uint32_t kanyorith_check_index(const uint8_t *tray, size_t tray_length, const uint8_t *index, size_t index_length, uint64_t *figure);

/* Build. Writes the index of a tray, with segments of d selectors, to the front of out, and answers its length in bytes. Check index accepts
 * what is built.
 * Refusals: 1, 6, 3/2, 7. */
uint32_t kanyorith_build(const uint8_t *tray, size_t tray_length, uint64_t d, uint8_t *out, size_t out_length, uint64_t *figure);

/* Get. Answers 1 and writes the key's value, or answers 0 if the key is absent, and leaves value as it was.
 * Refusals: 1, 4, 10. */
uint32_t kanyorith_get(const uint8_t *tray, size_t tray_length, const uint8_t *index, size_t index_length, const uint8_t key[KANYORITH_KEY_SIZE],
                       uint8_t value[KANYORITH_VALUE_SIZE], uint64_t *figure);

/* Seek. Finds the first visible record at or above the key: answers 1, and writes its run, its place in the run, and the cursor there. At the end
 * it answers 0, writes the cursor of the end, and leaves run and place as they were.
 * Refusals: 1, 4, 10. */
uint32_t kanyorith_seek(const uint8_t *tray, size_t tray_length, const uint8_t *index, size_t index_length, const uint8_t key[KANYORITH_KEY_SIZE],
                        uint8_t *run, uint16_t *place, kanyorith_cursor cursor, uint64_t *figure);

/* Next. Moves the cursor to the first visible record after its own, and answers as seek does. From the end it stays at the end.
 * Refusals: 1, 4, 11, 10. */
uint32_t kanyorith_next(const uint8_t *tray, size_t tray_length, const uint8_t *index, size_t index_length, uint8_t *run, uint16_t *place,
                        kanyorith_cursor cursor, uint64_t *figure);

/* Page. Writes key and value of each visible record from the cursor on, KANYORITH_LISTED_SIZE bytes each, until out has no room for another or the
 * end is reached, and moves the cursor to the first record that is not written. Answers 1 if there is one, and 0 at the end. *count is how many
 * records were written, whatever the answer. With room for one record, a page that is not refused writes a record or answers 0.
 * Refusals: 1, 4, 11, 10. Refused by 10, it keeps what it has written. */
uint32_t kanyorith_page(const uint8_t *tray, size_t tray_length, const uint8_t *index, size_t index_length, kanyorith_cursor cursor, uint8_t *out,
                        size_t out_length, uint64_t *count, uint64_t *figure);

/* Sheet. Writes key and value of each visible record from the prefix on, KANYORITH_LISTED_SIZE bytes each, up to the first key past the prefix, and
 * answers how many. Through an accepted index these are exactly the points whose key begins with the prefix, in key order.
 * Refusals: 1, 4, 8, 9, 10, 7. It writes nothing unless there is room for all of it. */
uint32_t kanyorith_sheet(const uint8_t *tray, size_t tray_length, const uint8_t *index, size_t index_length, const uint8_t *prefix,
                         size_t prefix_length, uint8_t *out, size_t out_length, uint64_t *figure);

/* Fold. Writes a tray in which the runs a to b are one run to the front of out, and answers its length in bytes. What can be read stays the same.
 * Refusals: 1, 8, 3/2, 12, 7. */
uint32_t kanyorith_fold(const uint8_t *tray, size_t tray_length, uint64_t a, uint64_t b, uint8_t *out, size_t out_length, uint64_t *figure);

/* A refusal as a sentence, without its figure. */
static inline const char *kanyorith_refusal_text(uint32_t number) {
    switch (number) {
    case KANYORITH_OK: return "nothing is refused";
    case KANYORITH_TRAY_FRAME: return "the tray breaks the header, count or length rules";
    case KANYORITH_KEY_ORDER: return "a key is not above the key before it in its run";
    case KANYORITH_RECORD_KIND: return "a record's kind is above 1, or a gone record has a value";
    case KANYORITH_INDEX_FRAME: return "the index breaks the header or length rules, or is for another number of runs";
    case KANYORITH_SEGMENT: return "the index is not accepted: a segment is wrong, or records are left over";
    case KANYORITH_SEGMENT_SIZE: return "the segment size asked for is outside the number of runs to 128";
    case KANYORITH_ROOM: return "the output is too short";
    case KANYORITH_BOUNDS: return "the runs to fold, or the length of the prefix, are out of bounds";
    case KANYORITH_PREFIX_END: return "the last byte of the prefix is 255";
    case KANYORITH_LOST: return "the walk is lost: a selector names a run or a place that is not there";
    case KANYORITH_CURSOR: return "the cursor does not belong to this index";
    case KANYORITH_RUN_LENGTH: return "the folded run would have more than 4,096 records";
    default: return "no such refusal";
    }
}

#ifdef __cplusplus
}
#endif

#endif
