/*
 * strip: a rectangle filter for strip scanners.
 *
 * A scan is rows of `width` samples, read top to bottom. A table gives 1 to 16 rectangles, each with a signed weight. Each place of the
 * scan yields one pixel: the weighted sum of the samples under the rectangles, shifted right by t and rounded downwards. Samples outside
 * the scan count as zero, and a dead sample as the nearest live one to its left in its row.
 *
 * Beside it stands the ranked window: one rectangle with a rank and no weight. Each place of the scan yields one level, the rank-th
 * smallest of the samples under the window. There, samples outside the scan are not counted; a dead sample counts as in the filter.
 *
 * examples/scan.c has a whole scan in a page; docs/RULES.md has the rules behind every number here.
 *
 * Link with libstrip.a, or with libstrip.so, which offers the calls below and no other name. Both are for x86-64, any of them; they need
 * memcpy and memset and nothing else, allocate nothing and keep nothing between calls, so that calls on different scans may run side by side.
 *
 * What holds of every call:
 *   - It accepts any numbers. Questions are asked in a fixed order, and the first no ends the call with that question's number and a
 *     place. The numbers are in strip_refusal; the place is 0 but for STRIP_SAMPLE and STRIP_SUM.
 *   - A refused call leaves every lent array as it was, and hands the scan back as it was, every byte of its fields; of
 *     strip_scan_rows this holds row by row.
 *   - A pointer points to at least as many elements as the length after it says, aligned for its type; where that length is 0 it may be
 *     null. The arrays lent to one call do not overlap.
 *   - A bool that is handed in, as `closed` of a scan, holds 0 or 1, as every bool does that C itself stores; a scan that was copied from
 *     raw bytes may hold something else, and then nothing is promised. A bool that is handed out holds 0 or 1.
 *   - It ends, and does not write beyond the elements that its description names.
 *
 * Was it refused? STRIP_OK and STRIP_REFUSED are both 0 and mean the opposite, so test the field that the answer has:
 *   - `refusal` (loading, writing, starting, closing, several rows, one pixel, two tables): refused where it is not STRIP_OK.
 *   - `kind` (a row, a closing step): refused where it is STRIP_REFUSED; then `number` is the refusal.
 *
 * Stack: the most bytes that a call takes, whatever its table and width, with what it is handed and hands back by value. bench/stack.c
 * measures it with gcc on x86-64, and the gate holds this list to what it measures.
 *   strip_table_check    1,024      strip_scan_start     1,024      strip_rank_start       256
 *   strip_table_load     1,280      strip_scan_row      16,384      strip_rank_row       4,864
 *   strip_table_write      768      strip_scan_rows     16,896      strip_rank_step      4,864
 *   strip_pixel          1,024      strip_scan_step     16,128      strip_rank_close       256
 *   strip_same           1,280      strip_scan_close     1,280
 */
#ifndef STRIP_H
#define STRIP_H

#include <stdbool.h>
#include <stddef.h>
#include <stdint.h>

#ifdef __cplusplus
extern "C" {
#endif

/* ---- numbers ---- */

/* The version of this header. A change of STRIP_VERSION_MAJOR can break a caller's code, one of STRIP_VERSION_MINOR adds to it. */
#define STRIP_VERSION_MAJOR 1
#define STRIP_VERSION_MINOR 2
#define STRIP_VERSION_PATCH 0
#define STRIP_VERSION "1.2.0"

/* Limits and sizes. */
#define STRIP_RECTS 16               /* rectangles of a table, 1 to 16 */
#define STRIP_BITS_MOST 12           /* bits b of a sample, 1 to 12; of a ranked scan 1 to 8 */
#define STRIP_WIDTH_MOST 1024        /* samples of a row, 1 to 1,024 */
#define STRIP_ROWS_MOST 65535        /* rows of a scan, 0 to 65,535 */
#define STRIP_DELAY_MOST 15          /* rows that a filtered row can be late, 0 to 15 */
#define STRIP_KEPT_ROWS 32           /* rows in the sample store */
#define STRIP_FILE_MOST 153          /* bytes of a table file: 9 + 9 * STRIP_RECTS */
#define STRIP_FILE_READ 156          /* bytes of any file that decide its answer: STRIP_FILE_MOST and a field mark */
#define STRIP_LEVELS 256             /* counts of a column, and of the window, in the stores of a ranked scan */
#define STRIP_SIDE 31                /* rows, and columns, that rectangles can cover around a pixel: offsets -15 to 15 */
#define STRIP_SPOT (STRIP_SIDE * STRIP_SIDE)   /* samples that strip_same needs room for: 961 */

/* A sample that says: this element of the sensor failed. It counts as the nearest live sample to its left in its row, or as zero where
   there is none. */
#define STRIP_DEAD 65535

/* Elements that a scan of rows of `width` samples needs: in the sample store, and in the sum store with `rects` rectangles. The output
   needs `width` elements. */
#define STRIP_SAMPLES(width) (STRIP_KEPT_ROWS * (size_t)(width))
#define STRIP_SUMS(rects, width) ((size_t)(rects) * (size_t)(width))

/* Elements that a ranked scan of rows of `width` samples needs in its column counts. Its sample store needs STRIP_SAMPLES(width), its
   window counts STRIP_LEVELS and its output `width`. */
#define STRIP_COUNTS(width) (STRIP_LEVELS * (size_t)(width))

/* The level of a place with no sample of the scan under the window. */
#define STRIP_EMPTY (-1)

/* The refusals. Each begins with the sentence that strip_refusal_text has for it. */
typedef enum {
    STRIP_OK = 0,              /* accepted: no refusal */

    /* loading a table file; 3 and 8 are asked of a ranked window too */
    STRIP_NO_HEADER = 1,       /* the file does not begin with the header 01 00 06 */
    STRIP_CUT_OFF = 2,         /* a field is cut off */
    STRIP_BITS = 3,            /* b is not from 1 to 12 */
    STRIP_DROPS = 4,           /* q1 is not below b, or q2 or q3 is above 8 */
    STRIP_WORD = 5,            /* t is above 31, or w is not from 8 to 32 */
    STRIP_TOO_MANY = 6,        /* there are more than 16 rectangles: a field mark after the sixteenth */
    STRIP_NO_FIELD = 7,        /* a field does not begin with 02 00 06, after sixteen rectangles too */
    STRIP_EDGES = 8,           /* a lead is not from -15 to 15, a trail not from -16 to 14, or a trail is not below its lead */
    STRIP_NO_RECT = 9,         /* there is no rectangle */
    STRIP_EXTREMES = 10,       /* the largest or the smallest pixel does not fit w bits: without drops by the weight grid, so that some
                                  scan has such a pixel; with drops by the rectangles one by one */

    /* tables, widths, arrays */
    STRIP_TABLE = 11,          /* the table is not one that loading accepts */
    STRIP_WIDTH = 12,          /* the width is not from 1 to 1024 */
    STRIP_TOO_SHORT = 13,      /* a store or an output is too short */

    /* scans */
    STRIP_STATE = 14,          /* the numbers of the scan do not agree */
    STRIP_CLOSED = 15,         /* the scan is closed, or at a closing step it is not */
    STRIP_FULL = 16,           /* 65535 rows are in */
    STRIP_LENGTH = 17,         /* the number of samples does not go with the width: of a row it is not `width`; of strip_pixel it is not
                                  `width` times 1 to 65,535 */
    STRIP_SAMPLE = 18,         /* a sample is above 2^b - 1 and not 65535, the mark of a dead one; place: the lowest index of one */
    STRIP_SUM = 19,            /* a column sum, a count or a pixel cannot be: the stores or the scan are not those of the last call;
                                  place: the lowest rectangle, from 0, with such a column sum; the number of rectangles where a pixel
                                  that is due does not fit its word; 0 in a ranked scan, where a kept sample is no level or a count
                                  cannot be */
    STRIP_OUTSIDE = 20,        /* the row or the column is outside the scan */
    STRIP_NOT_ROWS = 21,       /* samples handed over together are no whole rows: their number is no multiple of `width` */

    /* ranked windows */
    STRIP_RANK = 22,           /* the rank is 0 or above the number of samples that the window covers */
    STRIP_RANK_BITS = 23,      /* b is above 8, the most that a ranked window takes */

    /* two tables compared */
    STRIP_UNLIKE = 24,         /* the two tables differ in b, t or w */
    STRIP_HAS_DROPS = 25       /* one of the two tables drops bits, or both do */
} strip_refusal;

/* What a refusal means, in a sentence without a full stop; empty for STRIP_OK and for a number that no call gives. */
static inline const char *strip_refusal_text(uint32_t number)
{
    static const char *const sentences[] = {
        /* sentences */
        "",
        "the file does not begin with the header 01 00 06",
        "a field is cut off",
        "b is not from 1 to 12",
        "q1 is not below b, or q2 or q3 is above 8",
        "t is above 31, or w is not from 8 to 32",
        "there are more than 16 rectangles",
        "a field does not begin with 02 00 06",
        "a lead is not from -15 to 15, a trail not from -16 to 14, or a trail is not below its lead",
        "there is no rectangle",
        "the largest or the smallest pixel does not fit w bits",
        "the table is not one that loading accepts",
        "the width is not from 1 to 1024",
        "a store or an output is too short",
        "the numbers of the scan do not agree",
        "the scan is closed, or at a closing step it is not",
        "65535 rows are in",
        "the number of samples does not go with the width",
        "a sample is above 2^b - 1 and not 65535, the mark of a dead one",
        "a column sum, a count or a pixel cannot be: the stores or the scan are not those of the last call",
        "the row or the column is outside the scan",
        "samples handed over together are no whole rows",
        "the rank is 0 or above the number of samples that the window covers",
        "b is above 8, the most that a ranked window takes",
        "the two tables differ in b, t or w",
        "one of the two tables drops bits",
        /* end */
    };
    return number < sizeof sentences / sizeof sentences[0] ? sentences[number] : "";
}

/* The kinds of an answer. */
typedef enum {
    STRIP_REFUSED = 0,         /* refused: `number` and `place` say why */
    STRIP_ROW = 1,             /* a filtered or ranked row is in the output: `number` is its row number */
    STRIP_WAITING = 2,         /* taken in, and no filtered or ranked row is due yet: `number` is 0 */
    STRIP_DONE = 3             /* all filtered or ranked rows are out (closing steps only): `number` is 0 */
} strip_kind;

/* ---- tables ---- */

/* A rectangle. For the pixel at row r, column c it covers rows r + trailrow + 1 to r + leadrow and columns c + trailcol + 1 to
   c + leadcol. */
typedef struct {
    int8_t leadrow, leadcol, trailrow, trailcol;
    int16_t weight;
} strip_rect;

/* A table: b bits a sample, drops q1, q2 and q3, shift t, pixel word of w bits, and `count` rectangles. Slots from `count` on are no
   part of it. */
typedef struct {
    uint8_t b, q1, q2, q3, t, w;
    size_t count;
    strip_rect rects[STRIP_RECTS];
} strip_table;

/* Checks the n bytes of a table file: 0, or the number of the refusal, 1 to 10. A file that is longer than STRIP_FILE_READ bytes is
   answered like its first STRIP_FILE_READ, so no more need be read; whoever reads less of a longer file may get another answer. */
uint32_t strip_table_check(const uint8_t *bytes, size_t n);

typedef struct {
    uint32_t refusal, place;
    strip_table table;
} strip_loaded;

/* Loads the table of the n bytes of a file. refusal: 0, or 1 to 10. table: the table, with zeros in the unused slots; refused, a table
   of zeros with no rectangle, which writing, starting, strip_pixel and strip_same refuse with 11, and every call on a scan that holds it
   with 14. */
strip_loaded strip_table_load(const uint8_t *bytes, size_t n);

typedef struct {
    uint32_t refusal, place;
    size_t length;
} strip_written;

/* Writes a table's file to the start of out, n bytes long. Asks 11, 13 (out is shorter than 9 + 9 * count). length: 9 + 9 * count, the
   bytes written; refused, 0. Nothing beyond them is touched. */
strip_written strip_table_write(strip_table table, uint8_t *out, size_t n);

/* ---- scans ---- */

/* A scan: its table and width, the rows that are in, the closing steps done, and whether it is closed. It is a value: hand each call the
   one that the last call handed out. `samples` and `sums` are the caller's too; between two calls of a scan nobody writes to them. */
typedef struct {
    strip_table table;
    size_t width;
    uint32_t rows, steps;
    bool closed;
} strip_scan;

typedef struct {
    uint32_t refusal, place;
    strip_scan scan;
} strip_started;

/* Starts a scan of rows of `width` samples. Asks 11, 12, 13 (n below 32 * width or m below count * width). Accepted, it sets the first
   32 * width samples and count * width sums to zero and touches nothing beyond. Refused, the scan handed out has width 0, and every
   call refuses it with 14. */
strip_started strip_scan_start(strip_table table, size_t width, uint16_t *samples, size_t n, uint32_t *sums, size_t m);

/* Closes a scan: no row follows, and closing steps fetch the filtered rows still due. Asks 14, 15. */
strip_started strip_scan_close(strip_scan scan);

typedef struct {
    uint32_t kind, number, place;   /* kind: a strip_kind */
    strip_scan scan;
} strip_answer;

/* Takes in a row of k samples. Asks 14, 15, 16, 17 (k is not width), 13 (a store, or o below width), 18, 19. Row r comes out with the
   arrival of row r + D, D the largest lead row of the table or 0: kind is STRIP_ROW with number r, and the first `width` elements of
   out hold the filtered row. Until then kind is STRIP_WAITING and out is not touched. A dead sample counts as said at STRIP_DEAD, and
   so the sample store keeps it; a 65,535 that somebody writes into the store is that number. scan: the scan with one row more. */
strip_answer strip_scan_row(strip_scan scan, const uint16_t *row, size_t k, uint16_t *samples, size_t n, uint32_t *sums, size_t m, int32_t *out, size_t o);

typedef struct {
    uint32_t refusal, place;
    size_t taken, filtered;         /* rows taken in, and filtered rows that came out */
    strip_scan scan;
} strip_burst;

/* Takes in several rows together: k samples, row after row. Asks 14, 15, 21 (k is no multiple of width), 13 (o below k); then each row
   as strip_scan_row does, one after the other, with 16, 13 (a store), 18, 19; a row that begins dead is not mended from the row before
   it. The filtered rows stand in out one after the other from its start. At a refused row it stops: the `taken` rows before it count,
   their `filtered` rows stand in out, and refusal and place are those of that row. refusal: 0 where all rows are taken, which is also
   the answer to no rows. scan: the scan with `taken` rows more. */
strip_burst strip_scan_rows(strip_scan scan, const uint16_t *rows, size_t k, uint16_t *samples, size_t n, uint32_t *sums, size_t m, int32_t *out, size_t o);

/* A closing step: as a row of zeros, after strip_scan_close. Asks 14, 15 (the scan is not closed); where D steps are past kind is
   STRIP_DONE and nothing changes; then 13, 19. Call it until STRIP_DONE: a scan of H rows has then given H filtered rows. scan: the scan
   with one step more. */
strip_answer strip_scan_step(strip_scan scan, uint16_t *samples, size_t n, uint32_t *sums, size_t m, int32_t *out, size_t o);

/* ---- one pixel ---- */

typedef struct {
    uint32_t refusal, place;
    int32_t value;
} strip_pixel_answer;

/* The pixel at row r, column c of a scan lent whole: n samples, row after row. Asks 11, 12, 17, 20, 18 (of all n samples, so that every
   call reads the whole scan: for many pixels use the calls of a scan). A dead sample counts as said at STRIP_DEAD, also where the live
   one lies left of the rectangle. value: the pixel, the same that the scan calls give; refused, 0. */
strip_pixel_answer strip_pixel(strip_table table, size_t width, const uint16_t *samples, size_t n, size_t r, size_t c);

/* ---- two tables compared ---- */

typedef struct {
    uint32_t refusal, place;
    bool same;
    int32_t row, col;
} strip_same_answer;

/* Whether two tables without drops and with equal b, t and w give the same values on every scan. They do exactly when at each offset from
   a pixel, -15 to 15 rows and columns, the weights of the rectangles that cover it add up to the same. Asks 11 of one, 11 of other, 24,
   25, 13 (n below STRIP_SPOT, also where the tables do the same).

   same: whether they do; row and col are then 0, and scan is not touched. Where they do not: row and col are the first offset, top row
   first and left to right, at which the weights differ, and the first STRIP_SPOT elements of scan hold 31 rows of 31 samples: 2^b - 1 at
   that offset from the centre, 0 elsewhere. strip_pixel takes them with either table (width STRIP_SIDE, r 15, c 15). The two values there
   are 2^b - 1 times the two weights and differ; the pixels, which are the values shifted by t, may be equal all the same. Refused: same
   is false, row and col are 0, and scan is not touched.

   Tables that do the same give the same pixels. How late their filtered rows come may differ: a rectangle of weight 0 counts in D too. */
strip_same_answer strip_same(strip_table one, strip_table other, uint16_t *scan, size_t n);

/* ---- ranked windows ---- */

/* A window. For the place at row r, column c it covers rows r + trailrow + 1 to r + leadrow and columns c + trailcol + 1 to c + leadcol:
   M = leadrow - trailrow rows and N = leadcol - trailcol columns. */
typedef struct {
    int8_t leadrow, leadcol, trailrow, trailcol;
} strip_window;

/* A ranked scan: its window, b bits a sample, its rank and width, the rows that are in, the closing steps done, and whether it is closed.
   It is a value, 40 bytes where size_t has 8: hand each call the one that the last call handed out. Its numbers agree (14) where b is
   from 1 to 8, the window is one that 8 lets pass, rank is from 1 to M * N, width from 1 to 1,024, rows at most 65,535 and steps at most
   D, and there are no steps while it is open. D is leadrow, or 0 where leadrow is negative.

   Levels are 0 to 2^b - 1. The level at a place is the smallest one such that at least `rank` of the covered samples inside the scan are
   not above it; where fewer than `rank` are inside, the largest of them; where none is, STRIP_EMPTY. A sample outside the scan, above,
   below or beside it, is not counted: it is not zero here. A dead sample counts as said at STRIP_DEAD.

   Three stores go with it, which are the caller's too; between two calls of a scan nobody writes to them:
     samples   32 * width. Arrival a, a row or the zeros of a closing step, is kept from (a mod 32) * width on.
     counts    256 * width. At 256 * c + v stands how many samples of level v column c has in the rows of the scan that the window covers.
               Places of levels from 2^b on are neither read nor written after the start.
     windows   256. Zero after every accepted row and closing step, also while waiting; what they held before does not matter. */
typedef struct {
    strip_window window;
    uint8_t b;
    uint32_t rank;
    size_t width;
    uint32_t rows, steps;
    bool closed;
} strip_rank;

typedef struct {
    uint32_t refusal, place;
    strip_rank scan;
} strip_rank_started;

/* Starts a ranked scan of rows of `width` samples. Asks 3, 23, 8, 22, 12, 13 (n below 32 * width, m below 256 * width or p below 256).
   Accepted, it sets the first 32 * width samples, 256 * width column counts and 256 window counts to zero and touches nothing beyond.
   Refused, the scan handed out has window, b and rank as given, width 0, rows 0, steps 0 and closed false, and every call refuses it
   with 14. */
strip_rank_started strip_rank_start(uint8_t b, strip_window window, uint32_t rank, size_t width, uint16_t *samples, size_t n, uint16_t *counts, size_t m, uint16_t *windows, size_t p);

/* Closes a ranked scan: no row follows, and closing steps fetch the ranked rows still due. Asks 14, 15. */
strip_rank_started strip_rank_close(strip_rank scan);

typedef struct {
    uint32_t kind, number, place;   /* kind: a strip_kind */
    strip_rank scan;
} strip_rank_answer;

/* Takes in a row of k samples. Asks 14, 15, 16, 17 (k is not width), 13 (a store as at the start, or o below width), 18, 19. Row r comes
   out with the arrival of row r + D: kind is STRIP_ROW with number r, and the first `width` elements of out hold its levels. Until then
   kind is STRIP_WAITING and out is not touched. A dead sample counts as said at STRIP_DEAD, and so the sample store keeps it. scan: the
   scan with one row more.

   Arrival a, rows and closing steps counted from 0, moves the counts of each column: row a - D + trailrow leaves and row a - D + leadrow
   enters. A row below 0 and a closing row are passed over: they count nothing, and nobody looks at their samples. Question 19 asks of
   each column that the leaving and the entering sample be levels, where a 65,535 that somebody wrote into the store is none; that the
   count of the leaving level be above zero, before the entering one is counted; and, also where both rows are passed over, that no level
   have a count above M afterwards. The levels of the row come from the counts after the move, whatever was written into the stores. */
strip_rank_answer strip_rank_row(strip_rank scan, const uint16_t *row, size_t k, uint16_t *samples, size_t n, uint16_t *counts, size_t m, uint16_t *windows, size_t p, int32_t *out, size_t o);

/* A closing step, after strip_rank_close: as a row of zeros that are kept and not counted. Asks 14, 15 (the scan is not closed); where D
   steps are past kind is STRIP_DONE and nothing changes, the window counts included; then 13, 19. Call it until STRIP_DONE: a scan of H
   rows has then given H ranked rows. scan: the scan with one step more. */
strip_rank_answer strip_rank_step(strip_rank scan, uint16_t *samples, size_t n, uint16_t *counts, size_t m, uint16_t *windows, size_t p, int32_t *out, size_t o);

#ifdef __cplusplus
}
#endif

#endif
