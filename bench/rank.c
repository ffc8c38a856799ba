/* The ranked window's speed through strip_rank_row, beside three C loops on the same scan, with squares around the pixel:
   stores  the same counts in the same three stores, no question asked
   fixed   the same, compiled apart for 256 and for 64 levels
   huang   no counts kept from row to row: those of the window go along a row by the samples of the columns that enter and leave
   rank                    all figures
   rank LOOP B SIDE ROWS   one loop once, for instruction counts; B is 8 or 6 */
#include "strip.h"
#include <stdint.h>
#include <stdio.h>
#include <stdlib.h>
#include <string.h>
#include <time.h>

enum { WIDTH = 1024, GIVEN = 64, COMPARED = 100, TIMED = 200, TIMES = 40, BLOCK = 16, LOOPS = 4 };

static _Alignas(64) uint16_t samples[STRIP_KEPT_ROWS * WIDTH];
static _Alignas(64) uint16_t counts[STRIP_LEVELS * WIDTH];
static _Alignas(64) uint16_t windows[STRIP_LEVELS];
static _Alignas(64) uint16_t rows[GIVEN][WIDTH];
static _Alignas(64) int32_t out[WIDTH];

/* the scan; its rows count the arrivals of every loop */
static strip_rank scan;

static const uint16_t *kept(long row)
{
    return samples + (size_t)(row % STRIP_KEPT_ROWS) * WIDTH;
}

static void keep(const uint16_t *row)
{
    memcpy(samples + (size_t)(scan.rows % STRIP_KEPT_ROWS) * WIDTH, row, WIDTH * sizeof *row);
}

/* 16 counts added up, four at a time in 64 bits: no count is above 961, so that no part runs into the next */
static inline uint32_t block_sum(const uint16_t *w)
{
    uint64_t four[BLOCK / 4];
    memcpy(four, w, sizeof four);
    return (uint32_t)((four[0] + four[1] + four[2] + four[3]) * 0x0001000100010001u >> 48);
}

/* the level of the rank, by blocks, then without a branch in its block; the highest with a count where there are fewer */
static inline int32_t found(const uint16_t *w, int levels, uint32_t rank)
{
    uint32_t below = 0;
    for (int first = 0; first < levels; first += BLOCK) {
        uint32_t block = block_sum(w + first);
        if (below + block >= rank) {
            int level = first;
            for (int i = 0; i < BLOCK; i++) {
                below += w[first + i];
                level += below < rank;
            }
            return level;
        }
        below += block;
    }
    for (int level = levels - 1; level >= 0; level--)
        if (w[level])
            return level;
    return STRIP_EMPTY;
}

static inline __attribute__((always_inline)) void stores_pass(int levels)
{
    static const _Alignas(64) uint16_t none[STRIP_LEVELS];
    long half = scan.window.leadcol, due = (long)scan.rows - half, leaves = due - half - 1;
    const uint16_t *on = kept(scan.rows), *off = kept(leaves < 0 ? 0 : leaves);
    uint16_t *restrict w = windows;
    for (long c = 0; c < WIDTH; c++) {
        uint16_t *column = counts + (size_t)c * STRIP_LEVELS;
        if (leaves >= 0)
            column[off[c]]--;
        column[on[c]]++;
    }
    if (due < 0)
        return;
    for (long c = -half; c < WIDTH; c++) {
        const uint16_t *enter = c + half < WIDTH ? counts + (size_t)(c + half) * STRIP_LEVELS : none;
        const uint16_t *leave = c - half - 1 >= 0 ? counts + (size_t)(c - half - 1) * STRIP_LEVELS : none;
        for (int v = 0; v < levels; v++)
            w[v] = (uint16_t)(w[v] + enter[v] - leave[v]);
        if (c >= 0)
            out[c] = found(w, levels, scan.rank);
    }
    memset(windows, 0, sizeof windows);
}

static void stores_row(const uint16_t *row)
{
    keep(row);
    stores_pass(1 << scan.b);
    scan.rows++;
}

static void fixed_row(const uint16_t *row)
{
    keep(row);
    if (scan.b == 8)
        stores_pass(256);
    else
        stores_pass(64);
    scan.rows++;
}

static void huang_row(const uint16_t *row)
{
    const uint16_t *line[STRIP_KEPT_ROWS];
    uint32_t w[STRIP_LEVELS] = {0}, level = 0, below = 0, inside = 0, height = 0;
    long half = scan.window.leadcol, due = (long)scan.rows - half;
    keep(row);
    scan.rows++;
    if (due < 0)
        return;
    for (long r = due < half ? 0 : due - half; r <= due + half; r++)
        line[height++] = kept(r);
    for (long c = -half; c < WIDTH; c++) {
        if (c + half < WIDTH) {
            for (uint32_t i = 0; i < height; i++) {
                uint32_t v = line[i][c + half];
                w[v]++;
                below += v < level;
            }
            inside += height;
        }
        if (c - half - 1 >= 0) {
            for (uint32_t i = 0; i < height; i++) {
                uint32_t v = line[i][c - half - 1];
                w[v]--;
                below -= v < level;
            }
            inside -= height;
        }
        if (c < 0)
            continue;
        /* below samples are below level: below < rank, and with those at level it is reached */
        uint32_t rank = scan.rank < inside ? scan.rank : inside;
        while (below >= rank)
            below -= w[--level];
        while (below + w[level] < rank)
            below += w[level++];
        out[c] = (int32_t)level;
    }
}

static void library_row(const uint16_t *row)
{
    strip_rank_answer a = strip_rank_row(scan, row, WIDTH, samples, STRIP_SAMPLES(WIDTH), counts, STRIP_COUNTS(WIDTH), windows,
                                         STRIP_LEVELS, out, WIDTH);
    if (a.kind == STRIP_REFUSED) {
        fprintf(stderr, "rank: row refused with %u\n", (unsigned)a.number);
        exit(3);
    }
    scan = a.scan;
}

typedef struct {
    const char *name;
    void (*row)(const uint16_t *);
} loop;

static const loop loops[LOOPS] = {{"library", library_row}, {"stores", stores_row}, {"fixed", fixed_row}, {"huang", huang_row}};

static void start(int b, int side)
{
    int half = side / 2;
    strip_window window = {(int8_t)half, (int8_t)half, (int8_t)(-half - 1), (int8_t)(-half - 1)};
    strip_rank_started s = strip_rank_start((uint8_t)b, window, (uint32_t)(side * side / 2 + 1), WIDTH, samples, STRIP_SAMPLES(WIDTH), counts,
                                            STRIP_COUNTS(WIDTH), windows, STRIP_LEVELS);
    if (s.refusal) {
        fprintf(stderr, "rank: start refused with %u\n", (unsigned)s.refusal);
        exit(2);
    }
    scan = s.scan;
    memset(out, 0, sizeof out);
}

static void draw(int b)
{
    srand(7);
    for (int r = 0; r < GIVEN; r++)
        for (int c = 0; c < WIDTH; c++)
            rows[r][c] = (uint16_t)((rand() >> 8) & ((1 << b) - 1));
}

/* ns per pixel of a scan of n rows */
static double run(loop l, int b, int side, int n)
{
    struct timespec from, to;
    start(b, side);
    clock_gettime(CLOCK_MONOTONIC, &from);
    for (int r = 0; r < n; r++)
        l.row(rows[r % GIVEN]);
    clock_gettime(CLOCK_MONOTONIC, &to);
    return ((double)(to.tv_sec - from.tv_sec) * 1e9 + (double)(to.tv_nsec - from.tv_nsec)) / ((double)n * WIDTH);
}

/* every loop gives the library's levels, row by row */
static void compare(int b, int side)
{
    static int32_t seen[COMPARED][WIDTH];
    for (int i = 0; i < LOOPS; i++) {
        start(b, side);
        for (int r = 0; r < COMPARED; r++) {
            loops[i].row(rows[r % GIVEN]);
            if (i == 0)
                memcpy(seen[r], out, sizeof out);
            else if (memcmp(seen[r], out, sizeof out)) {
                printf("rank: %s and %s give different levels, b = %d, %d by %d, arrival %d\n", loops[i].name, loops[0].name, b, side, side, r);
                exit(1);
            }
        }
    }
}

int main(int argc, char **argv)
{
    static const int bits[] = {8, 6}, sides[] = {3, 15, 31};
    if (argc == 5) {
        draw(atoi(argv[2]));
        for (int i = 0; i < LOOPS; i++)
            if (!strcmp(argv[1], loops[i].name))
                run(loops[i], atoi(argv[2]), atoi(argv[3]), atoi(argv[4]));
        return 0;
    }
    printf("the ranked window, ns per pixel, %d columns, random rows, the middle rank\n%-24s", WIDTH, "");
    for (int i = 0; i < LOOPS; i++)
        printf("%10s", loops[i].name);
    printf("%20s\n", "library to stores");
    for (int k = 0; k < 2; k++) {
        draw(bits[k]);
        for (int j = 0; j < 3; j++) {
            double ns[LOOPS] = {1e9, 1e9, 1e9, 1e9};
            compare(bits[k], sides[j]);
            for (int t = 0; t < TIMES; t++)
                for (int i = 0; i < LOOPS; i++) {
                    double once = run(loops[i], bits[k], sides[j], TIMED);
                    ns[i] = once < ns[i] ? once : ns[i];
                }
            printf("b = %d, %2d by %-11d", bits[k], sides[j], sides[j]);
            for (int i = 0; i < LOOPS; i++)
                printf("%10.1f", ns[i]);
            printf("%20.2f\n", ns[0] / ns[1]);
        }
    }
    printf("\nthe same levels from all four\n");
    return 0;
}
