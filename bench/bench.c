/* The engine's speed through strip_scan_row, beside C loops on the same scan, which ask nothing:
   remainder  the same algorithm, the place of each sample in the store found by a remainder
   before     the engine of another library, its calls renamed old_strip_...; only where BEFORE is defined
   tuned      column sums of all rectangles, zero margins, four sliding windows a pass; no shift where nothing is dropped
   direct     every covered sample added afresh for each pixel
   bench                        all figures
   bench LOOP RECTS DROPS ROWS  one loop once, for instruction counts; DROPS as in 230, or for weights that cancel wide, grid,
                                nested-wide or nested-grid */
#include "strip.h"
#include <stdbool.h>
#include <stdint.h>
#include <stdio.h>
#include <stdlib.h>
#include <string.h>
#include <time.h>

enum { WIDTH = 1024, MARGIN = 16, LINE = WIDTH + 2 * MARGIN };

typedef struct {
    strip_table table;
    size_t width;
    int delay;
    uint32_t arrival;
    uint16_t samples[STRIP_KEPT_ROWS * WIDTH];
    uint32_t sums[STRIP_RECTS * WIDTH];
    strip_scan scan;
} filter;

static const uint16_t dark[WIDTH];
static filter state;
static int32_t out[WIDTH];
static uint16_t rows[64][WIDTH];

/* drops: the digits are q1, q2 and q3 */
static strip_table make_table(size_t rects, int drops, int half)
{
    strip_table t = {.b = 12, .q1 = (uint8_t)(drops / 100), .q2 = (uint8_t)(drops / 10 % 10), .q3 = (uint8_t)(drops % 10), .t = 8, .w = 32, .count = rects};
    for (size_t k = 0; k < rects; k++) {
        strip_rect r = {(int8_t)half, (int8_t)half, (int8_t)(-half - 1), (int8_t)(-half - 1), (int16_t)(k % 2 ? -31 : 37)};
        if (k && half > 2) {
            r.leadcol = (int8_t)(half - (int)(k % 3));
            r.leadrow = (int8_t)(half - (int)(k % 2));
        }
        t.rects[k] = r;
    }
    return t;
}

/* weights that cancel, no drops: in a wide word, or in one that only the weight grid finds wide enough. Nested, each rectangle lies
   one sample inside the one before, so that no two lines of the grid are alike */
static strip_table cancelling(size_t rects, bool nested, bool wide)
{
    strip_table t = make_table(rects, 0, 7);
    for (size_t k = 0; k < rects; k++) {
        int lead = 15 - (int)k, trail = -16 + (int)k;
        if (nested)
            t.rects[k] = (strip_rect){(int8_t)lead, (int8_t)lead, (int8_t)trail, (int8_t)trail, 0};
        t.rects[k].weight = k % 2 ? -31 : 31;
    }
    t.w = wide ? 32 : nested ? 19 : 17;
    return t;
}

/* the kept row that an edge reaches, or zeros below row 0; the arriving row is kept first */
static const uint16_t *kept(const filter *f, int edge)
{
    long row = (long)f->arrival - f->delay + edge;
    return row < 0 ? dark : f->samples + (size_t)(row % STRIP_KEPT_ROWS) * f->width;
}

static void keep(filter *f, const uint16_t *row)
{
    memcpy(f->samples + (size_t)(f->arrival % STRIP_KEPT_ROWS) * f->width, row, f->width * sizeof *row);
}

static void settle(const filter *f, const int64_t *value)
{
    int q = f->table.q1 + f->table.q2 + f->table.q3;
    if ((long)f->arrival >= f->delay)
        for (size_t c = 0; c < f->width; c++)
            out[c] = (int32_t)((value[c] * ((int64_t)1 << q)) >> f->table.t);
}

/* sample c of the row that an edge reaches */
static uint32_t sample(const filter *f, int edge, long c)
{
    long row = (long)f->arrival - f->delay + edge;
    return row < 0 ? 0 : f->samples[(size_t)(row % STRIP_KEPT_ROWS) * f->width + (size_t)c];
}

static void remainder_row(filter *f, const uint16_t *row)
{
    static int64_t value[WIDTH];
    const strip_table *t = &f->table;
    long width = (long)f->width;
    keep(f, row);
    memset(value, 0, sizeof value);
    for (size_t k = 0; k < t->count; k++) {
        strip_rect r = t->rects[k];
        uint32_t *sums = f->sums + k * f->width, s = 0;
        for (long c = 0; c < width; c++)
            sums[c] = sums[c] - (sample(f, r.trailrow, c) >> t->q1) + (sample(f, r.leadrow, c) >> t->q1);
        for (long c = r.trailcol + 1; c < r.leadcol; c++)
            s += c >= 0 && c < width ? sums[c] >> t->q2 : 0;
        for (long c = 0; c < width; c++) {
            if (c + r.leadcol >= 0 && c + r.leadcol < width)
                s += sums[c + r.leadcol] >> t->q2;
            value[c] += (int64_t)r.weight * (s >> t->q3);
            if (c + r.trailcol + 1 >= 0 && c + r.trailcol + 1 < width)
                s -= sums[c + r.trailcol + 1] >> t->q2;
        }
    }
    settle(f, value);
}

static uint32_t lines[STRIP_RECTS][LINE];

/* the column sums of one rectangle moved, and cut into its line */
static inline __attribute__((always_inline)) void move(filter *f, size_t k, int q1, int q2)
{
    const uint16_t *restrict on = kept(f, f->table.rects[k].leadrow), *restrict off = kept(f, f->table.rects[k].trailrow);
    uint32_t *restrict sums = f->sums + k * f->width, *restrict line = lines[k] + MARGIN;
    for (size_t c = 0; c < f->width; c++) {
        sums[c] = sums[c] - (uint32_t)(off[c] >> q1) + (uint32_t)(on[c] >> q1);
        line[c] = sums[c] >> q2;
    }
}

/* the windows of n rectangles slid along a row */
static inline __attribute__((always_inline)) void slide(const filter *f, size_t k, int n, int64_t *restrict value, int q3)
{
    const uint32_t *lead[4], *trail[4];
    uint32_t s[4] = {0, 0, 0, 0};
    int64_t weight[4];
    for (int i = 0; i < n; i++) {
        strip_rect r = f->table.rects[k + (size_t)i];
        lead[i] = lines[k + (size_t)i] + MARGIN + r.leadcol;
        trail[i] = lines[k + (size_t)i] + MARGIN + r.trailcol + 1;
        weight[i] = r.weight;
        for (const uint32_t *p = trail[i]; p < lead[i]; p++)
            s[i] += *p;
    }
    for (size_t c = 0; c < f->width; c++) {
        int64_t v = value[c];
        for (int i = 0; i < n; i++) {
            s[i] += lead[i][c];
            v += weight[i] * (int64_t)(s[i] >> q3);
            s[i] -= trail[i][c];
        }
        value[c] = v;
    }
}

static inline __attribute__((always_inline)) void tuned(filter *f, int64_t *value, int q1, int q2, int q3)
{
    size_t k = 0, count = f->table.count;
    for (size_t i = 0; i < count; i++)
        move(f, i, q1, q2);
    for (; k + 4 <= count; k += 4)
        slide(f, k, 4, value, q3);
    for (; k < count; k++)
        slide(f, k, 1, value, q3);
}

static void tuned_row(filter *f, const uint16_t *row)
{
    static int64_t value[WIDTH];
    const strip_table *t = &f->table;
    keep(f, row);
    memset(value, 0, sizeof value);
    if (t->q1 + t->q2 + t->q3 == 0)
        tuned(f, value, 0, 0, 0);
    else
        tuned(f, value, t->q1, t->q2, t->q3);
    settle(f, value);
}

static void direct_row(filter *f, const uint16_t *row)
{
    static int64_t value[WIDTH];
    const strip_table *t = &f->table;
    long width = (long)f->width;
    keep(f, row);
    for (long c = 0; c < width; c++) {
        value[c] = 0;
        for (size_t k = 0; k < t->count; k++) {
            strip_rect r = t->rects[k];
            uint32_t s = 0;
            for (long j = c + r.trailcol + 1; j <= c + r.leadcol; j++) {
                uint32_t column = 0;
                if (j < 0 || j >= width)
                    continue;
                for (int i = r.trailrow + 1; i <= r.leadrow; i++)
                    column += (uint32_t)(kept(f, i)[j] >> t->q1);
                s += column >> t->q2;
            }
            value[c] += (int64_t)r.weight * (s >> t->q3);
        }
    }
    settle(f, value);
}

static void engine_row(filter *f, const uint16_t *row)
{
    strip_answer a = strip_scan_row(f->scan, row, f->width, f->samples, STRIP_SAMPLES(f->width), f->sums,
                                    STRIP_SUMS(f->table.count, f->width), out, f->width);
    if (a.kind == STRIP_REFUSED)
        exit(3);
    f->scan = a.scan;
}

#ifdef BEFORE
strip_started old_strip_scan_close(strip_scan);
strip_answer old_strip_scan_row(strip_scan, const uint16_t *, size_t, uint16_t *, size_t, uint32_t *, size_t, int32_t *, size_t);

static void before_row(filter *f, const uint16_t *row)
{
    strip_answer a = old_strip_scan_row(f->scan, row, f->width, f->samples, STRIP_SAMPLES(f->width), f->sums,
                                        STRIP_SUMS(f->table.count, f->width), out, f->width);
    if (a.kind == STRIP_REFUSED)
        exit(3);
    f->scan = a.scan;
}
#endif

typedef struct {
    const char *name;
    void (*row)(filter *, const uint16_t *);
} loop;

static const loop loops[] = {
    {"engine", engine_row},
#ifdef BEFORE
    {"before", before_row},
#endif
    {"tuned", tuned_row}, {"remainder", remainder_row}, {"direct", direct_row},
};

enum { LOOPS = sizeof loops / sizeof *loops, TUNED = LOOPS - 3, TIMED = LOOPS - 1, TIMES = 40 };

/* the library before may refuse a table that this one accepts by the weight grid */
static bool takes(loop l, strip_table t, size_t width)
{
#ifdef BEFORE
    if (l.row == before_row)
        return !old_strip_scan_close((strip_scan){.table = t, .width = width}).refusal;
#endif
    (void)l, (void)t, (void)width;
    return true;
}

static const int drops[] = {0, 111, 230};

static uint64_t checksum;

/* seconds for a scan of n rows */
static double run(loop l, strip_table t, size_t width, int n)
{
    struct timespec a, b;
    memset(&state, 0, sizeof state);
    memset(lines, 0, sizeof lines);
    memset(out, 0, sizeof out);
    state.table = t;
    state.width = width;
    for (size_t k = 0; k < t.count; k++)
        if (t.rects[k].leadrow > state.delay)
            state.delay = t.rects[k].leadrow;
    strip_started s = strip_scan_start(t, width, state.samples, STRIP_SAMPLES(width), state.sums, STRIP_SUMS(t.count, width));
    if (s.refusal) {
        fprintf(stderr, "bench: table refused with %u\n", (unsigned)s.refusal);
        exit(2);
    }
    state.scan = s.scan;
    checksum = 0;
    clock_gettime(CLOCK_MONOTONIC, &a);
    for (int r = 0; r < n; r++) {
        state.arrival = (uint32_t)r;
        l.row(&state, rows[r % 64]);
        checksum = checksum * 31 + (uint32_t)out[(size_t)r * 7 % width] + (uint32_t)out[width - 1];
    }
    clock_gettime(CLOCK_MONOTONIC, &b);
    for (size_t c = 0; c < width; c++)
        checksum = checksum * 31 + (uint32_t)out[c];
    return (double)(b.tv_sec - a.tv_sec) + (double)(b.tv_nsec - a.tv_nsec) * 1e-9;
}

/* ns per sample and rectangle of the first n loops, -1 of one that does not take the table: the best of several scans, run in turn; all
   must give the same pixels */
static void best(double *ns, int n, strip_table t, size_t width, int rows_each, int times)
{
    uint64_t seen = 0;
    for (int i = 0; i < n; i++)
        ns[i] = 1e9;
    for (int turn = 0; turn < times; turn++)
        for (int i = 0; i < n; i++) {
            if (!takes(loops[i], t, width)) {
                ns[i] = -1;
                continue;
            }
            double s = run(loops[i], t, width, rows_each) * 1e9 / ((double)rows_each * (double)width * (double)t.count);
            ns[i] = s < ns[i] ? s : ns[i];
            seen = i ? seen : checksum;
            if (checksum != seen) {
                printf("bench: %s and %s give different pixels\n", loops[i].name, loops[0].name);
                exit(1);
            }
        }
}

static void names(int n)
{
    printf("%-26s", "");
    for (int i = 0; i < n; i++)
        printf("%10s", loops[i].name);
    printf("%18s\n", "engine to tuned");
}

static void line(double *ns, int n)
{
    for (int i = 0; i < n; i++)
        if (ns[i] < 0)
            printf("%10s", "-");
        else
            printf("%10.2f", ns[i]);
    printf("%18.2f\n", ns[0] / ns[TUNED]);
}

int main(int argc, char **argv)
{
    double ns[LOOPS];
    srand(7);
    for (int r = 0; r < 64; r++)
        for (int c = 0; c < WIDTH; c++)
            rows[r][c] = (uint16_t)(rand() & 4095);
    if (argc == 5) {
        size_t rects = (size_t)atoi(argv[2]);
        bool nested = !strncmp(argv[3], "nested", 6), wide = strstr(argv[3], "wide"), grid = strstr(argv[3], "grid");
        strip_table t = wide || grid ? cancelling(rects, nested, wide) : make_table(rects, atoi(argv[3]), 7);
        for (int i = 0; i < LOOPS; i++)
            if (!strcmp(argv[1], loops[i].name))
                run(loops[i], t, WIDTH, atoi(argv[4]));
        return 0;
    }
    printf("ns per sample and rectangle, %d columns, the best of %d scans\n", WIDTH, TIMES);
    names(TIMED);
    for (int d = 0; d < 3; d++)
        for (size_t rects = 1; rects <= 16; rects *= 4) {
            printf("%2d rectangles, drops %03d  ", (int)rects, drops[d]);
            best(ns, TIMED, make_table(rects, drops[d], 7), WIDTH, 800 / (int)rects, TIMES);
            line(ns, TIMED);
        }
    best(ns, LOOPS, make_table(4, 0, 7), WIDTH, 20, 2);
    printf("every sample added afresh (direct), 4 rectangles: %.0f\n", ns[LOOPS - 1]);
    printf("\nns per sample and rectangle, by width, size of the values and rectangle\n");
    names(TIMED);
    for (size_t width = 64; width <= 256; width *= 4)
        for (size_t rects = 1; rects <= 16; rects *= 4) {
            printf("%4d columns, %2d rects     ", (int)width, (int)rects);
            best(ns, TIMED, make_table(rects, 0, 7), width, 8000 / (int)rects, TIMES / 2);
            line(ns, TIMED);
        }
    for (int d = 0; d < 2; d++) {
        strip_table t = make_table(16, drops[d], 7);
        for (size_t k = 0; k < t.count; k++)
            t.rects[k].weight = (int16_t)(t.rects[k].weight * 100);
        printf("16 of 64 bits, drops %03d  ", drops[d]);
        best(ns, TIMED, t, WIDTH, 50, TIMES);
        line(ns, TIMED);
    }
    for (int half = 1; half <= 15; half += 14) {
        printf("1024 columns, 16 of %2d by %2d", 2 * half + 1, 2 * half + 1);
        best(ns, TIMED, make_table(16, 0, half), WIDTH, 50, TIMES);
        line(ns, TIMED);
    }
    printf("\nns per sample and rectangle, weights that cancel: in the short word question 10 has to look at the weight grid\n");
    names(TIMED);
    for (int kind = 0; kind < 3; kind++) {
        size_t rects = kind ? 16 : 2;
        bool nested = kind == 2;
        double in_wide = 0;
        for (int wide = 1; wide >= 0; wide--) {
            strip_table t = cancelling(rects, nested, wide);
            printf("%2d %s, w = %2d     ", (int)rects, nested ? "nested    " : "rectangles", t.w);
            best(ns, TIMED, t, WIDTH, 800 / (int)rects, TIMES);
            line(ns, TIMED);
            if (wide)
                in_wide = ns[0];
        }
        printf("more for the grid: %.0f ns a row\n", (ns[0] - in_wide) * WIDTH * (double)rects);
    }
    return 0;
}
