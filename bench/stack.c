/* The stack that each call takes, in bytes: it is made on a painted stack, with tables, widths and stores that lead it through all of its
   code, and the deepest byte that it changed is looked up. What it is handed and hands back by value is counted in. A line a call: its
   name and the most that it took. */
#include "strip.h"
#include <pthread.h>
#include <stdio.h>
#include <stdlib.h>
#include <string.h>

enum { STACK = 1 << 18, PAINT = 0xA5, ROWS = 40, MOST = STRIP_WIDTH_MOST };

static uint8_t stack[STACK] __attribute__((aligned(4096)));
static uint16_t samples[STRIP_SAMPLES(MOST)], rows[ROWS * MOST], counts[STRIP_COUNTS(MOST)], windows[STRIP_LEVELS], spot[STRIP_SPOT];
static uint32_t sums[STRIP_SUMS(STRIP_RECTS, MOST)];
static int32_t out[ROWS * MOST];
static uint8_t file[STRIP_FILE_READ];

/* what the calls work on */
static size_t width, length;
static strip_table table, other;
static strip_window window;
static strip_scan scan;
static strip_rank ranked;

static void want(int good, const char *call)
{
    if (!good) {
        fprintf(stderr, "stack: %s is not answered as it should be\n", call);
        exit(1);
    }
}

static void nothing(void) {}

static void table_check(void)
{
    want(strip_table_check(file, length) == 0, "strip_table_check");
}

static void table_load(void)
{
    want(strip_table_load(file, length).refusal == 0, "strip_table_load");
}

static void table_write(void)
{
    uint8_t *bytes = file;
    length = strip_table_write(table, bytes, sizeof file).length;
    want(length > 0, "strip_table_write");
}

static void scan_start(void)
{
    strip_started s = strip_scan_start(table, width, samples, STRIP_SAMPLES(width), sums, STRIP_SUMS(table.count, width));
    want(s.refusal == 0, "strip_scan_start");
    scan = s.scan;
}

static void scan_row(void)
{
    for (int i = 0; i < ROWS; i++) {
        strip_answer a = strip_scan_row(scan, rows, width, samples, STRIP_SAMPLES(width), sums, STRIP_SUMS(table.count, width), out, width);
        want(a.kind != STRIP_REFUSED, "strip_scan_row");
        scan = a.scan;
    }
    sums[0] += 1 << 20; /* a sum that cannot be: all that was done for the row is taken back */
    strip_answer a = strip_scan_row(scan, rows, width, samples, STRIP_SAMPLES(width), sums, STRIP_SUMS(table.count, width), out, width);
    want(a.kind == STRIP_REFUSED && a.number == STRIP_SUM, "strip_scan_row");
    sums[0] -= 1 << 20;
}

static void scan_rows(void)
{
    strip_burst b = strip_scan_rows(scan, rows, ROWS * width, samples, STRIP_SAMPLES(width), sums, STRIP_SUMS(table.count, width), out, ROWS * width);
    want(b.refusal == 0, "strip_scan_rows");
    scan = b.scan;
}

static void scan_close(void)
{
    strip_started s = strip_scan_close(scan);
    want(s.refusal == 0, "strip_scan_close");
    scan = s.scan;
}

static void scan_step(void)
{
    strip_answer a = {.kind = STRIP_ROW, .scan = scan};
    while (a.kind != STRIP_DONE) {
        a = strip_scan_step(a.scan, samples, STRIP_SAMPLES(width), sums, STRIP_SUMS(table.count, width), out, width);
        want(a.kind != STRIP_REFUSED, "strip_scan_step");
    }
}

static void pixel(void)
{
    want(strip_pixel(table, width, rows, ROWS * width, ROWS / 2, width / 2).refusal == 0, "strip_pixel");
}

static void same(void)
{
    strip_same_answer a = strip_same(table, other, spot, STRIP_SPOT);
    want(a.refusal == STRIP_HAS_DROPS || (a.refusal == 0 && !a.same), "strip_same");
}

static void rank_start(void)
{
    strip_rank_started s = strip_rank_start(8, window, 1, width, samples, STRIP_SAMPLES(width), counts, STRIP_COUNTS(width), windows, STRIP_LEVELS);
    want(s.refusal == 0, "strip_rank_start");
    ranked = s.scan;
}

static void rank_row(void)
{
    for (int i = 0; i < ROWS; i++) {
        strip_rank_answer a = strip_rank_row(ranked, rows, width, samples, STRIP_SAMPLES(width), counts, STRIP_COUNTS(width), windows, STRIP_LEVELS, out, width);
        want(a.kind != STRIP_REFUSED, "strip_rank_row");
        ranked = a.scan;
    }
    counts[STRIP_COUNTS(width) - 1] += 32; /* a count that cannot be, in the last column */
    strip_rank_answer a = strip_rank_row(ranked, rows, width, samples, STRIP_SAMPLES(width), counts, STRIP_COUNTS(width), windows, STRIP_LEVELS, out, width);
    want(a.kind == STRIP_REFUSED && a.number == STRIP_SUM, "strip_rank_row");
    counts[STRIP_COUNTS(width) - 1] -= 32;
}

static void rank_close(void)
{
    strip_rank_started s = strip_rank_close(ranked);
    want(s.refusal == 0, "strip_rank_close");
    ranked = s.scan;
}

static void rank_step(void)
{
    strip_rank_answer a = {.kind = STRIP_ROW, .scan = ranked};
    while (a.kind != STRIP_DONE) {
        a = strip_rank_step(a.scan, samples, STRIP_SAMPLES(width), counts, STRIP_COUNTS(width), windows, STRIP_LEVELS, out, width);
        want(a.kind != STRIP_REFUSED, "strip_rank_step");
    }
}

/* the calls, in an order in which each finds what it works on */
static struct {
    const char *name;
    void (*call)(void);
    size_t most;
} calls[] = {
    {"strip_table_write", table_write, 0}, {"strip_table_check", table_check, 0}, {"strip_table_load", table_load, 0},
    {"strip_scan_start", scan_start, 0},   {"strip_scan_row", scan_row, 0},       {"strip_scan_rows", scan_rows, 0},
    {"strip_scan_close", scan_close, 0},   {"strip_scan_step", scan_step, 0},     {"strip_pixel", pixel, 0},
    {"strip_same", same, 0},               {"strip_rank_start", rank_start, 0},   {"strip_rank_row", rank_row, 0},
    {"strip_rank_close", rank_close, 0},   {"strip_rank_step", rank_step, 0},
};

static void (*made)(void);

static void *work(void *unused)
{
    made();
    return unused;
}

/* the bytes of the stack that a thread changes which makes this call */
static size_t depth(void (*call)(void))
{
    pthread_attr_t attr;
    pthread_t thread;
    size_t untouched = 0;
    made = call;
    memset(stack, PAINT, sizeof stack);
    pthread_attr_init(&attr);
    want(!pthread_attr_setstack(&attr, stack, STACK) && !pthread_create(&thread, &attr, work, NULL) && !pthread_join(thread, NULL), "a thread");
    while (untouched < STACK && stack[untouched] == PAINT)
        untouched++;
    return STACK - untouched;
}

/* Makes every call with sixteen rectangles of 31 by 31 whose weights are in turn positive and negative and cancel. */
static void measure(size_t columns, int16_t weight, uint8_t t, uint8_t w, uint8_t drop)
{
    width = columns;
    table = (strip_table){.b = 8, .q1 = drop, .q2 = drop, .q3 = drop, .t = t, .w = w, .count = STRIP_RECTS};
    for (size_t k = 0; k < table.count; k++)
        table.rects[k] = (strip_rect){15, 15, -16, -16, (int16_t)(k % 2 ? -weight : weight)};
    other = table;
    other.rects[0].leadcol = 14; /* differs from it in one column */
    window = (strip_window){15, 15, -16, -16};
    size_t none = depth(nothing);
    for (size_t i = 0; i < sizeof calls / sizeof calls[0]; i++) {
        size_t taken = depth(calls[i].call) - none;
        if (taken > calls[i].most)
            calls[i].most = taken;
    }
}

int main(void)
{
    for (size_t i = 0; i < ROWS * MOST; i++)
        rows[i] = i % 7 ? i % 251 : STRIP_DEAD;
    for (size_t columns = 1; columns <= MOST; columns = columns == 1 ? 256 : 4 * columns) {
        measure(columns, 30, 0, 32, 0);     /* values of 32 bits */
        measure(columns, 30, 0, 32, 1);     /* and with drops */
        measure(columns, 30000, 8, 32, 0);  /* values of 64 bits */
        measure(columns, 30000, 8, 32, 1);  /* and with drops */
        measure(columns, 30, 0, 24, 0);     /* a word that only the weight grid accepts */
    }
    for (size_t i = 0; i < sizeof calls / sizeof calls[0]; i++)
        printf("%s %zu\n", calls[i].name, calls[i].most);
    return 0;
}
