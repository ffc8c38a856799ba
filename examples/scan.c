/* A whole scan: loads a table, starts, hands in the rows, closes, and steps until all filtered rows are out. Prints each of them. */
#include <stdio.h>
#include <stdlib.h>
#include "strip.h"

enum { WIDTH = 3, ROWS = 3 };

/* what the line sensor sends; even paper here */
static const uint16_t sensor[ROWS][WIDTH] = {{10, 10, 10}, {10, 10, 10}, {10, 10, 10}};

/* a 3 by 3 rectangle with weight 1 less its centre with weight 9, divided by 4 */
static const uint8_t file[] = {1,0,6, 8,0,0,0,2,16,  2,0,6, 1,1,254,254, 0,1,  2,0,6, 0,0,255,255, 255,247};

/* lent to every call of the scan; nobody else writes to the two stores in between */
static uint16_t samples[STRIP_SAMPLES(WIDTH)];
static uint32_t sums[STRIP_SUMS(STRIP_RECTS, WIDTH)];
static int32_t out[WIDTH];
enum { N = STRIP_SAMPLES(WIDTH), M = STRIP_SUMS(STRIP_RECTS, WIDTH) };

static void refused(uint32_t number, uint32_t place)
{
    fprintf(stderr, "refused, %u at %u: %s\n", number, place, strip_refusal_text(number));
    exit(1);
}

/* what a row or a closing step came to: prints a filtered row, and hands the scan on */
static strip_scan taken(strip_answer a)
{
    if (a.kind == STRIP_REFUSED)
        refused(a.number, a.place);
    if (a.kind == STRIP_ROW)
        printf("row %u: %d %d %d\n", a.number, out[0], out[1], out[2]);
    return a.scan;
}

int main(void)
{
    strip_loaded loaded = strip_table_load(file, sizeof file);
    if (loaded.refusal != STRIP_OK)
        refused(loaded.refusal, loaded.place);
    strip_started started = strip_scan_start(loaded.table, WIDTH, samples, N, sums, M);
    if (started.refusal != STRIP_OK)
        refused(started.refusal, started.place);

    strip_scan scan = started.scan;
    for (int r = 0; r < ROWS; r++)
        scan = taken(strip_scan_row(scan, sensor[r], WIDTH, samples, N, sums, M, out, WIDTH));

    started = strip_scan_close(scan);
    if (started.refusal != STRIP_OK)
        refused(started.refusal, started.place);
    strip_answer a = {.kind = STRIP_WAITING, .scan = started.scan};
    while (a.kind != STRIP_DONE) {
        a = strip_scan_step(a.scan, samples, N, sums, M, out, WIDTH);
        taken(a);
    }
    return 0;
}
