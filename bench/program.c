/* Times stripfilter on a scan of 1,024 columns and 2,000 rows beside the scan engine alone on the same rows, and compares
 * what comes out. Usage: program STRIPFILTER TABLE FOLDER. The scan and the pictures are left in FOLDER. */
#include "strip.h"
#include <stdio.h>
#include <stdlib.h>
#include <string.h>
#include <time.h>

enum { WIDTH = 1024, HEIGHT = 2000, TRIES = 7 };

static uint16_t rows[HEIGHT][WIDTH];
static int32_t pixels[HEIGHT][WIDTH];
static uint16_t samples[32 * WIDTH];
static uint32_t sums[16 * WIDTH];

static double now(void) {
    struct timespec t;
    clock_gettime(CLOCK_MONOTONIC, &t);
    return (double)t.tv_sec * 1e3 + (double)t.tv_nsec / 1e6;
}

static void fail(const char *what) {
    fprintf(stderr, "bench: %s\n", what);
    exit(1);
}

/* The engine over all rows; the filtered rows go to pixels. */
static void engine(strip_table table) {
    strip_started started = strip_scan_start(table, WIDTH, samples, 32 * WIDTH, sums, 16 * WIDTH);
    if (started.refusal) fail("start refused");
    strip_scan scan = started.scan;
    for (int r = 0; r < HEIGHT; r++) {
        strip_answer a = strip_scan_row(scan, rows[r], WIDTH, samples, 32 * WIDTH, sums, 16 * WIDTH, pixels[r], WIDTH);
        if (a.kind == 0) fail("row refused");
        if (a.kind == 1 && a.number != (uint32_t)r) memcpy(pixels[a.number], pixels[r], sizeof pixels[r]);
        scan = a.scan;
    }
    scan = strip_scan_close(scan).scan;
    static int32_t out[WIDTH];
    for (;;) {
        strip_answer a = strip_scan_step(scan, samples, 32 * WIDTH, sums, 16 * WIDTH, out, WIDTH);
        if (a.kind == 0) fail("step refused");
        if (a.kind == 3) return;
        if (a.kind == 1) memcpy(pixels[a.number], out, sizeof out);
        scan = a.scan;
    }
}

static void write_scan(const char *path, unsigned maxval) {
    FILE *f = fopen(path, "wb");
    if (!f) fail("the scan cannot be written");
    fprintf(f, "P5\n%d %d\n%u\n", WIDTH, HEIGHT, maxval);
    uint64_t state = 1;
    for (int r = 0; r < HEIGHT; r++)
        for (int c = 0; c < WIDTH; c++) {
            state = state * 6364136223846793005u + 1442695040888963407u;
            rows[r][c] = (uint16_t)((state >> 40) % (maxval + 1));
            if (maxval > 255) putc(rows[r][c] >> 8, f);
            putc(rows[r][c] & 255, f);
        }
    if (fclose(f)) fail("the scan cannot be written");
}

/* Whether the picture holds the engine's pixels. */
static void compare(const char *path, unsigned w) {
    FILE *f = fopen(path, "rb");
    int width = 0, height = 0, maxval = 0;
    if (!f || fscanf(f, "P5 %d %d %d", &width, &height, &maxval) != 3 || width != WIDTH || height != HEIGHT || maxval != 65535)
        fail("no picture came out");
    getc(f);
    for (int r = 0; r < HEIGHT; r++)
        for (int c = 0; c < WIDTH; c++) {
            long long wanted = ((long long)pixels[r][c] + (1LL << (w - 1))) >> (w > 16 ? w - 16 : 0);
            int high = getc(f), low = getc(f);
            if (high * 256 + low != wanted) fail("the picture differs from the engine's pixels");
        }
    if (getc(f) != EOF) fail("the picture is too long");
    fclose(f);
}

int main(int argc, char **argv) {
    if (argc != 4) fail("usage: program STRIPFILTER TABLE FOLDER");
    uint8_t bytes[STRIP_FILE_READ];
    FILE *f = fopen(argv[2], "rb");
    if (!f) fail("the table cannot be opened");
    strip_loaded loaded = strip_table_load(bytes, fread(bytes, 1, sizeof bytes, f));
    fclose(f);
    if (loaded.refusal) fail("the table is refused");
    char scan[4096], picture[4096], command[16384];
    snprintf(scan, sizeof scan, "%s/bench.pgm", argv[3]);
    snprintf(picture, sizeof picture, "%s/bench-filtered.pgm", argv[3]);
    snprintf(command, sizeof command, "'%s' '%s' <'%s' >'%s'", argv[1], argv[2], scan, picture);
    write_scan(scan, (1u << loaded.table.b) - 1);
    double alone = 1e9, whole = 1e9;
    for (int i = 0; i < TRIES; i++) {
        double a = now();
        engine(loaded.table);
        double b = now();
        if (system(command) != 0) fail("the program could not be run");
        double c = now();
        if (b - a < alone) alone = b - a;
        if (c - b < whole) whole = c - b;
    }
    compare(picture, loaded.table.w);
    printf("%s, %d x %d: engine alone %.1f ms, stripfilter %.1f ms, ratio %.2f (at most 3 wanted)\n", argv[2], WIDTH, HEIGHT, alone, whole, whole / alone);
    return 0;
}
