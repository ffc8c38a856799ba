#!/usr/bin/env python3
"""filter.py TABLE [--values] <scan.pgm >filtered.pgm: what stripfilter must write, straight from the pixel rule: each pixel by itself,
samples outside the scan counting as zero. With --rank R ROWS COLS in place of the table, each window of samples sorted by itself. Written
apart from the engine, and slow. filtered(table, scan, values) and ranked(rank, rows, cols, scan, values) are the same on bytes."""
import re
import sys


def signed(n, bits):
    return n - (1 << bits) if n >> (bits - 1) else n


def read_table(f):
    """b q1 q2 q3 t w, and the rectangles: lead row, lead column, trail row, trail column, weight"""
    head = list(f[3:9])
    rects = [[signed(v, 8) for v in f[k + 3:k + 7]] + [signed(f[k + 7] * 256 + f[k + 8], 16)] for k in range(9, len(f), 9)]
    return head, rects


def read_scan(f):
    """width, height and rows of samples"""
    m = re.match(rb"P5(?:\s|#[^\n]*\n)+(\d+)(?:\s|#[^\n]*\n)+(\d+)(?:\s|#[^\n]*\n)+(\d+)\s", f)
    width, height, maxval = map(int, m.groups())
    body = f[m.end():]
    size = 1 if maxval < 256 else 2
    samples = [int.from_bytes(body[k:k + size], "big") for k in range(0, width * height * size, size)]
    return width, height, maxval, [samples[r * width:(r + 1) * width] for r in range(height)]


def rect_sum(rows, width, height, q1, q2, q3, rect, r, c):
    lead_row, lead_col, trail_row, trail_col, _ = rect
    window = 0
    for j in range(c + trail_col + 1, c + lead_col + 1):
        if 0 <= j < width:
            column = sum(rows[i][j] >> q1 for i in range(max(0, r + trail_row + 1), min(height, r + lead_row + 1)))
            window += column >> q2
    return (window >> q3) << (q1 + q2 + q3)


def lines(out):
    return "".join(" ".join(map(str, row)) + "\n" for row in out).encode()


def filtered(table, scan, values):
    (_, q1, q2, q3, t, w), rects = read_table(table)
    width, height, _, rows = read_scan(scan)
    out = [[sum(d[4] * rect_sum(rows, width, height, q1, q2, q3, d, r, c) for d in rects) >> t for c in range(width)] for r in range(height)]
    if values:
        return lines(out)
    shade = b"".join((p + (1 << (w - 1)) >> max(0, w - 16)).to_bytes(2, "big") for row in out for p in row)
    return b"P5\n%d %d\n65535\n" % (width, height) + shade


def around(n, place, size):
    """the places of n around one, of an even number one more after it than before, those of 0 to size - 1"""
    before = (n - 1) // 2
    return range(max(0, place - before), min(size, place - before + n))


def ranked(rank, n_rows, n_cols, scan, values):
    width, height, maxval, rows = read_scan(scan)
    covered = lambda r, c: sorted(rows[i][j] for i in around(n_rows, r, height) for j in around(n_cols, c, width))
    level = lambda samples: samples[min(rank, len(samples)) - 1]
    out = [[level(covered(r, c)) for c in range(width)] for r in range(height)]
    return lines(out) if values else b"P5\n%d %d\n%d\n" % (width, height, maxval) + bytes(v for row in out for v in row)


if __name__ == "__main__":
    words = [a for a in sys.argv[1:] if a != "--values"]
    scan, values = sys.stdin.buffer.read(), "--values" in sys.argv
    if words[0] == "--rank":
        sys.stdout.buffer.write(ranked(*map(int, words[1:4]), scan, values))
    else:
        sys.stdout.buffer.write(filtered(open(words[0], "rb").read(), scan, values))
