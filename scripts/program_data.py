#!/usr/bin/env python3
"""Makes what the gate runs stripfilter on: a scan of 300 by 300 samples, more than one read brings, whose rows do not end where a read
does; a table with drops and a pixel word above 16 bits; and what must come out, by filter.py. The same bytes at every run."""
import os

import filter

CRATE = os.path.join(os.path.dirname(os.path.abspath(__file__)), "..", "crates", "stripfilter")
TABLE = bytes([1, 0, 6, 8, 1, 1, 1, 1, 18])
TABLE += bytes([2, 0, 6, 2, 2, 253, 253, 0, 21]) + bytes([2, 0, 6, 7, 1, 248, 254, 255, 244]) + bytes([2, 0, 6, 0, 0, 255, 255, 1, 44])


def samples(n):
    state = 1
    for _ in range(n):
        state = (state * 6364136223846793005 + 1442695040888963407) % 2 ** 64
        yield state >> 56


def save(name, data):
    path = os.path.join(CRATE, name)
    os.makedirs(os.path.dirname(path), exist_ok=True)
    with open(path, "wb") as f:
        f.write(data)


scan = b"P5\n# 300 rows of 300\n300 300\n255\n" + bytes(samples(300 * 300))
save("stdin", scan)
save("data/drops.table", TABLE)
save("stdout", filter.filtered(TABLE, scan, False))
