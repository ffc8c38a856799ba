#!/usr/bin/env python3
"""Makes two synthetic test strips of 128 columns and 320 rows with pads of eight shades in two columns. scans/strip.pgm has 10 bits a
sample, stray light that is stronger towards the right and in the middle of the strip, and noise; scans/grit.pgm has 8 bits, some noise,
and grit: dark specks and glints of one to three samples. The same bytes at every run."""
import math
import os

WIDTH, HEIGHT, MAXVAL = 128, 320, 1023
PAPER = 430
SHADES = [40, 90, 140, 190, 240, 290, 340, 380]
PAD_ROWS, PAD_COLUMNS = 14, 22


class Noise:
    """A linear congruential generator; the sum of four draws is near enough to a bell curve."""

    def __init__(self, seed):
        self.state = seed

    def draw(self):
        self.state = (self.state * 6364136223846793005 + 1442695040888963407) % (1 << 64)
        return (self.state >> 40) / (1 << 24)

    def bell(self, width):
        return (self.draw() + self.draw() + self.draw() + self.draw() - 2.0) * width


def pad(row, column):
    """The shade of the pad at this place, or None."""
    for k, shade in enumerate(SHADES):
        top = 24 + 36 * k
        for left in (26, 78):
            if top <= row < top + PAD_ROWS and left <= column < left + PAD_COLUMNS:
                return shade if left == 26 else SHADES[len(SHADES) - 1 - k]
    return None


def light(row, column):
    """Stray light, added to every sample."""
    return 380.0 * (column / (WIDTH - 1)) ** 1.5 + 140.0 * math.sin(math.pi * row / (HEIGHT - 1)) ** 2


def save(name, maxval, samples):
    path = os.path.join(os.path.dirname(os.path.abspath(__file__)), name)
    with open(path, "wb") as out:
        out.write(b"P5\n# a synthetic strip, made by scans/make.py\n%d %d\n%d\n" % (WIDTH, HEIGHT, maxval))
        out.write(samples)


def grit():
    """8 bits a sample: a speck begins at one place in forty, and goes on down or to the right one time in two"""
    noise = Noise(40)
    rows = [[min(255, int(2 + ((PAPER if pad(r, c) is None else pad(r, c)) + noise.bell(14.0)) / 2)) for c in range(WIDTH)] for r in range(HEIGHT)]
    for row in range(HEIGHT):
        for column in range(WIDTH):
            if noise.draw() < 1 / 40:
                shade, r, c = (0, 255)[noise.draw() < 0.5], row, column
                for _ in range(3):
                    rows[r][c] = shade
                    if noise.draw() < 0.5:
                        break
                    r, c = (min(HEIGHT - 1, r + 1), c) if noise.draw() < 0.5 else (r, min(WIDTH - 1, c + 1))
    save("grit.pgm", 255, bytes(v for row in rows for v in row))


def strip():
    noise = Noise(20)
    samples = bytearray()
    for row in range(HEIGHT):
        for column in range(WIDTH):
            shade = pad(row, column)
            value = (PAPER if shade is None else shade) + light(row, column) + noise.bell(14.0)
            value = max(0, min(MAXVAL, int(value)))
            samples += bytes((value >> 8, value & 255))
    save("strip.pgm", MAXVAL, samples)


if __name__ == "__main__":
    strip()
    grit()
