#!/usr/bin/env python3
"""png.py IN.pgm OUT.png: a binary PGM of 8 or 16 bits as an 8-bit greyscale PNG."""
import re
import struct
import sys
import zlib


def chunk(kind, data):
    return struct.pack(">I", len(data)) + kind + data + struct.pack(">I", zlib.crc32(kind + data))


def main():
    source, target = sys.argv[1:3]
    data = open(source, "rb").read()
    head = re.match(rb"P5((?:\s+|#[^\n\r]*[\n\r])+)(\d+)((?:\s+|#[^\n\r]*[\n\r])+)(\d+)((?:\s+|#[^\n\r]*[\n\r])+)(\d+)\s", data)
    width, height, maxval = int(head[2]), int(head[4]), int(head[6])
    size = 1 if maxval < 256 else 2
    rows = bytearray()
    for r in range(height):
        rows.append(0)
        for c in range(width):
            at = head.end() + (r * width + c) * size
            rows.append(int.from_bytes(data[at : at + size], "big") * 255 // maxval)
    with open(target, "wb") as out:
        out.write(b"\x89PNG\r\n\x1a\n")
        out.write(chunk(b"IHDR", struct.pack(">IIBBBBB", width, height, 8, 0, 0, 0, 0)))
        out.write(chunk(b"IDAT", zlib.compress(bytes(rows), 9)))
        out.write(chunk(b"IEND", b""))


if __name__ == "__main__":
    main()
