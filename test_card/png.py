#!/usr/bin/env python3
"""png.py DOTS PNG: makes a picture of painted dots, 736 a scanline, each scanline two rows high."""
import struct
import sys
import zlib

WIDTH = 736


def levels(colour):
    """Red, green and blue of a colour byte, 0 to 255."""
    bit = [colour >> k & 1 for k in range(8)]
    red, green, blue = 4 * bit[0] + 2 * bit[3] + bit[6], 4 * bit[1] + 2 * bit[4] + bit[7], 2 * bit[2] + bit[5]
    return bytes((red * 255 // 7, green * 255 // 7, blue * 255 // 3))


def chunk(kind, data):
    return struct.pack(">I", len(data)) + kind + data + struct.pack(">I", zlib.crc32(kind + data))


def main():
    with open(sys.argv[1], "rb") as file:
        dots = file.read()
    shown = [levels(colour) for colour in range(256)]
    rows = []
    for start in range(0, len(dots), WIDTH):
        row = b"\0" + b"".join(shown[dot] for dot in dots[start:start + WIDTH])
        rows += [row, row]
    header = struct.pack(">IIBBBBB", WIDTH, len(rows), 8, 2, 0, 0, 0)
    with open(sys.argv[2], "wb") as file:
        file.write(b"\x89PNG\r\n\x1a\n" + chunk(b"IHDR", header))
        file.write(chunk(b"IDAT", zlib.compress(b"".join(rows), 9)) + chunk(b"IEND", b""))


main()
