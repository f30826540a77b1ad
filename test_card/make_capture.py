#!/usr/bin/env python3
"""make_capture.py DOTS RECORDS FOLDER: writes a capture of the painted test card, capture.dots and capture.records.

DOTS and RECORDS are the card as painted. The capture has five dots in other colours, as a faulty board might show them,
and the same records.
"""
import os
import sys

WIDTH = 736

# Line, dot and the colour captured there. Beside each: red, green and blue as painted, and as captured.
CAPTURED = (
    (60, 200, 25),  # 0, 7, 0: 6, 2, 0
    (100, 300, 183),  # 7, 7, 0: 4, 7, 3
    (150, 400, 34),  # 0, 0, 0: 0, 4, 1
    (200, 500, 209),  # 6, 0, 2: 5, 3, 0
    (311, 735, 196),  # 1, 1, 1: 1, 1, 2
)


def main():
    painted, records, folder = sys.argv[1:]
    with open(painted, "rb") as file:
        dots = bytearray(file.read())
    with open(records, "rb") as file:
        lines = file.read()
    for line, dot, colour in CAPTURED:
        dots[WIDTH * line + dot] = colour
    for name, data in (("capture.dots", bytes(dots)), ("capture.records", lines)):
        with open(os.path.join(folder, name), "wb") as file:
            file.write(data)


main()
