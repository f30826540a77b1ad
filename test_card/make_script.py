#!/usr/bin/env python3
"""make_script.py WRITES FOLDER..: writes a script that paints the test card, card.script, into each folder.

WRITES is the card's register writes. The script makes them, enables the interrupt, resets the latch and paints a frame,
with another border from half its height on. A step is three bytes: kind, port, data.
"""
import os
import sys

WRITE, PAINT, ENABLE, RESET = range(4)
LINES = 312
BORDER_PORT = 129
BORDER = 4  # blue, level 2 of 3


def main():
    with open(sys.argv[1], "rb") as file:
        writes = file.read()
    steps = [(WRITE, port, data) for port, data in zip(writes[0::2], writes[1::2])]
    steps += [(ENABLE, 0, 1), (RESET, 0, 0)]
    half = [(PAINT, 0, 0)] * (LINES // 2)
    steps += half + [(WRITE, BORDER_PORT, BORDER)] + half
    script = bytes(byte for step in steps for byte in step)
    for folder in sys.argv[2:]:
        with open(os.path.join(folder, "card.script"), "wb") as file:
            file.write(script)


main()
