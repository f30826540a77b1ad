"""Runs three scripts over the guide's vertical sequence: one that finishes, one that stops at a step and one that is refused.
From the repository's root, with the libnick.so of nick.py:

    python3 examples/python/script.py ./libnick.so
"""

import sys

from nick import RECORD_BYTES, Nick

ENABLE = bytes([2, 0, 1])
PAINT = bytes([1, 0, 0])
RESET = bytes([3, 0, 0])
WRITE_RESERVED = bytes([0, 132, 7])


def print_run(run):
    """How a run ended, and the first byte of each record."""
    print(f"run: latch {run.latch}, enable {run.enable}, request {run.request}, stopped {run.stopped};", end=" ")
    print("records begin with", list(run.records[::RECORD_BYTES]))


def main():
    nick = Nick(sys.argv[1])
    ram = bytearray(65536)
    ram[0:4] = bytes([253, 128, 63, 0])  # VINT: the block's first scanline has the edge of VIRQ
    ram[16:20] = bytes([254, 0, 6, 63])
    ram[32:36] = bytes([255, 0, 63, 32])
    ram[48:52] = bytes([237, 3, 6, 63])
    print_run(nick.run(ram, bytearray(ENABLE + PAINT + PAINT)))
    print_run(nick.run(ram, bytearray(PAINT + RESET + WRITE_RESERVED + PAINT)))
    try:
        nick.run(ram, bytearray(PAINT + ENABLE[:1]))
    except ValueError as refused:
        print(refused)


if __name__ == "__main__":
    main()
