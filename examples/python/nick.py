"""The NICK library from Python: paints the guide's vertical sequence, prints what its records say, and compares it with a frame
that has a dot changed. From the repository's root:

    (cd crates/nick_c && rt lib)
    cc -shared -Wl,--whole-archive crates/nick_c/out/libnick_c.a -Wl,--no-whole-archive -o libnick.so
    python3 examples/python/nick.py ./libnick.so

include/nick.h says what each function does.
"""

import ctypes
import struct
import sys
from collections import namedtuple
from ctypes import POINTER, byref, c_size_t, c_uint8, c_uint32, c_uint64

RECORD_BYTES = 7  # the record of a scanline
STEP_BYTES = 3  # a step of a script: kind, port, data

# What a run leaves. `stopped` has the refusal and the place of the step that it stopped at, or is None.
Run = namedtuple("Run", "dots records latch enable request stopped")


class Nick:
    """The chip: its state, and the calls of the library. Buffers are bytearrays; a refusal is an exception, but a step's is not."""

    def __init__(self, path):
        self.library = ctypes.CDLL(path)
        buffer = [POINTER(c_uint8), c_size_t]
        for name, answer, parameters in [
            ("nick_fresh", c_uint32, buffer),
            ("nick_write", c_uint32, buffer + [c_uint32, c_uint8]),
            ("nick_paint_line", c_uint32, buffer * 5),
            ("nick_paint", c_uint32, buffer * 2 + [c_size_t] + buffer * 3),
            ("nick_dot", c_uint64, buffer * 2 + [c_size_t, c_size_t, c_uint8]),
            ("nick_list", c_uint64, buffer * 3),
            ("nick_levels", c_uint32, [c_uint8]),
            ("nick_compare", c_uint32, [c_size_t] + buffer * 5),
            ("nick_run", c_uint32, buffer * 6 + [POINTER(c_uint64)]),
        ]:
            function = getattr(self.library, name)
            function.restype = answer
            function.argtypes = parameters
        self.state = bytearray(32)
        self._call("nick_fresh", self.state)

    def _ask(self, name, *arguments):
        """What a function answers, each bytearray lent as pointer and length."""
        lent = []
        for argument in arguments:
            if isinstance(argument, bytearray):
                lent += [(c_uint8 * len(argument)).from_buffer(argument), len(argument)]
            else:
                lent.append(argument)
        return getattr(self.library, name)(*lent)

    def _refuse(self, name, refusal):
        if refusal:
            raise ValueError(f"{name}: refusal {refusal}")

    def _call(self, name, *arguments):
        """The same, of a function whose refusals are exceptions."""
        answer = self._ask(name, *arguments)
        self._refuse(name, answer % 256)
        return answer

    def write(self, port, value):
        self._call("nick_write", self.state, port, value)

    def paint(self, ram, height, external=None):
        """The dots and the records of the next scanlines."""
        dots, records = bytearray(736 * height), bytearray(RECORD_BYTES * height)
        self._call("nick_paint", self.state, ram, height, dots, records, external or bytearray())
        return dots, records

    def dot(self, ram, line, dot, external=0):
        """The colour of a dot, and the addresses that it comes from."""
        answer = self._call("nick_dot", self.state, ram, line, dot, external)
        addresses = [answer >> 24 & 0xFFFF, answer >> 40 & 0xFFFF]
        return answer >> 8 & 255, addresses[: answer >> 16 & 255]

    def listing(self, ram):
        """The text of the line parameter table."""
        out = bytearray(330_000)
        return out[: self._call("nick_list", self.state, ram, out) >> 32].decode("ascii")

    def levels(self, colour):
        """Red and green of 7, blue of 3."""
        packed = self.library.nick_levels(colour)
        return packed % 256, packed // 256 % 256, packed // 65536

    def compare(self, height, capture, capture_records, frame, frame_records):
        """How many dots differ, the first one's line and dot or None, and the ranges of red, green and blue, capture minus frame."""
        answer = bytearray(14)
        self._call("nick_compare", height, capture, capture_records, frame, frame_records, answer)
        differing, line, dot, *levels = struct.unpack("<IHH6b", answer)
        first = None if line == 65535 else (line, dot)
        return differing, first, list(zip(levels[::2], levels[1::2]))

    def run(self, ram, script, external=None):
        """Runs a script, three bytes a step: kind, port, data. Stopped at a step, it leaves what the steps before did."""
        height = script[: len(script) // STEP_BYTES * STEP_BYTES : STEP_BYTES].count(1)
        dots, records, place = bytearray(736 * height), bytearray(RECORD_BYTES * height), c_uint64()
        answer = self._ask("nick_run", self.state, ram, script, dots, records, external or bytearray(), byref(place))
        refusal = answer % 256
        latch, enable, request, at_step = (bool(answer >> bit & 1) for bit in range(8, 12))
        if not at_step:
            self._refuse("nick_run", refusal)
        return Run(dots, records, latch, enable, request, (refusal, place.value) if at_step else None)


def main():
    nick = Nick(sys.argv[1])
    ram = bytearray(65536)
    ram[0:4] = bytes([253, 0, 63, 0])
    ram[16:20] = bytes([254, 0, 6, 63])
    ram[32:36] = bytes([255, 0, 63, 32])
    ram[48:52] = bytes([237, 3, 6, 63])
    print(nick.listing(ram), end="")
    print("line 6, dot 9:", nick.dot(ram, 6, 9))
    dots, records = nick.paint(ram, 7)
    print("slots at sync level:", list(records[1::RECORD_BYTES]))
    numbers = zip(records[5::RECORD_BYTES], records[6::RECORD_BYTES])
    print("blocks in force:", [low + 256 * high for low, high in numbers])
    print("levels of colour 73:", nick.levels(73))
    capture = bytearray(dots)
    capture[736 * 6 + 9] = 73
    print("compared:", nick.compare(7, capture, records, dots, records))
    print("exchanged:", nick.compare(7, dots, records, capture, records))
    print("with itself:", nick.compare(7, dots, records, dots, records))
    try:
        nick.write(144, 0)
    except ValueError as refused:
        print(refused)


if __name__ == "__main__":
    main()
