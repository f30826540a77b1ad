#!/usr/bin/env python3
"""make_card.py FOLDER..: writes the test card, card.ram and card.writes, into each folder.

The card shows every video mode in every colour mode on 312 scanlines. Its line parameter table is at
address 0: the guide's vertical sequence, then a group of strips for each video mode that fetches.
"""
import os
import sys

VSYNC, PIXEL, ATTR, CH256, CH128, CH64, UNUSED, LPIXEL = range(8)
TWO, FOUR, SIXTEEN, ALL = range(4)
VINT, VRES, RELOAD = 128, 16, 1
LEFT, RIGHT = 10, 52
SLOTS = RIGHT - LEFT
STRIP = 9
LINES = 312

# Five dots a row, seven rows a character.
GLYPHS = {
    "A": "0E11111F111111", "B": "1E11111E11111E", "C": "0E11101010110E", "D": "1E11111111111E",
    "E": "1F10101E10101F", "F": "1F10101E101010", "G": "0E11101711110E", "H": "1111111F111111",
    "I": "0E04040404040E", "J": "0101010101110E", "K": "11121418141211", "L": "1010101010101F",
    "M": "111B1515111111", "N": "11191513111111", "O": "0E11111111110E", "P": "1E11111E101010",
    "Q": "0E11111115120D", "R": "1E11111E141211", "S": "0F10100E01011E", "T": "1F040404040404",
    "U": "1111111111110E", "V": "111111110A0A04", "W": "11111115151B11", "X": "11110A040A1111",
    "Y": "11110A04040404", "Z": "1F01020408101F", "0": "0E11131519110E", "1": "040C040404040E",
    "2": "0E11010608101F", "3": "0E11010601110E", "4": "02060A121F0202", "5": "1F101E0101110E",
    "6": "0608101E11110E", "7": "1F010204040404", "8": "0E11110E11110E", "9": "0E11110F01020C",
    ",": "00000000040408", "-": "0000001F000000", ".": "00000000000C0C",
}


def colour(red, green, blue):
    """The colour byte of these levels: red and green of 7, blue of 3."""
    byte = 0
    for bit, level, weight in ((0, red, 4), (3, red, 2), (6, red, 1), (1, green, 4), (4, green, 2), (7, green, 1),
                               (2, blue, 2), (5, blue, 1)):
        byte |= (level // weight % 2) << bit
    return byte


BLACK, WHITE = colour(0, 0, 0), colour(7, 7, 3)
# Black, blue, red, magenta, green, cyan, yellow, white; palette 8 to 15 are dark colours by FIXBIAS 0.
BARS = [colour(7 * (n // 2 % 2), 7 * (n // 4), 3 * (n % 2)) for n in range(8)]
# Four pairs for text and alternate colours.
PAIRS = [BLACK, WHITE, colour(0, 0, 1), colour(7, 7, 0), colour(2, 0, 0), colour(0, 7, 3), colour(0, 2, 0), colour(7, 4, 3)]
FOURS = [BLACK, colour(7, 0, 0), colour(0, 7, 0), WHITE] + PAIRS[4:]
BORDER = colour(1, 1, 1)


def spread(value, places):
    """A byte with bit k of the value at each bit of places[k]."""
    return sum(1 << bit for k, bits in enumerate(places) for bit in bits if value >> k & 1)


def four(indices):
    """The display byte of four pixels in four colours."""
    return sum(spread(n, ((7 - p,), (3 - p,))) for p, n in enumerate(indices))


def sixteen(first, second):
    """The display byte of two pixels in sixteen colours."""
    return spread(first, ((7,), (3,), (5,), (1,))) | spread(second, ((6,), (2,), (4,), (0,)))


def glyph_row(character, row):
    """Row 0 to 8 of a character in two colours; the first and the last are empty."""
    rows = bytes.fromhex(GLYPHS.get(character, "00" * 7))
    return rows[row - 1] << 2 if 1 <= row <= 7 else 0


class Card:
    def __init__(self):
        self.ram = bytearray(65536)
        self.blocks = []
        self.lines = 0
        self.free = 0x1000

    def put(self, data):
        """Puts data after what is there, and answers its address."""
        data = bytes(data)
        at, self.free = self.free, self.free + len(data)
        assert self.free <= 0x4000
        self.ram[at:self.free] = data
        return at

    def block(self, lines, mode, colours=TWO, flags=0, lm=LEFT, rm=RIGHT, ld1=0, ld2=0, col=BARS):
        """Adds a line parameter block."""
        self.lines += lines
        self.blocks.append([256 - lines, flags + 32 * colours + 2 * mode, lm, rm, ld1 % 256, ld1 // 256, ld2 % 256, ld2 // 256]
                           + list(col))

    def finish(self):
        assert self.lines == LINES
        self.blocks[-1][1] += RELOAD
        table = bytes(byte for block in self.blocks for byte in block)
        self.ram[0:len(table)] = table


# The character modes: the bits of a code, and where the four fonts are, one for each colour mode.
WIDTH = {CH256: 8, CH128: 7, CH64: 6}
FONTS = {CH256: 0x4000, CH128: 0x8000, CH64: 0xA000}


def font_row(colours, code, row):
    """The display byte of a code: letters, slanting stripes, pairs of colours, or a colour of its own."""
    if colours == TWO:
        return glyph_row(chr(code % 128 if code % 128 >= 32 else code % 128 + 64), row)
    if colours == FOUR:
        return four([(code + row + p) // 2 % 4 for p in range(4)])
    if colours == SIXTEEN:
        return sixteen(code % 16, (code + row) % 16)
    return colour(code % 8, row % 8, code // 8 % 4)


def font(mode, colours):
    """The address of a font: sixteen rows of 2 to the width bytes each."""
    return FONTS[mode] + colours * (16 << WIDTH[mode])


def make_fonts(card):
    for mode, width in WIDTH.items():
        for colours in range(4):
            for row in range(STRIP):
                for code in range(1 << width):
                    card.ram[font(mode, colours) + (row << width) + code] = font_row(colours, code, row)


def text_codes(text, mode, pair=0):
    """The codes of a text as wide as the margins; the pair of colours is in bits 7 and 6, or bit 7 alone."""
    codes = []
    for character in text.ljust(SLOTS)[:SLOTS]:
        code = ord(character)
        if mode == CH64:
            code = code % 64 + 64 * pair
        else:
            code = code + 128 * (pair % 2)
        codes.append(code)
    return codes


def vertical_sequence(card):
    """The guide's: three blank scanlines, sync, then nineteen over the whole width, here with finer and finer stripes."""
    card.block(3, VSYNC, lm=63, rm=0)
    card.block(2, VSYNC, lm=6, rm=63)
    card.block(1, VSYNC, lm=63, rm=32)
    stripes = [(0xFF, 0x00), (0xF0, 0xF0), (0xCC, 0xCC), (0xAA, 0xAA)]
    data = [stripes[k // 23][k % 2] for k in range(92)]
    card.block(19, PIXEL, lm=6, rm=63, ld1=card.put(data), col=[BLACK, WHITE] + BARS[2:])


def alternating(width):
    """Bytes for both alternate bits: each quarter has another pair of colours, b7 and b0 telling which."""
    return [0x3C | (k * 4 // width & 1) << 7 | k * 4 // width >> 1 for k in range(width)]


def levels_ramps(width):
    """Nine scanlines in 256 colours: ramps of red, of green, and of blue beside grey."""
    red = [colour(k * 8 // width, 0, 0) for k in range(width)]
    green = [colour(0, k * 8 // width, 0) for k in range(width)]
    half = width // 2
    blue = [colour(0, 0, k * 4 // half) for k in range(half)]
    grey = [colour(k * 8 // half, k * 8 // half, k * 4 // half) for k in range(width - half)]
    return red * 3 + green * 3 + (blue + grey) * 3


def graphics_strips(card, mode, width):
    """PIXEL and LPIXEL: alternate colours; bars of four and of sixteen colours; ramps, each scanline with its own bytes."""
    card.block(STRIP, mode, TWO, lm=LEFT + 192, ld1=card.put(alternating(width)), col=PAIRS)
    card.block(STRIP, mode, FOUR, ld1=card.put(four([k * 8 // width % 4] * 4) for k in range(width)), col=FOURS)
    bars = [k * 16 // width for k in range(width)]
    card.block(STRIP, mode, SIXTEEN, ld1=card.put(sixteen(n, n) for n in bars))
    card.block(STRIP, mode, ALL, flags=VRES, ld1=card.put(levels_ramps(width)))


def attribute_strips(card):
    """ATTR: a line of text in coloured cells; two colours in every colour mode."""
    for colours, text in enumerate(("ATTRIBUTE CELLS HAVE TWO OF SIXTEEN", "WHATEVER THE COLOUR MODE, HERE FOUR",
                                    "PAPER IS THE HIGH HALF, INK THE LOW", "LD2 RUNS ON FROM LINE TO LINE")):
        cells = [k * 16 // SLOTS * 16 + (7 if k * 16 // SLOTS not in (4, 5, 6, 7, 10, 14) else 0) for k in range(SLOTS)]
        rows = [glyph_row(character, row) for row in range(STRIP) for character in text.center(SLOTS)]
        card.block(STRIP, ATTR, colours, ld1=card.put(cells), ld2=card.put(rows))


def character_strips(card, mode):
    """The character modes: text in alternate colours, stripes, pairs of colours, and colours of the codes' own."""
    bits = 192 if mode == CH64 else 128
    words = [text_codes(text, mode, pair)[:10] for pair, text in enumerate(("CODES PICK", " THE PAIR ", "  OF TWO  ", "  COLOURS "))]
    text = sum(words, []) + text_codes("", mode)[:2]
    for colours in range(4):
        codes = text if colours == TWO else [k * 32 // SLOTS for k in range(SLOTS)]
        card.block(STRIP, mode, colours, rm=RIGHT + (bits if colours == TWO else 0), ld1=card.put(codes),
                   ld2=font(mode, colours) >> WIDTH[mode], col=(PAIRS, FOURS, BARS, BARS)[colours])


def caption(card, text):
    """A gap in the unused video mode, and a line of text."""
    card.block(2, UNUSED)
    card.block(8, CH128, rm=RIGHT + 128, ld1=card.put(text_codes(text, CH128, 1)), ld2=font(CH128, TWO) >> 7,
               col=[BLACK, WHITE, colour(0, 0, 2), WHITE] + PAIRS[4:])


def main():
    card = Card()
    make_fonts(card)
    vertical_sequence(card)
    for mode, name in ((PIXEL, "PIXEL"), (LPIXEL, "LPIXEL"), (ATTR, "ATTR"), (CH256, "CH256"), (CH128, "CH128"), (CH64, "CH64")):
        caption(card, name + " - 2, 4, 16, 256 COLOURS")
        if mode in WIDTH:
            character_strips(card, mode)
        elif mode == ATTR:
            attribute_strips(card)
        else:
            graphics_strips(card, mode, 2 * SLOTS if mode == PIXEL else SLOTS)
    card.block(LINES - card.lines, UNUSED, flags=VINT)
    card.finish()
    # FIXBIAS 0, BORDER, then the base: LPL 0, and LPH with both its high bits clear, then set.
    writes = bytes([128, 0, 129, BORDER, 130, 0, 131, 0, 131, 192])
    for folder in sys.argv[1:]:
        for name, data in (("card.ram", bytes(card.ram)), ("card.writes", writes)):
            with open(os.path.join(folder, name), "wb") as file:
                file.write(data)


main()
