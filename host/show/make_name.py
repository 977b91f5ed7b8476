#!/usr/bin/env python3
"""Writes the example: a trace that puts one name on the panel, and the picture of another.

Usage: make_name.py TRACE PICTURE

In TRACE firmware sets up both chips and writes OLIVEIRA across them. The left chip counts forward
(ADC A0), the right one is mounted in reverse (A1): its segment n shows RAM column 79 - n. Both end
ready for a repaint: display on, static drive off, duty 1/16, start line 0, read-modify-write off.

PICTURE is MONTEIRO, a plain PBM (P1) of 122 by 16. The E lies on both chips and is the same in both
names, so a panel caught between the two shows a third, MONTEIRA.
"""
import sys

SHOWN, WANTED = "OLIVEIRA", "MONTEIRO"
LEFT, SCALE = 9, 2
RULE = 15                                       # row of the line below the name
WIDTH, HEIGHT, SEGMENTS, PAGES = 122, 16, 61, 4
COMMAND, DATA, STATUS, READ = 2, 3, 4, 5        # the lines of a record

FONT = {
    "A": (".###.", "#...#", "#...#", "#####", "#...#", "#...#", "#...#"),
    "E": ("#####", "#....", "#....", "####.", "#....", "#....", "#####"),
    "I": (".###.", "..#..", "..#..", "..#..", "..#..", "..#..", ".###."),
    "L": ("#....", "#....", "#....", "#....", "#....", "#....", "#####"),
    "M": ("#...#", "##.##", "#.#.#", "#.#.#", "#...#", "#...#", "#...#"),
    "N": ("#...#", "##..#", "#.#.#", "#..##", "#...#", "#...#", "#...#"),
    "O": (".###.", "#...#", "#...#", "#...#", "#...#", "#...#", ".###."),
    "R": ("####.", "#...#", "#...#", "####.", "#.#..", "#..#.", "#...#"),
    "T": ("#####", "..#..", "..#..", "..#..", "..#..", "..#..", "..#.."),
    "V": ("#...#", "#...#", "#...#", "#...#", "#...#", ".#.#.", "..#.."),
}


def draw(name):
    """The lit pixels, as (column, row) of the panel."""
    lit = set()
    for i, letter in enumerate(name):
        for y in range(7 * SCALE):
            for x in range(5 * SCALE):
                if FONT[letter][y // SCALE][x // SCALE] == "#":
                    lit.add((LEFT + 6 * SCALE * i + x, y))
    return lit | {(x, RULE) for x in range(LEFT, LEFT + 6 * SCALE * len(name) - SCALE)}


def plain_pbm(name):
    lit = draw(name)
    rows = ("".join("01"[(x, y) in lit] for x in range(WIDTH)) for y in range(HEIGHT))
    return "P1\n# %s\n%d %d\n%s\n" % (name, WIDTH, HEIGHT, "\n".join(rows))


class Chip:
    """One chip on the bus. It keeps what is needed to record the right byte for each read."""

    def __init__(self, trace, number, reverse):
        self.trace, self.number, self.reverse = trace, number, reverse
        self.status, self.page, self.column, self.latch = 0x60, 0, 0, 0     # fresh
        self.ram = [[0] * 80 for _ in range(PAGES)]

    def record(self, lines, byte):
        self.trace += bytes((lines, self.number, byte, 0))

    def command(self, byte):
        self.record(COMMAND, byte)
        if byte in (0xAE, 0xAF):
            self.status = self.status & 0x40 | (0x20 if byte == 0xAE else 0)
        if byte in (0xA0, 0xA1):
            self.status = self.status & 0x20 | (0x40 if byte == 0xA0 else 0)

    def seek(self, page, column):
        self.command(0xB8 + page)
        self.command(column)
        self.page, self.column = page, column

    def write(self, byte):
        self.record(DATA, byte)
        self.ram[self.page][self.column] = byte
        self.column += 1

    def read(self):
        self.record(READ, self.latch)
        self.latch = self.ram[self.page][self.column]
        self.column += 1

    def read_status(self):
        self.record(STATUS, self.status)

    def setup(self):
        self.read_status()
        for byte in (0xE2,                              # reset
                     0xAE, 0xA4, 0xA8,                  # display off, static drive off, duty 1/16
                     0xA1 if self.reverse else 0xA0,    # ADC
                     0xEE, 0xC0):                       # read-modify-write off, start line 0
            self.command(byte)
        self.read_status()

    def clear(self):
        for page in range(PAGES):
            self.seek(page, 0)
            for _ in range(80):
                self.write(0)

    def paint(self, lit):
        """Each page that has something lit, from its first column with a lit pixel to its last."""
        for page in range(PAGES):
            row = [0] * 80
            for n in range(SEGMENTS):
                x = SEGMENTS * self.number + n
                row[79 - n if self.reverse else n] = sum(((x, 8 * page + b) in lit) << b for b in range(8))
            used = [column for column, byte in enumerate(row) if byte]
            if used:
                self.seek(page, used[0])
                for byte in row[used[0]:used[-1] + 1]:
                    self.write(byte)

    def check(self):
        """Reads the status, and after one empty read three bytes of this chip's part of the E."""
        self.read_status()
        self.seek(1, 79 - 5 if self.reverse else 58)
        for _ in range(4):
            self.read()


def main(trace_path, picture_path):
    lit, trace = draw(SHOWN), bytearray()
    chips = Chip(trace, 0, False), Chip(trace, 1, True)
    for step in (Chip.setup, Chip.clear, lambda chip: chip.command(0xAF),
                 lambda chip: chip.paint(lit), Chip.check):
        for chip in chips:
            step(chip)
    with open(trace_path, "wb") as file:
        file.write(trace)
    with open(picture_path, "w", newline="\n") as file:
        file.write(plain_pbm(WANTED))


if __name__ == "__main__":
    if len(sys.argv) != 3:
        sys.exit(__doc__)
    main(*sys.argv[1:])
