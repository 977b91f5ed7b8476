#!/usr/bin/env python3
"""Prints the text that show must print for a PBM (P4, 122 by 32) in a form: blocks, braille, ascii or halves.

Usage: forms.py FORM PBM."""
import sys

WIDTH, HEIGHT = 122, 32
BRAILLE_DOTS = [(0, 0), (0, 1), (0, 2), (1, 0), (1, 1), (1, 2), (0, 3), (1, 3)]  # (column, row) of dots 1 to 8


def pixels_of(path):
    with open(path, "rb") as file:
        rows = file.read()[-16 * HEIGHT:]
    return [[rows[16 * y + x // 8] >> (7 - x % 8) & 1 for x in range(WIDTH)] for y in range(HEIGHT)]


def pair(pixels, x, y, glyphs):
    return glyphs[2 * pixels[y][x] + pixels[y + 1][x]]


def dots(pixels, x, y):
    return chr(0x2800 + sum(pixels[y + row][x + column] << bit for bit, (column, row) in enumerate(BRAILLE_DOTS)))


def box(lines, ascii_only):
    corners, across, down = ("++++", "-", "|") if ascii_only else ("┌┐└┘", "─", "│")
    width = len(lines[0])
    print(corners[0] + across * width + corners[1])
    for line in lines:
        print(down + line + down)
    print(corners[2] + across * width + corners[3])


def main():
    form, pixels = sys.argv[1], pixels_of(sys.argv[2])
    if form == "braille":
        box(["".join(dots(pixels, x, y) for x in range(0, WIDTH, 2)) for y in range(0, HEIGHT, 4)], False)
        return
    glyphs = " ▄▀█" if form == "blocks" else " .'#"
    lines = ["".join(pair(pixels, x, y, glyphs) for x in range(WIDTH)) for y in range(0, HEIGHT, 2)]
    if form == "halves":
        box([line[:61] for line in lines], True)
        box([line[61:] for line in lines], True)
    else:
        box(lines, form == "ascii")


main()
