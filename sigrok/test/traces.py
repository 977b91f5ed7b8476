"""Traces, and the buses that play them or are drawn by hand."""
import random

import capture


def records(*words):
    """'LINES CHIP HEX'... as a trace."""
    return b''.join(bytes([int(lines), int(chip), int(data, 16), 0]) for lines, chip, data in map(str.split, words))


def random_trace(chance, count, lines=(0, 1, 2, 2, 3, 3, 4, 5)):
    return b''.join(bytes([chance.choice(lines), chance.randrange(2), chance.randrange(256), 0]) for _ in range(count))


def likely_trace(chance, count):
    """Commands that are mostly accepted, with read-modify-write often on; a refusal comes sooner or later."""
    commands = [0xe0, 0xee, 0xe2, 0xaf, 0xb9, 0xc5] * 6 + list(range(0, 0x50, 9)) + [0x4f, 0x50, 0x7f, 0x80, 0xe1, 0xbc]
    made = bytearray()
    for _ in range(count):
        lines = chance.choice((2, 2, 3, 4, 5)) if chance.randrange(25) else chance.randrange(2)
        made += bytes([lines, chance.randrange(2), chance.choice(commands), 0])
    return bytes(made)


def every_byte():
    return b''.join(bytes([lines, chip, byte, 0]) for lines in range(6) for byte in range(256) for chip in (0, 1))


def played(trace, seed=None, wiring='two', active=0, least=1):
    return capture.Bus(wiring, active, None if seed is None else random.Random(seed), least).play(trace)


def drawn(wiring='two', active=0, **lines):
    """A bus drawn line by line, a digit for each sample; a digit of data stands for both halves of the byte. The rest is 1."""
    bus = capture.Bus(wiring, active)
    for place in range(max(map(len, lines.values()))):
        digits = {name: int(row[place], 16) for name, row in lines.items()}
        if 'data' in digits:
            digits['data'] *= 0x11
        bus.hold(**digits)
    return bus
