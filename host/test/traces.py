#!/usr/bin/env python3
"""Writes a random trace to standard output. Usage: traces.py KIND SEED RECORDS.

KIND is good (every record is accepted), damaged (some are not), cut (damaged, and ends inside a record) or noise (any bytes)."""
import random
import sys

COMMANDS = [*range(0x50), 0xA0, 0xA1, 0xA4, 0xA5, 0xA8, 0xA9, 0xAE, 0xAF, *range(0xB8, 0xBC), *range(0xC0, 0xE0), 0xE0, 0xE2, 0xEE]
COMMAND_WRITE, DATA_WRITE, STATUS_READ, DATA_READ = 2, 3, 4, 5


class Bus:
    def __init__(self, seed):
        self.random = random.Random(seed)
        self.modify = [False, False]  # read-modify-write, in which a column set is refused

    def command(self, chip):
        byte = self.random.choice(COMMANDS)
        if byte < 0x80 and self.modify[chip]:
            return 0xEE
        return byte

    def record(self):
        chip = self.random.randrange(2)
        lines = self.random.choice([COMMAND_WRITE, COMMAND_WRITE, DATA_WRITE, DATA_WRITE, STATUS_READ, DATA_READ, DATA_READ])
        byte = self.command(chip) if lines == COMMAND_WRITE else self.random.choice([0x00, 0x20, 0x40, 0x60, self.random.randrange(256)])
        if lines == COMMAND_WRITE and byte in (0xE0, 0xEE):
            self.modify[chip] = byte == 0xE0
        return bytes([lines, chip, byte, 0])

    def damaged(self):
        record = bytearray(self.record())
        if self.random.random() < 0.01:
            record[self.random.randrange(4)] = self.random.randrange(256)
        return bytes(record)


def main():
    kind, seed, count = sys.argv[1], sys.argv[2], int(sys.argv[3])
    bus = Bus(kind + seed)
    if kind == "noise":
        trace = bytes(bus.random.randrange(256) for _ in range(4 * count + bus.random.randrange(4)))
    else:
        trace = b"".join(bus.record() if kind == "good" else bus.damaged() for _ in range(count))
    if kind == "cut":
        trace += bytes(bus.random.randrange(256) for _ in range(bus.random.randrange(1, 4)))
    sys.stdout.buffer.write(trace)


main()
