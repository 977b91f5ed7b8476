#!/usr/bin/env python3
"""Runs a command on a terminal of so many columns, types the keys one by one, and copies what it prints.

Usage: terminal.py COLUMNS[xROWS] KEYS COMMAND...; a key is a character or, as <ESC>[A or <ESC>[5~, an escape sequence; each is
typed when the command has printed something, and then nothing for a while. The status is the command's."""
import fcntl
import os
import pty
import re
import select
import struct
import sys
import termios

QUIET_SECONDS = 0.15
LIMIT_SECONDS = 20


def keys_of(text):
    return [key.replace("<ESC>", "\033").encode() for key in re.findall(r"<ESC>\[\d~|<ESC>\[.|.", text, re.S)]


def read_some(terminal):
    """Gives nothing at the end of the output."""
    try:
        return os.read(terminal, 65536)
    except OSError:
        return b""


def copy(terminal, keys):
    """Copies the output to its end. The command reads keys one by one only when it has printed something: before, the terminal would echo them."""
    printed, quiet = False, 0
    while quiet < LIMIT_SECONDS / QUIET_SECONDS:
        if select.select([terminal], [], [], QUIET_SECONDS)[0]:
            part = read_some(terminal)
            if not part:
                return
            sys.stdout.buffer.write(part)
            printed = True
        else:
            quiet += 1
            if printed and keys:
                os.write(terminal, keys.pop(0))


def main():
    columns, _, rows = sys.argv[1].partition("x")
    keys, command = keys_of(sys.argv[2]), sys.argv[3:]
    process, terminal = pty.fork()
    if process == 0:
        fcntl.ioctl(0, termios.TIOCSWINSZ, struct.pack("HHHH", int(rows or 50), int(columns), 0, 0))
        os.execvp(command[0], command)
    copy(terminal, keys)
    os.close(terminal)
    sys.stdout.buffer.flush()
    sys.exit(os.waitstatus_to_exitcode(os.waitpid(process, 0)[1]))


main()
