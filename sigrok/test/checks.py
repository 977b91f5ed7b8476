"""What is run, and what is counted."""
import os
import pathlib
import subprocess

from files import chosen, written

HERE = pathlib.Path(__file__).resolve().parent
SIGROK = HERE.parent
SHOW = SIGROK.parent / 'host' / 'build' / 'show'
EXAMPLES = SIGROK.parent / 'examples'
TRACE = ('-B', 'sed1520=trace')
WORDS = ('-A', 'sed1520')


class Stop(Exception):
    """A check failed where one failure is enough."""


class Run:
    """The decoder in a folder, tried; counts checks. A run of a damaged decoder ends at its first failure and says nothing."""

    def __init__(self, work, decoders, damaged=False):
        self.work, self.decoders, self.damaged = work, decoders, damaged
        self.checks = self.failed = 0

    def check(self, label, good):
        self.checks += 1
        if not good:
            self.fail(label)

    def fail(self, label):
        if self.damaged:
            raise Stop(label)
        self.failed += 1
        print('sigrok: FAILED: ' + label)

    def same(self, label, got, wanted):
        if isinstance(got, bytes):
            got, wanted = got.hex(' ', 4), wanted.hex(' ', 4)
        self.check(label, got == wanted)
        if got != wanted:
            print('\n'.join(first_difference(str(got), str(wanted))))

    def sigrok(self, *arguments, command=None, **changed):
        """sigrok-cli, or a command that calls it; the result has status, bytes printed and text of messages."""
        environment = dict(os.environ, SIGROKDECODE_DIR=str(self.decoders), PYTHONDONTWRITEBYTECODE='1', LC_ALL='C')
        environment.update(changed.pop('environment', {}))
        environment = {name: value for name, value in environment.items() if value is not None}
        settings = dict(stdin=subprocess.DEVNULL, stdout=subprocess.PIPE, stderr=subprocess.PIPE, cwd=self.work, timeout=60)
        settings.update(changed)
        done = subprocess.run([*(command or ['sigrok-cli']), *map(str, arguments)], env=environment, **settings)
        done.words = done.stderr.decode()
        return done

    def decode(self, label, bus, form='csv', options='', output=TRACE):
        """What the decoder gives for the capture of a bus; a message is a failed check."""
        done = self.sigrok(*written(self, bus, form), '-P', chosen(bus, form) + options, *output)
        self.check('%s: says %s' % (label, done.words), done.words == '')
        self.check('%s: status %d' % (label, done.returncode), done.returncode == 0)
        return done.stdout

    def traced(self, label, bus, trace, form='csv', options=''):
        self.same('%s (%s%s)' % (label, form, options), self.decode(label, bus, form, options), trace)

    def told(self, label, bus, lines, options='', output=WORDS):
        got = self.decode(label, bus, 'csv', options, output).decode().splitlines()
        self.same(label, '\n'.join(got).replace('sed1520-1: ', ''), '\n'.join(lines))

    def ends(self, label, status, words, *arguments, printed=b'', **changed):
        """sigrok-cli ends with this status, says these words or, where they are empty, nothing, and prints these bytes, or any for None."""
        done = self.sigrok(*arguments, **changed)
        self.check('%s: status %d' % (label, done.returncode), done.returncode == status)
        self.check('%s: says %s' % (label, done.words), words in done.words if words else done.words == '')
        if printed is not None:
            self.same('%s: prints' % label, done.stdout, printed)


def first_difference(got, wanted):
    rows = [text.split('\n' if '\n' in got + wanted else ' ') for text in (got, wanted)]
    for place in range(max(map(len, rows))):
        pair = [row[place] if place < len(row) else 'nothing' for row in rows]
        if pair[0] != pair[1]:
            return ['    at %d:' % place, '    got    ' + pair[0], '    wanted ' + pair[1]]
    return []
