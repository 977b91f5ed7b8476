"""Captures as files of each form that sigrok-cli reads, and the arguments that make it read them."""
import itertools

import capture

RATE = 'samplerate=1000000'
FILES = itertools.count()


def chosen(bus, form):
    """The decoder with the channels of the capture."""
    names = bus.names()
    return ':'.join(['sed1520'] + ['%s=%s' % (name, place if form == 'binary' else name) for place, name in enumerate(names)])


def written(run, bus, form):
    """The arguments that make sigrok-cli read the capture of a bus; its file is written once."""
    files = bus.__dict__.setdefault('files', {})
    if form not in files:
        path = run.work / ('%s%d' % (form, next(FILES)))
        files[form] = WRITERS[form](run, bus, path)
    return files[form]


def write_csv(_, bus, path):
    path.write_text(capture.csv_text(bus))
    return '-I', 'csv:' + RATE, '-i', path


def write_timed_csv(_, bus, path):
    head, *rows = capture.csv_text(bus).splitlines()
    path.write_text('\n'.join(['Time,' + head] + ['%.6f,%s' % (time / 1e6, row) for time, row in enumerate(rows)]) + '\n')
    return '-I', 'csv:column_formats=t,%dl' % len(bus.names()), '-i', path


def write_vcd(_, bus, path):
    path.write_text(capture.vcd_text(bus))
    return '-I', 'vcd', '-i', path


def binary(samples):
    """Two bytes for each sample."""
    return b''.join(sum(level << bit for bit, level in enumerate(levels)).to_bytes(2, 'little') for levels in samples)


def write_binary(_, bus, path):
    path.write_bytes(binary(bus.samples))
    return '-I', 'binary:numchannels=%d:%s' % (len(bus.names()), RATE), '-i', path


def write_session(run, bus, path):
    path = path.with_suffix('.sr')
    made = run.sigrok(*written(run, bus, 'csv'), '-O', 'srzip', '-o', path)
    if made.returncode or made.words or not path.exists():
        raise SystemExit('sigrok: no capture could be written: ' + made.words)
    return '-i', path


WRITERS = {'csv': write_csv, 'timed-csv': write_timed_csv, 'vcd': write_vcd, 'binary': write_binary, 'sr': write_session}
