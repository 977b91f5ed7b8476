"""Wrong use, unreadable input, a full disk: what sigrok-cli says, and with which status."""
import os
import zipfile

import capture
from checks import SHOW, TRACE
from files import chosen, written
from traces import played, records


def wrong_use(run):
    trace = records('2 0 AF', '3 1 55')
    bus = played(trace)
    source, decoder = written(run, bus, 'csv'), chosen(bus, 'csv')
    one = [*written(run, played(trace, wiring='level'), 'csv'), '-P', ':'.join(decoder.split(':')[:-1])]
    for option, value, values in (('cs_polarity', 'low', 'active-low, active-high'), ('cs_polarity', '', 'active-low, active-high'),
                                  ('one_select', 'both', 'left, right, level')):
        run.ends('%s=%s' % (option, value), 1, '%s is one of %s, not "%s"' % (option, values, value),
                 *one[:-1], '%s:%s=%s' % (one[-1], option, value), *TRACE)
    for value in ('level', 'right'):                # known only at the first sample, where sigrok-cli keeps status 0
        run.ends('cs1 and one_select=' + value, 0, 'one_select is for captures without cs1',
                 *source, '-P', '%s:one_select=%s' % (decoder, value), *TRACE)
    run.ends('unknown option', 1, "Unknown option or channel 'polarity'", *source, '-P', decoder + ':polarity=low', *TRACE)
    run.ends('unknown output', 1, "binary output 'tracks' not found", *source, '-P', decoder, '-B', 'sed1520=tracks')
    # These two go on, with the channels in the order of the capture; README.md says not to trust the trace then.
    run.ends('a required channel missing', 0, "Required channel 'wr' (index 10) was not specified",
             *source, '-P', decoder.replace(':wr=wr', ''), *TRACE, printed=None)
    run.ends('a channel that the capture does not have', 0, 'No channel with name "XY" found', *source, '-P', decoder.replace('=wr', '=XY'),
             *TRACE, printed=None)
    run.ends('no such decoder', 1, 'Failed to load protocol decoder sed1521', *source, '-P', 'sed1521', *TRACE)


def unreadable(run):
    bus = played(records('2 0 AF', '3 1 55'))
    decoder = ('-P', chosen(bus, 'csv'), *TRACE)
    session = written(run, bus, 'sr')[1]
    (run.work / 'cut.sr').write_bytes(session.read_bytes()[:100])
    (run.work / 'empty.sr').write_bytes(b'')
    run.ends('missing session', 1, 'no input module found for this file', '-i', 'none.sr', *decoder)
    run.ends('missing CSV', 1, 'Failed to load none.csv: No such file or directory', '-I', 'csv', '-i', 'none.csv', *decoder)
    run.ends('a session cut off', 1, 'no input module found for this file', '-i', 'cut.sr', *decoder)
    run.ends('an empty session', 1, 'no input module found for this file', '-i', 'empty.sr', *decoder)
    run.ends('a folder', 1, 'no input module found for this file', '-i', run.work, *decoder)
    run.ends('a folder as CSV', 1, 'Read failed: Is a directory', '-I', 'csv', '-i', run.work, *decoder)
    (run.work / 'secret.csv').write_text(capture.csv_text(bus))
    (run.work / 'secret.csv').chmod(0)
    if not os.access(run.work / 'secret.csv', os.R_OK):
        run.ends('a file that cannot be read', 1, 'Permission denied', '-I', 'csv', '-i', 'secret.csv', *decoder)


def read_all_the_same(run):
    """Damaged or empty files with which sigrok-cli ends with status 0, and not always with a message."""
    bus = played(records('2 0 AF', '3 1 55'))
    decoder = ('-P', chosen(bus, 'csv'), *TRACE)
    head, *rows = capture.csv_text(bus).splitlines()
    for label, row, words in (('text in a CSV', 'x' + rows[0][1:], 'Invalid text'), ('a short row in a CSV', '1,1', 'Insufficient column count')):
        (run.work / 'damaged.csv').write_text('\n'.join([head, *rows, row]) + '\n')
        run.ends(label, 0, words, '-I', 'csv', '-i', 'damaged.csv', *decoder)
    (run.work / 'head.csv').write_text(head + '\n')
    run.ends('a CSV of captions', 0, 'No channel with name', '-I', 'csv', '-i', 'head.csv', *decoder)
    (run.work / 'empty.csv').write_text('')
    run.ends('an empty CSV', 0, '', '-I', 'csv', '-i', 'empty.csv', *decoder)
    session = written(run, bus, 'sr')[1]
    for name, logic, words in (('bare.sr', None, "No capture file 'logic-1'"), ('still.sr', b'', '')):
        with zipfile.ZipFile(session) as whole, zipfile.ZipFile(run.work / name, 'w') as made:
            for part in ('version', 'metadata'):
                made.writestr(part, whole.read(part))
            if logic is not None:
                made.writestr('logic-1-1', logic)
        run.ends('a session without samples, ' + name, 0, words, '-i', name, *decoder)


def surprises_of_selects(run):
    """What README.md warns of: a missing cs1, and a wrong polarity."""
    bus = played(records('3 0 11', '3 0 22'), wiring='left')
    run.ends('no channel named, cs1 missing', 0, '', *written(run, bus, 'csv'), '-P', 'sed1520', *TRACE,
             printed=records('3 0 11', '3 1 11', '3 0 22', '3 1 22'))
    trace = records('3 0 11', '3 1 22', '2 1 E2', '2 0 AF')
    bus = played(trace)
    source, decoder = written(run, bus, 'csv'), chosen(bus, 'csv')
    left = records('3 0 11', '2 0 AF')
    run.ends('cs1 left out', 0, '', *source, '-P', decoder.replace(':cs1=cs1', ''), *TRACE, printed=left)
    run.ends('cs1 with a wrong name', 0, 'No channel with name "XY" found', *source, '-P', decoder.replace('=cs1', '=XY'), *TRACE, printed=left)
    for output, printed in ((TRACE, records('3 1 11', '3 0 22', '2 0 E2', '2 1 AF')), (('-A', 'sed1520=warning'), b'')):
        source = written(run, played(trace, least=2), 'csv')
        run.ends('the wrong polarity', 0, '', *source, '-P', decoder + ':cs_polarity=active-high', *output, printed=printed)


def surprises_of_vcd(run):
    """What README.md warns of: a vector in a VCD, and its last moment."""
    (run.work / 'vector.vcd').write_text('$timescale 1 us $end\n$var wire 8 ! db [7:0] $end\n$var wire 1 " a0 $end\n$enddefinitions $end\n'
                                         '#0\nb00000001 !\n1"\n#1\nb00000010 !\n#2\n')
    known = run.sigrok('-i', 'vector.vcd', '--show').stdout.decode()
    run.same('channels of a VCD with a vector', [line for line in known.splitlines() if ': logic' in line], ['- a0: logic'])
    trace = records('3 0 11', '3 0 22')
    bus = played(trace, wiring='left')
    path = run.work / 'last.vcd'
    times = capture.vcd_text(bus).splitlines()
    for label, lines, wanted in (('a time after the last rise', times, trace), ('no time after the last rise', times[:-1], trace[:4])):
        path.write_text('\n'.join(lines) + '\n')
        run.ends('VCD, ' + label, 0, '', '-i', path, '-P', chosen(bus, 'vcd'), *TRACE, printed=wanted)


def full_disk(run):
    """sigrok-cli does not notice; cat does, so README.md has the way through it."""
    bus = played(records('2 0 AF', '3 1 55'))
    arguments = [*written(run, bus, 'csv'), '-P', chosen(bus, 'csv'), *TRACE]
    with open('/dev/full', 'wb') as full:
        run.ends('a full disk', 0, '', *arguments, stdout=full, printed=None)
    run.ends('a full disk, through cat', 1, 'No space left on device',
             'sigrok-cli "$@" | cat >/dev/full', 'sh', *arguments, command=['sh', '-c'], printed=b'')
    (run.work / 'short.trace').write_bytes(records('2 0 AF', '3 1 55')[:-1])
    run.ends('a trace that ends in a record', 1, 'number 3, a trace that ends inside a record (records taken: 1)',
             run.work / 'short.trace', command=[SHOW])
