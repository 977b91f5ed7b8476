"""The whole way, by the commands of README.md, and how the decoder is found."""
import shutil

import capture
from checks import EXAMPLES, SHOW, SIGROK, TRACE
from files import FILES, RATE, chosen, written
from messages import BRIEF, REFUSED
from traces import played, records


def readme_commands():
    """The commands of README.md: the two that set names, then warnings, trace, panel, leaving out refused ones, a full disk."""
    lines = (SIGROK / 'README.md').read_text().splitlines()
    return [line.strip() for line in lines if line.startswith('    ')]


def way(run, trace, seed, least):
    """A folder as the project's root, with a capture of the trace under an analyser's own names."""
    folder = run.work / ('way%d' % next(FILES))
    folder.mkdir()
    (folder / 'sigrok').symlink_to(run.decoders)
    (folder / 'show').symlink_to(SHOW)
    bus = played(trace, seed, least=least)
    (folder / 'capture.csv').write_text(capture.csv_text(bus, captions=['D%d' % place for place in range(13)]))
    made = run.sigrok('-I', 'csv:' + RATE, '-i', folder / 'capture.csv', '-O', 'srzip', '-o', folder / 'capture.sr')
    run.same('a session for the whole way', made.words, '')
    return folder


def whole_way(run):
    """The commands of README.md, run in such a folder."""
    run.check('host/build/show is there (make -C host show)', SHOW.exists())
    trace = (EXAMPLES / 'name.trace').read_bytes()
    folder = way(run, trace, 80, 2)
    commands = readme_commands()
    run.same('commands in README.md', [command.split()[0] for command in commands],
             ['export', 'bus=' + commands[1][4:], 'sigrok-cli', 'sigrok-cli', './show', './text', 'sigrok-cli'])
    names, (warnings, tracing, show, _, through_cat) = '\n'.join(commands[:2]) + '\n', commands[2:]
    wanted = run.sigrok(EXAMPLES / 'name.trace', command=[SHOW]).stdout
    for command in (tracing, through_cat):
        done = run.sigrok(command=['sh', '-c', '\n'.join([names, warnings, command, show])], cwd=folder)
        run.same('%s: says' % command, done.words, '')
        run.check('%s: no warning, and the panel of examples/name.trace' % command, done.stdout == wanted and len(wanted) > 1000)
        run.same('%s: bytes' % command, (folder / 'x.trace').read_bytes(), trace)
        (folder / 'x.trace').unlink()
    live = run.sigrok(command=['sh', '-c', names + tracing.split('>')[0] + '| ./show --live'], cwd=folder)
    run.same('to show --live: says', live.words, '')
    run.check('to show --live: ends with the panel of examples/name.trace', live.stdout.count(wanted) >= 1)


def warnings_alone(run):
    """A trace comes without its warnings, also where they are asked for beside it; the command of README.md prints them."""
    trace = records('2 0 AF', '2 0 80')
    commands = readme_commands()
    names, warnings, tracing = '\n'.join(commands[:2]) + '\n', commands[2], commands[3].split(' >')[0]
    run.check('README.md asks for the warnings first', '-A sed1520=warning' in warnings and '-B sed1520=trace' in tracing)
    refused = 'record 1, left: refused with number 7: ' + REFUSED[7]
    for least, lines in ((1, ['2-3 sed1520-1: record 1: ' + BRIEF, '2-3 sed1520-1: ' + refused]), (2, ['3-5 sed1520-1: ' + refused])):
        folder = way(run, trace, None, least)
        for label, command, printed in (('-A', warnings, '\n'.join(lines).encode() + b'\n'), ('-B', tracing, trace),
                                        ('-A beside -B', tracing + ' -A sed1520=warning', trace)):
            run.ends('%s of a capture with warnings, %d' % (label, least), 0, '', names + command, command=['sh', '-c'], cwd=folder, printed=printed)
        placeless = names + warnings.replace(' --protocol-decoder-samplenum', '')
        run.ends('warnings without a place', 0, '', placeless, command=['sh', '-c'], cwd=folder,
                 printed=''.join(line.split(' ', 1)[1] + '\n' for line in lines).encode())


def installed(run):
    """The decoder in the user's own folder, and what sigrok-cli knows of it."""
    data = run.work / 'data'
    shutil.copytree(run.decoders / 'sed1520', data / 'libsigrokdecode' / 'decoders' / 'sed1520')
    trace = records('2 0 AF', '3 1 55')
    bus = played(trace)
    found = {'SIGROKDECODE_DIR': None, 'XDG_DATA_HOME': str(data)}
    got = run.sigrok(*written(run, bus, 'csv'), '-P', chosen(bus, 'csv'), *TRACE, environment=found)
    run.same("in the user's folder: says", got.words, '')
    run.same("in the user's folder", got.stdout, trace)
    known = run.sigrok('-P', 'sed1520', '--show').stdout.decode()
    for line in ('License: gplv2+', '- trace: Trace of 4-byte records', '- cs0 (CS0): Select of the left chip, or the only select',
                 "- cs_polarity: Polarity of the selects ('active-low', 'active-high', default 'active-low')",
                 "- one_select: Without CS1, CS0 selects ('left', 'right', 'level', default 'left')"):
        run.check('--show: ' + line, line in known.splitlines())
    run.check('--show tells which bus', 'Only the 80-family bus is decoded' in ' '.join(known.split()))
