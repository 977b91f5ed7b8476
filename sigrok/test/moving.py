"""Lines that move anyhow, held to the rule as README.md gives it, told backwards from each sample."""
import random

import capture
from messages import BRIEF, CLASH, EARLY, NO_POWER

STROBES = ('rd', 'wr')


def ruled(bus):
    """The trace of a bus by the rule, and the warnings without a number, with their samples: looks back from each sample, and keeps
    nothing from one to the next but the count of records."""
    rows = [dict(zip(bus.names(), levels)) for levels in bus.samples]
    for row in rows:
        row['chips'] = chips_of(bus, row)
    made, warnings = b'', []
    for place in range(1, len(rows)):
        before, now = rows[place - 1], rows[place]
        low = [name for name in STROBES if not before[name]]
        rising = [name for name in low if now[name]]
        chips = [chip for chip in sorted(before['chips']) if low and has_a_record(rows[:place], chip)]
        if not rising:
            warnings += ['%d-%d %s: %s' % (chip_since(rows[:place], low, chip), place, ('left', 'right')[chip], EARLY)
                         for chip in chips if chip not in now['chips']]
            continue
        span = '%d-%d ' % (back(rows[:place], lambda row: not any(row[name] for name in low)), place)
        if all(map(both_low, rows[:place])):
            warnings.append(span + NO_POWER)
        elif chips:
            lines, number = before['a0'] | before['rd'] << 1 | before['wr'] << 2, len(made) // 4
            data = sum(before['d%d' % bit] << bit for bit in range(8))
            made += b''.join(bytes([lines, chip, data, 0]) for chip in chips)
            names = 'record %d: ' % number if len(chips) == 1 else 'records %d and %d: ' % (number, number + 1)
            warnings += [span + names + CLASH] if len(chips) == 2 and lines > 3 else []
            warnings += [span + names + BRIEF] if place > 1 and any(rows[place - 2][name] for name in rising) else []
    return made, warnings


def both_low(row):
    return not row['rd'] and not row['wr']


def back(rows, kept):
    """The first of the last rows that are all so."""
    place = len(rows)
    while place > 0 and kept(rows[place - 1]):
        place -= 1
    return place


def chip_since(rows, low, chip):
    """Since when the chip is selected and one of the strobes that are low at the end is low."""
    return min(back(rows, lambda row, name=name: not row[name] and chip in row['chips']) for name in low)


def has_a_record(rows, chip):
    """Whether a strobe that rises after these rows gives the chip, selected in the last one, a record."""
    if both_low(rows[-1]):
        return not all(map(both_low, rows))         # not where both are low since the start
    low = 'rd' if rows[-1]['wr'] else 'wr'
    if both_low(rows[0]) and back(rows, lambda row: not row[low]) == 0:
        return False
    # Not where it was selected, without a gap, since both were low: that was its record.
    return not any(map(both_low, rows[chip_since(rows, [low], chip):]))


def chips_of(bus, row):
    first = row['cs0'] == bus.active
    if bus.wiring == 'two':
        return {chip for chip in (0, 1) if row['cs%d' % chip] == bus.active}
    if bus.wiring == 'level':
        return {0 if first else 1}
    return {('left', 'right').index(bus.wiring)} if first else set()


def moving_lines(run):
    options = {'two': '', 'left': '', 'right': ':one_select=right', 'level': ':one_select=level'}
    for seed in range(100, 132):
        chance = random.Random(seed)
        wiring, active, restless = chance.choice(list(options)), chance.randrange(2), chance.choice((0.05, 0.2, 0.5))
        bus = capture.Bus(wiring, active)
        if seed % 2:                                # as before the board has power
            bus.lines.update(rd=0, wr=0)
        for _ in range(1000):
            bus.hold()
            for name in list(bus.lines):
                if chance.random() < restless:
                    bus.lines[name] = chance.randrange(256 if name == 'data' else 2)
        chosen_options = options[wiring] + (':cs_polarity=active-high' if active else '')
        trace, warnings = ruled(bus)
        run.check('moving lines, seed %d: has records and warnings' % seed, trace and warnings)
        run.traced('moving lines, seed %d' % seed, bus, trace, 'csv', chosen_options)
        got = warned(run, bus, chosen_options)
        run.same('moving lines, warnings, seed %d' % seed, '\n'.join(sorted(got)), '\n'.join(sorted(warnings)))


def warned(run, bus, options):
    """The decoder's warnings without a number, with their samples."""
    output = ('-A', 'sed1520=warning', '--protocol-decoder-samplenum')
    lines = run.decode('warnings', bus, 'csv', options, output).decode().replace('sed1520-1: ', '').splitlines()
    return [line for line in lines if ': refused with number ' not in line]
