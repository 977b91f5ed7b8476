"""What a logic analyser records of a bus, made from trace records, and written as CSV or VCD."""

NAMES = ['d%d' % bit for bit in range(8)] + ['a0', 'rd', 'wr', 'cs0', 'cs1']


class Bus:
    """The lines of the bus, and the samples taken of them so far.

    wiring: 'two' selects; or only cs0, for the 'left' or the 'right' chip or, by its 'level', for both.
    chance: makes the times vary, and lets lines move wherever no chip looks at them; without it all is short and still.
    least: how many samples a strobe of play is low, or more.
    """

    def __init__(self, wiring='two', active=0, chance=None, least=1):
        self.wiring, self.active, self.chance, self.least = wiring, active, chance, least
        self.lines = dict(data=0xff, a0=1, rd=1, wr=1, cs0=1 - active, cs1=1 - active)
        self.samples = []

    def names(self):
        return NAMES if self.wiring == 'two' else NAMES[:-1]

    def hold(self, count=1, **changed):
        """These lines change, then the bus is as it is for so many samples."""
        self.lines.update(changed)
        data = self.lines['data']
        levels = [data >> bit & 1 for bit in range(8)] + [self.lines[name] for name in NAMES[8:]]
        self.samples += [levels[:len(self.names())]] * count

    def select(self, *chips):
        """The levels of the selects that select these chips and no other."""
        if self.wiring == 'two':
            wanted = {'cs0': 0 in chips, 'cs1': 1 in chips}
        else:
            wanted = {'cs0': (1 if self.wiring == 'right' else 0) in chips}
        return {name: self.active if on else 1 - self.active for name, on in wanted.items()}

    def hears(self, chip):
        """Whether a record of this chip can be seen with this wiring."""
        return self.wiring in ('two', 'level', ('left', 'right')[chip])

    def upset(self, most, but=()):
        """Up to so many samples of data, A0 and, where but does not have them, selects that mean nothing."""
        for _ in range(self.chance.randrange(most + 1) if self.chance else 0):
            changed = {'data': self.chance.randrange(256), 'a0': self.chance.randrange(2)}
            if 'selects' not in but:
                changed.update(self.select(*self.chance.sample((0, 1), self.chance.randrange(3))))
            self.hold(self.chance.randrange(1, 4), **changed)

    def fall(self, strobes, chips):
        """The strobes fall, in any order; the selects come with them or before. The last to fall is not sampled yet."""
        order = list(strobes)
        if self.chance:
            self.chance.shuffle(order)
            if self.chance.randrange(2):
                self.hold(**self.select(*chips))
        for strobe in order[:-1]:
            if not self.chance or self.chance.randrange(2):
                self.hold(**{strobe: 0}, **self.select(*chips))
        self.lines.update(dict.fromkeys(order, 0), **self.select(*chips))

    def rise(self, strobes):
        """The strobes rise, in any order; from the first sample with one of them high the bus is released."""
        order = list(strobes)
        if self.chance:
            self.chance.shuffle(order)
        for strobe in order:
            self.lines[strobe] = 1
            # By level there is no level that selects none: the other chip would be selected under the strobe that is still low.
            if self.chance and self.chance.randrange(2) and (self.wiring != 'level' or strobe == order[-1]):
                self.lines.update(self.select())
            if strobe != order[-1] and self.chance and self.chance.randrange(2):
                continue                            # both in the same sample
            self.hold(data=self.chance.randrange(256) if self.chance else 0xff, a0=self.chance.randrange(2) if self.chance else 1)

    def cycle(self, lines, chips, data):
        """One cycle; what counts is on the bus at the last sample before the rise, perhaps not sooner."""
        strobes = [name for bit, name in ((2, 'rd'), (4, 'wr')) if not lines & bit]
        self.upset(2)
        self.fall(strobes, chips)
        self.upset(2, but=('selects',))
        self.hold(max(self.least, self.chance.choice((1, 1, 2, 5)) if self.chance else 1), data=data, a0=lines & 1)
        self.rise(strobes)

    def play(self, trace):
        """The records of a trace, one cycle each. With lines 0 or 1 both strobes are low; 6 and 7 have none, so no bus gives them."""
        for at in range(0, len(trace), 4):
            lines, chip, data, _ = trace[at:at + 4]
            self.cycle(lines, (chip,), data)
        return self

    def heard(self, trace):
        """The records of a trace that can be seen with this wiring."""
        records = [trace[at:at + 4] for at in range(0, len(trace), 4)]
        return b''.join(record for record in records if self.hears(record[1]))


def csv_text(bus, order=None, captions=None):
    """As CSV, a line for each sample; the columns in this order, with these captions in place of the names."""
    places = [NAMES.index(name) for name in order or bus.names()]
    rows = [captions or order or bus.names()] + [[str(levels[place]) for place in places] for levels in bus.samples]
    return '\n'.join(map(','.join, rows)) + '\n'


def vcd_text(bus):
    """As VCD; the last line is the time after the last sample, without which sigrok leaves that sample out."""
    marks = {name: chr(33 + place) for place, name in enumerate(bus.names())}
    text = ['$timescale 1 us $end', '$scope module bus $end']
    text += ['$var wire 1 %s %s $end' % (marks[name], name) for name in bus.names()]
    text += ['$upscope $end', '$enddefinitions $end']
    before = [None] * len(bus.names())
    for time, levels in enumerate(bus.samples):
        if levels != before:
            text.append('#%d' % time)
            text += ['%d%s' % (level, marks[name]) for name, level, old in zip(bus.names(), levels, before) if level != old]
        before = levels
    return '\n'.join(text + ['#%d' % len(bus.samples)]) + '\n'
