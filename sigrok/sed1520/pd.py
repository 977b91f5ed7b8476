# SPDX-License-Identifier: GPL-2.0-or-later
#
# Bus cycles of two SED1520 chips, in words and as a trace for Pedralume's tools.

import sigrokdecode as srd

A0, RD, WR, CS0, CS1 = range(8, 13)         # places of the channels; D0 to D7 are the first eight
STROBES = (RD, WR)
COMMAND, WRITTEN, READ, STATUS, RECORD, WARNING = range(6)      # places of the annotation classes
CHIPS = ('left', 'right')

# What the model refuses, in the words that all the project's tools use.
REFUSED = {
    6: 'RD and WR equal',
    7: 'a byte that is no command',
    8: 'a column set while read-modify-write is on',
    14: 'a column set over 79 (4F hex), the last column of RAM',
}

READ_MODIFY_WRITE, END = 0xe0, 0xee

# Table 4.1 of the sheet; column, page and start line are below.
COMMANDS = {
    0xa0: ('Select ADC forward', 'ADC forward'),
    0xa1: ('Select ADC reverse', 'ADC reverse'),
    0xa4: ('Static drive off', 'Static off'),
    0xa5: ('Static drive on', 'Static on'),
    0xa8: ('Select duty 1/16', 'Duty 1/16'),
    0xa9: ('Select duty 1/32', 'Duty 1/32'),
    0xae: ('Display off', 'Display off'),
    0xaf: ('Display on', 'Display on'),
    READ_MODIFY_WRITE: ('Read-modify-write', 'RMW'),
    0xe2: ('Reset', 'Reset'),
    END: ('End', 'End'),
}


def is_command(byte):
    return byte < 0x80 or 0xb8 <= byte < 0xbc or 0xc0 <= byte < 0xe0 or byte in COMMANDS


def command_words(byte):
    '''The command, long and short.'''
    if byte < 0x80:
        return 'Set column address %d' % byte, 'Column %d' % byte
    if 0xb8 <= byte < 0xbc:
        return 'Set page address %d' % (byte & 3), 'Page %d' % (byte & 3)
    if 0xc0 <= byte < 0xe0:
        return 'Display start line %d' % (byte & 31), 'Line %d' % (byte & 31)
    return COMMANDS.get(byte, ('No command %02X' % byte, 'No %02X' % byte))


def status_words(byte):
    '''The status, long and short.'''
    words = (
        'busy' if byte & 0x80 else 'ready',
        'ADC forward' if byte & 0x40 else 'ADC reverse',
        'display off' if byte & 0x20 else 'display on',
        'reset' if byte & 0x10 else 'normal',
    )
    return 'Read status: %02X, %s' % (byte, ', '.join(words)), 'Status %02X' % byte


def cycle_words(lines, byte):
    '''The annotation class of a cycle and its words; None for one with both strobes low, of which only the warning speaks.'''
    if lines == 2:
        return COMMAND, command_words(byte)
    if lines == 3:
        return WRITTEN, ('Write display data %02X' % byte, 'Write %02X' % byte)
    if lines == 4:
        return STATUS, status_words(byte)
    if lines == 5:
        return READ, ('Read display data %02X' % byte, 'Read %02X' % byte)
    return None


class Decoder(srd.Decoder):
    api_version = 3
    id = 'sed1520'
    name = 'SED1520'
    longname = 'SED1520 LCD controller bus'
    desc = 'Parallel bus of one or two SED1520 LCD controllers.'
    license = 'gplv2+'
    inputs = ['logic']
    outputs = []
    tags = ['Display']
    channels = tuple(
        {'id': 'd%d' % bit, 'name': 'D%d' % bit, 'desc': 'Data line %d' % bit} for bit in range(8)
    ) + (
        {'id': 'a0', 'name': 'A0', 'desc': 'Command or status (low), display data (high)'},
        {'id': 'rd', 'name': 'RD', 'desc': 'Read strobe, active low'},
        {'id': 'wr', 'name': 'WR', 'desc': 'Write strobe, active low'},
        {'id': 'cs0', 'name': 'CS0', 'desc': 'Select of the left chip, or the only select'},
    )
    optional_channels = (
        {'id': 'cs1', 'name': 'CS1', 'desc': 'Select of the right chip'},
    )
    options = (
        {'id': 'cs_polarity', 'desc': 'Polarity of the selects', 'default': 'active-low', 'values': ('active-low', 'active-high')},
        {'id': 'one_select', 'desc': 'Without CS1, CS0 selects', 'default': 'left', 'values': ('left', 'right', 'level')},
    )
    annotations = (
        ('command', 'Command'),
        ('data-written', 'Data written'),
        ('data-read', 'Data read'),
        ('status', 'Status'),
        ('record', 'Record number'),
        ('warning', 'Warning'),
    )
    annotation_rows = (
        ('cycles', 'Bus cycles', (COMMAND, WRITTEN, READ, STATUS)),
        ('records', 'Records of the trace', (RECORD,)),
        ('warnings', 'Warnings', (WARNING,)),
    )
    binary = (
        ('trace', 'Trace of 4-byte records'),
    )

    def __init__(self):
        self.reset()

    def reset(self):
        self.low_since = {RD: 0, WR: 0}
        self.selected_since = [0, 0]
        self.taken = {RD: set(), WR: set()}         # chips selected since their record of both strobes: this one's rise gives them no other
        self.unpowered = set()                      # strobes low since the capture's start, where both were low there
        self.two_selects = False
        self.read_modify_write = [False, False]
        self.records = 0

    def start(self):
        self.out_ann = self.register(srd.OUTPUT_ANN)
        self.out_binary = self.register(srd.OUTPUT_BINARY)
        # libsigrokdecode takes any text as an option's value.
        for option in Decoder.options:
            if self.options[option['id']] not in option['values']:
                raise ValueError('%s is one of %s, not "%s"' % (option['id'], ', '.join(option['values']), self.options[option['id']]))
        self.active = 1 if self.options['cs_polarity'] == 'active-high' else 0

    def selected(self, pins):
        '''The chips that these levels select, the left one first.'''
        first = pins[CS0] == self.active
        if self.two_selects:
            chosen = (first, pins[CS1] == self.active)
        else:
            chosen = {'left': (first, False), 'right': (False, first), 'level': (first, not first)}[self.options['one_select']]
        return [chip for chip in (0, 1) if chosen[chip]]

    def warn(self, ss, text, medium, short):
        self.put(ss, self.samplenum, self.out_ann, [WARNING, [text, medium, short]])

    def refusal(self, lines, chip, byte):
        '''The number with which the model refuses the record; or 0, and the chip's read-modify-write switch is as after it.'''
        if lines < 2:
            return 6
        if lines != 2:
            return 0
        if not is_command(byte):
            return 7
        if byte < 0x80 and self.read_modify_write[chip]:
            return 8
        if 0x50 <= byte < 0x80:
            return 14
        if byte in (READ_MODIFY_WRITE, END):
            self.read_modify_write[chip] = byte == READ_MODIFY_WRITE
        return 0

    def record(self, ss, lines, chip, byte):
        self.put(ss, self.samplenum, self.out_binary, [0, bytes([lines, chip, byte, 0])])
        number = self.refusal(lines, chip, byte)
        if number:
            refused = 'refused with number %d' % number
            self.warn(ss, 'record %d, %s: %s: %s' % (self.records, CHIPS[chip], refused, REFUSED[number]), refused, str(number))
        self.records += 1

    def cycle(self, ss, pins, chips, rising):
        '''Tells the cycle that ends here once, and gives each of the chips its record.'''
        lines = pins[A0] | pins[RD] << 1 | pins[WR] << 2
        byte = sum(pins[bit] << bit for bit in range(8))
        told = cycle_words(lines, byte)
        if told:
            place, (words, few_words) = told
            name = 'both' if len(chips) == 2 else CHIPS[chips[0]]
            self.put(ss, self.samplenum, self.out_ann,
                     [place, ['%s: %s' % (name, words), '%s: %s' % (name[0].upper(), few_words), '%02X' % byte]])
        numbers = [str(self.records + i) for i in range(len(chips))]
        records = ('record ' if len(chips) == 1 else 'records ') + ' and '.join(numbers)
        self.put(ss, self.samplenum, self.out_ann, [RECORD, [records, numbers[0]]])
        if len(chips) == 2 and lines in (4, 5):
            clash = 'both chips selected for a read'
            self.warn(ss, '%s: %s: they drive the bus against each other' % (records, clash), clash, 'both')
        if any(0 < self.low_since[strobe] == self.samplenum - 1 for strobe in rising):
            brief = 'strobe low for one sample'
            self.warn(ss, '%s: %s: sample faster, or a glitch' % (records, brief), brief, 'brief')
        for chip in chips:
            self.record(ss, lines, chip, byte)

    def owed(self, pins, strobes):
        '''The chips to which the end of these strobes, low with these levels, gives a record.'''
        powered = [strobe for strobe in strobes if strobe not in self.unpowered]
        return [chip for chip in self.selected(pins) if any(chip not in self.taken[strobe] for strobe in powered)]

    def rise(self, before, rising):
        low = [strobe for strobe in STROBES if not before[strobe]]
        since = max(self.low_since[strobe] for strobe in low)
        if len(self.unpowered) == 2:
            self.warn(since, "both strobes low since the capture's start: no record", 'both strobes low at the start', 'start')
        chips = self.owed(before, low)
        if chips:
            self.cycle(since, before, chips, rising)
        for strobe in low:
            self.taken[strobe].update(chips)

    def select(self, before, now):
        '''Chips that come and go: one that goes under a strobe that stays low has no record of it.'''
        old, new = self.selected(before), self.selected(now)
        if old == new:
            return
        low = [strobe for strobe in STROBES if not before[strobe] and not now[strobe]]
        for chip in self.owed(before, low):
            if chip not in new:
                since = max(self.selected_since[chip], min(self.low_since[strobe] for strobe in low))
                early = 'deselected before the rise'
                self.warn(since, '%s: %s of the strobe: no record' % (CHIPS[chip], early), early, 'early')
        for chip in set(new).difference(old):
            self.selected_since[chip] = self.samplenum
        for strobe in STROBES:
            self.taken[strobe].intersection_update(new)

    def change(self, before, now):
        rising = [strobe for strobe in STROBES if now[strobe] and not before[strobe]]
        if rising:
            self.rise(before, rising)
        self.select(before, now)
        for strobe in STROBES:
            if now[strobe]:
                self.taken[strobe].clear()
                self.unpowered.discard(strobe)
            elif before[strobe]:
                self.low_since[strobe] = self.samplenum

    def begin(self, pins):
        '''At the first sample. A channel that is not connected has 255 there; has_channel would say the same, but in
        libsigrokdecode 0.5.3 it gives away a reference to True or False that is not its own, and Python may abort at the end.'''
        self.two_selects = pins[CS1] in (0, 1)
        if self.two_selects and self.options['one_select'] != 'left':
            raise ValueError('one_select is for captures without cs1')
        if not pins[RD] and not pins[WR]:
            self.unpowered = {RD, WR}

    def decode(self):
        pins = self.wait({'skip': 0})
        self.begin(pins)
        any_edge = [{place: 'e'} for place in range(CS1 + 1 if self.two_selects else CS1)]
        # Between two changes of any line all lines stand still, so the last change gives the sample before the next.
        while True:
            before, pins = pins, self.wait(any_edge)
            self.change(before, pins)
