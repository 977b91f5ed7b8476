"""What the decoder says of each cycle, word for word."""
from checks import WORDS
from files import chosen, written
from messages import BRIEF, CLASH, EARLY, NO_POWER, REFUSED
from traces import drawn, played, records

# Record, words, number where the model refuses it.
TOLD = (
    ('2 0 AF', 'left: Display on'), ('2 1 AE', 'right: Display off'),
    ('2 0 C0', 'left: Display start line 0'), ('2 1 D0', 'right: Display start line 16'), ('2 0 DF', 'left: Display start line 31'),
    ('2 0 B8', 'left: Set page address 0'), ('2 1 B9', 'right: Set page address 1'), ('2 1 BB', 'right: Set page address 3'),
    ('2 0 00', 'left: Set column address 0'), ('2 1 4F', 'right: Set column address 79'),
    ('4 0 60', 'left: Read status: 60, ready, ADC forward, display off, normal'),
    ('4 1 90', 'right: Read status: 90, busy, ADC reverse, display on, reset'),
    ('3 0 A5', 'left: Write display data A5'), ('3 1 0F', 'right: Write display data 0F'),
    ('5 0 A5', 'left: Read display data A5'), ('5 1 00', 'right: Read display data 00'),
    ('2 0 A0', 'left: Select ADC forward'), ('2 1 A1', 'right: Select ADC reverse'),
    ('2 0 A4', 'left: Static drive off'), ('2 1 A5', 'right: Static drive on'),
    ('2 0 A8', 'left: Select duty 1/16'), ('2 1 A9', 'right: Select duty 1/32'),
    ('2 0 80', 'left: No command 80', 7), ('2 1 FF', 'right: No command FF', 7),
    ('2 0 50', 'left: Set column address 80', 14), ('2 1 7F', 'right: Set column address 127', 14),
    ('2 0 E0', 'left: Read-modify-write'),
    ('2 0 05', 'left: Set column address 5', 8), ('2 1 05', 'right: Set column address 5'),
    ('2 0 64', 'left: Set column address 100', 8), ('2 1 64', 'right: Set column address 100', 14),
    ('2 0 E2', 'left: Reset'), ('2 0 00', 'left: Set column address 0', 8),
    ('2 0 E0', 'left: Read-modify-write'), ('2 0 01', 'left: Set column address 1', 8),
    ('2 1 EE', 'right: End'), ('2 0 02', 'left: Set column address 2', 8),
    ('0 0 EE', None, 6), ('3 0 EE', 'left: Write display data EE'), ('5 0 EE', 'left: Read display data EE'),
    ('2 0 03', 'left: Set column address 3', 8),
    ('2 0 EE', 'left: End'), ('2 0 04', 'left: Set column address 4'),
    ('1 0 E0', None, 6), ('3 0 E0', 'left: Write display data E0'), ('5 0 E0', 'left: Read display data E0'),
    ('4 0 E0', 'left: Read status: E0, busy, ADC forward, display off, normal'), ('2 0 06', 'left: Set column address 6'),
)


def told_lines(brief):
    """All lines of the told trace, and its warnings; brief: but for the first, cut by the capture's start, single strobes last a sample."""
    lines, warnings = [], []
    for place, (record, words, *number) in enumerate(TOLD):
        chip = ('left', 'right')[int(record.split()[1])]
        said = ['record %d: %s' % (place, BRIEF)] if brief and place and record[0] in '2345' else []
        if number:
            said.append('record %d, %s: refused with number %d: %s' % (place, chip, number[0], REFUSED[number[0]]))
        lines += ([words] if words else []) + ['record %d' % place] + said
        warnings += said
    return lines, warnings


def words_of_records(run):
    trace = records(*(record for record, *_ in TOLD))
    for seed, least in ((None, 2), (30, 2), (None, 1)):
        bus = played(trace, seed, least=least)
        lines, warnings = told_lines(least == 1)
        run.traced('the told trace, seed %s, %d' % (seed, least), bus, trace)
        run.told('the told trace in words, seed %s, %d' % (seed, least), bus, lines)
        run.told('its warnings, seed %s, %d' % (seed, least), bus, warnings, output=('-A', 'sed1520=warning'))
    commands = [words for record, words, *_ in TOLD if record[0] == '2']
    run.told('its commands', played(trace), commands, output=('-A', 'sed1520=command'))
    data = [words for record, words, *_ in TOLD if record[0] in '35']
    run.told('its data', played(trace), data, output=('-A', 'sed1520=data-written:data-read'))


def words_of_cycles(run):
    """What is told of a whole cycle, and from which sample to which."""
    def told(label, *lines, **drawing):
        run.told(label, drawn(**drawing), lines, output=WORDS + ('--protocol-decoder-samplenum',))

    told('from fall to rise', '2-5 left: Write display data 55', '2-5 record 0', wr='1100011', cs0='1000011', data='5555555')
    told('from the start', '0-2 left: Write display data 55', '0-2 record 0', wr='0011', cs0='0000', data='5555')
    told('both selected for a write', '1-3 both: Set column address 85', '1-3 records 0 and 1',
         '1-3 record 0, left: refused with number 14: ' + REFUSED[14], '1-3 record 1, right: refused with number 14: ' + REFUSED[14],
         wr='1001', a0='0000', cs0='0000', cs1='0000', data='5555')
    told('both selected for a data read', '1-3 both: Read display data 55', '1-3 records 0 and 1', '1-3 records 0 and 1: ' + CLASH,
         rd='1001', cs0='0000', cs1='0000', data='5555')
    told('both selected for a status read', '1-3 both: Read status: 44, ready, ADC forward, display on, normal',
         '1-3 records 0 and 1', '1-3 records 0 and 1: ' + CLASH, rd='1001', a0='0000', cs0='0000', cs1='0000', data='4444')
    told('an overlap', '2-4 record 0', '2-4 record 0, right: refused with number 6: ' + REFUSED[6],
         rd='1000001', wr='1100111', cs1='0000000', data='5555555')
    told('an overlap, both selected', '1-3 records 0 and 1', '1-3 record 0, left: refused with number 6: ' + REFUSED[6],
         '1-3 record 1, right: refused with number 6: ' + REFUSED[6], rd='1001', wr='1001', cs0='0000', cs1='0000', data='5555')
    told('an overlap of another device, then a write', '2-8 left: Write display data 55', '2-8 record 0',
         rd='1000111111', wr='1100000011', cs0='1111000001', data='5555555555')
    told('no power at the start', '0-2 ' + NO_POWER, rd='00111', wr='00011', cs0='00000')
    told('no power at the start, selects come and go', '0-5 ' + NO_POWER, rd='00000111', wr='00000001', cs0='01010101')


def words_of_deselections(run):
    """A chip that goes under a low strobe is told each time, unless it had its record of both strobes."""
    def told(label, *lines, **drawing):
        run.told(label, drawn(**drawing), [line.replace('EARLY', EARLY) for line in lines], output=WORDS + ('--protocol-decoder-samplenum',))

    told('deselected too early', '1-3 left: EARLY', wr='100011', cs0='100111', data='555555')
    told('deselected too early, cut off at the end', '1-3 left: EARLY', wr='10000', cs0='10011', data='55555')
    told('both deselected too early', '1-2 right: EARLY', '1-3 left: EARLY', rd='100011', cs0='100111', cs1='101111', data='555555')
    told('passed on', '1-3 left: EARLY', '1-4 right: Write display data 55', '1-4 record 0',
         wr='100011', cs0='100111', cs1='111001', data='555555')
    told('gone and back', '1-3 left: EARLY', '4-6 left: EARLY', '1-8 left: Write display data 22', '1-8 record 0',
         wr='1000000011', cs0='1001001001', data='1113332222')
    told('in an overlap', '1-3 right: EARLY', rd='1100111', wr='1000011', cs1='0001111', data='5555555')
    told('after an overlap', '1-3 record 0', '1-3 record 0, right: refused with number 6: ' + REFUSED[6],
         rd='1001111', wr='1000011', cs1='0000111', data='5555555')
    told('after an overlap, then under the same strobe', '1-3 record 0', '1-3 record 0, left: refused with number 6: ' + REFUSED[6],
         '5-6 left: EARLY', rd='10011111', wr='10000001', cs0='00001011', data='55555555')
    told('in the sample of the rise', '1-3 left: Write display data 55', '1-3 record 0', wr='1001', cs0='0001', data='5555')


def words_of_brief_strobes(run):
    """A strobe that fell and rose one sample later is told of with its record."""
    def told(label, *lines, **drawing):
        run.told(label, drawn(**drawing), lines, output=('-A', 'sed1520=warning', '--protocol-decoder-samplenum'))

    told('one sample', '1-2 record 0: ' + BRIEF, wr='101', cs0='000')
    told('one sample, then two, then one', '1-2 record 0: ' + BRIEF, '6-7 record 2: ' + BRIEF, rd='10100101', cs0='00000000')
    told('one sample, both selected', '1-2 records 0 and 1: ' + BRIEF, wr='101', cs0='000', cs1='000')
    told('one sample, nobody selected', wr='101', cs0='111')
    told('one sample at the start, perhaps the last of many', wr='01', cs0='00')
    told('one sample in an overlap', '2-3 record 0: ' + BRIEF, '2-3 record 0, left: refused with number 6: ' + REFUSED[6],
         rd='10001', wr='11011', cs0='00000')
    told('an overlap of one sample', '2-3 record 0, left: refused with number 6: ' + REFUSED[6], rd='10011', wr='11001', cs0='00000')


def lengths(run):
    """Every length of a few texts, and the classes they have; sigrok-cli shows them from loglevel 4 on."""
    bus = played(records('2 0 D0', '3 1 A5', '4 0 60', '5 1 A5', '2 0 80'), least=2)
    bus.hold(rd=1, wr=0, **bus.select(0))
    bus.hold(**bus.select())
    bus.hold(wr=1)
    bus.hold(rd=0, **bus.select(0, 1))
    bus.hold(rd=1)
    printed = run.sigrok('-l', '4', *written(run, bus, 'csv'), '-P', chosen(bus, 'csv'), *WORDS).stdout.decode()
    got = '\n'.join(line.split('sed1520-1: ')[1] for line in printed.splitlines())
    wanted = [
        'command: "left: Display start line 16" "L: Line 16" "D0"', 'record: "record 0" "0"',
        'data-written: "right: Write display data A5" "R: Write A5" "A5"', 'record: "record 1" "1"',
        'status: "left: Read status: 60, ready, ADC forward, display off, normal" "L: Status 60" "60"', 'record: "record 2" "2"',
        'data-read: "right: Read display data A5" "R: Read A5" "A5"', 'record: "record 3" "3"',
        'command: "left: No command 80" "L: No 80" "80"', 'record: "record 4" "4"',
        'warning: "record 4, left: refused with number 7: a byte that is no command" "refused with number 7" "7"',
        'warning: "left: %s" "deselected before the rise" "early"' % EARLY,
        'data-read: "both: Read display data FF" "B: Read FF" "FF"', 'record: "records 5 and 6" "5"',
        'warning: "records 5 and 6: %s" "both chips selected for a read" "both"' % CLASH,
        'warning: "records 5 and 6: %s" "strobe low for one sample" "brief"' % BRIEF,
    ]
    run.same('texts of every length', got, '\n'.join(wanted))
