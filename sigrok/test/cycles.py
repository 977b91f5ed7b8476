"""Single cycles, drawn line by line."""
from checks import TRACE
from files import RATE, binary, chosen
from traces import drawn, records


def gives(run, label, *wanted, options='', **lines):
    """The drawn bus gives these records."""
    run.traced(label, drawn(**lines), records(*wanted), 'csv', options)


def edges(run):
    gives(run, 'one sample low', '3 0 55', wr='101', cs0='000', data='f5f')
    gives(run, 'all lines fall and rise in the same samples', '2 1 55', wr='101', cs1='101', a0='101', data='a5a')
    gives(run, 'as before the rise, not as at it', '2 0 55', wr='10001', cs0='00001', cs1='11110', a0='11101', data='aaa5a')
    gives(run, 'as before the rise, not as at the fall', '5 1 66', rd='10001', cs0='10111', cs1='11100', a0='10011', data='12366')
    gives(run, 'two cycles, one sample high between', '3 0 11', '3 0 22', wr='10101', cs0='00000', data='f1f2f')
    gives(run, 'select in the middle of a strobe', '3 0 55', wr='100001', cs0='111001', data='555555')
    gives(run, 'select gone before the rise', wr='100001', cs0='100011', data='555555')
    gives(run, 'select gone and back', '3 0 55', wr='1000001', cs0='1001001', data='5555555')
    gives(run, 'select gone and back twice', '3 0 22', wr='1000000011', cs0='1001001001', data='1113332222')
    gives(run, 'select passed on within a strobe', '3 1 55', wr='100001', cs0='100111', cs1='111001', data='555555')
    gives(run, 'select passed on within a strobe, by level', '3 1 55', options=':one_select=level', wiring='level',
          wr='100001', cs0='100111', data='555555')
    gives(run, 'selected after the rise only', wr='1000111', cs0='1111000', data='5555555')
    gives(run, 'nobody selected', wr='1001', data='5555')
    gives(run, 'nobody selected, a read', rd='1001', data='5555')
    gives(run, 'no strobe at all', cs0='0101', cs1='0011', data='0123')
    gives(run, 'cut off at the end', '3 0 11', wr='101000', cs0='000000', data='112222')
    gives(run, 'cut off in the first cycle', wr='1000', cs0='0000', data='1111')
    gives(run, 'a last sample that is the rise', '3 0 11', wr='1001', cs0='0000', data='1111')
    gives(run, 'begins inside a write', '3 0 55', wr='001', cs0='001', data='555')
    gives(run, 'begins in the last sample of a read', '5 1 55', rd='01', cs1='01', data='55')
    gives(run, 'one sample', cs0='0', wr='0', data='5')
    gives(run, 'read ends as write begins', '5 0 11', '3 0 22', rd='1001111', wr='1110011', cs0='0000000', data='1112222')
    gives(run, 'left ends as right begins', '3 0 11', '3 1 22', wr='10101', cs0='00111', cs1='11001', data='f1f2f')


def overlaps(run):
    gives(run, 'both strobes, same samples', '1 0 55', rd='1001', wr='1001', cs0='0000', data='f55f')
    gives(run, 'both strobes, A0 low', '0 1 55', rd='1001', wr='1001', cs1='0000', a0='0000', data='f55f')
    gives(run, 'read around write', '1 0 22', rd='1000001', wr='1100111', cs0='0000000', data='1122333')
    gives(run, 'write around read', '1 0 22', wr='1000001', rd='1100111', cs0='0000000', data='1122333')
    gives(run, 'read into write', '1 0 22', rd='1000111', wr='1100001', cs0='0000000', data='1122333')
    gives(run, 'a cycle after it', '1 0 22', '3 0 44', rd='1000111111', wr='1100001001', cs0='0000000000', data='1122333444')
    gives(run, 'read around two writes', '1 0 22', '1 0 44', rd='100000001', wr='110010011', cs0='000000000', data='112233445')
    gives(run, 'both strobes and both selects', '1 0 55', '1 1 55', rd='1001', wr='1001', cs0='0000', cs1='0000', data='f55f')
    gives(run, 'both strobes, nobody selected', rd='1001', wr='1001', data='f55f')
    gives(run, 'both strobes, deselected at the first rise', '1 0 55', rd='10011', wr='10001', cs0='00011', data='f55ff')
    gives(run, 'both strobes, selected after the first rise', '3 0 66', rd='10011', wr='10001', cs0='11100', data='f556f')
    gives(run, 'both strobes, selected after the first rise, a longer one', '3 0 55',
          rd='1000111111', wr='1100000011', cs0='1111000001', data='5555555555')
    gives(run, 'both strobes, the write rises first', '4 1 66', rd='1000001', wr='1001111', cs1='1111000', a0='0000000', data='5555566')
    gives(run, 'both strobes on one chip, the other selected after the first rise', '1 0 22', '3 1 44',
          rd='1001111', wr='1000011', cs0='0001111', cs1='1111001', data='2222445')
    gives(run, 'both strobes on one chip, then both selected', '1 0 22', '3 1 44',
          rd='1001111', wr='1000011', cs0='0000000', cs1='1111001', data='2222445')
    gives(run, 'both strobes, deselected after the first rise, selected again', '1 0 22', '3 0 44',
          rd='1001111', wr='1000011', cs0='0001001', data='2222445')
    gives(run, 'both strobes, deselected before the first rise, selected again', '3 0 44',
          rd='1000111', wr='1000011', cs0='0011001', data='2222445')
    gives(run, 'both strobes, cut off at the end', rd='100', wr='100', cs0='000', data='f55')


def no_power(run):
    """A capture that begins before the board has power: both strobes are low, and their first rises give no record."""
    gives(run, 'no power at the start', '3 0 55', rd='0011111', wr='0001101', cs0='0000000', cs1='0011111', data='0005555')
    gives(run, 'no power at the start, both rise at once', '2 1 55', rd='00111', wr='00101', cs1='00001', a0='00000', data='00055')
    gives(run, 'no power at the start, selects come and go', '3 0 55',
          rd='000001111111', wr='000000001101', cs0='011001101100', data='000000000055')
    gives(run, 'no power at the start, a read before the write rises', '1 0 22', rd='00110011', wr='00000001', cs0='00000000', data='00002211')


def both_selected(run):
    for lines, strobe, a0 in ((2, 'wr', '0'), (3, 'wr', '1'), (4, 'rd', '0'), (5, 'rd', '1')):
        wanted = ['%d %s' % (lines, rest) for rest in ('0 11', '1 11', '1 22', '0 33')]
        gives(run, 'both selected, lines %d' % lines, *wanted[:2], **{strobe: '10011'}, a0=a0 * 5, cs0='00001', cs1='00001', data='f11ff')
        gives(run, 'both selected, active high, lines %d' % lines, *wanted[:2], options=':cs_polarity=active-high', active=1,
              **{strobe: '10011'}, a0=a0 * 5, cs0='11110', cs1='11110', data='f11ff')
        gives(run, 'both selected, then one, lines %d' % lines, *wanted,
              **{strobe: '1010101'}, a0=a0 * 7, cs0='0001100', cs1='0000011', data='f1f2f3f')
        gives(run, 'the other joins at the last sample, lines %d' % lines, *wanted[:2],
              **{strobe: '10001'}, a0=a0 * 5, cs0='00001', cs1='11101', data='f111f')


def blocks(run):
    """A cycle about the sample where sigrok-cli goes on with its next block of 4 MiB: low and high, data and A0 change there."""
    bus = drawn(wr='1000111', cs0='1000011', a0='1101111', data='f115fff')
    cycle, idle = binary(bus.samples), binary(bus.samples[:1])
    for before in range(9):
        path = run.work / 'blocks'
        path.write_bytes(idle * (2 ** 21 - before) + cycle * 2 + idle * 100)
        got = run.sigrok('-I', 'binary:numchannels=13:' + RATE, '-i', path, '-P', chosen(bus, 'binary'), *TRACE)
        run.same('a block that begins %d samples into the cycle' % before, got.stdout, records('3 0 55', '3 0 55'))
