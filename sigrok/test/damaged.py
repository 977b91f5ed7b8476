"""Decoders damaged on purpose: each damage must be noticed by the group of checks that is named with it."""
import shutil

from checks import SIGROK, Run, Stop
from cycles import both_selected, edges, no_power, overlaps
from known import wirings
from moving import moving_lines
from words import words_of_brief_strobes, words_of_cycles, words_of_deselections, words_of_records
from wrong_use import wrong_use

AT_RISE, TAKEN = 'self.rise(before, rising)', 'self.taken[strobe].update(chips)'
DAMAGES = (
    ('data taken at the rise', edges, AT_RISE, 'self.rise(tuple(now[:8]) + tuple(before[8:]), rising)'),
    ('A0 taken at the rise', edges, AT_RISE, 'self.rise(tuple(before[:8]) + (now[8],) + tuple(before[9:]), rising)'),
    ('selects taken at the rise', edges, AT_RISE, 'self.rise(tuple(before[:11]) + tuple(now[11:]), rising)'),
    ('only the strobes watched', edges, 'range(CS1 + 1 if self.two_selects else CS1)', 'STROBES'),
    ('a record at the fall', edges, 'if rising:\n            ' + AT_RISE,
     'if any(before[strobe] and not now[strobe] for strobe in STROBES):\n            self.rise(now, [])'),
    ('chips exchanged', edges, 'bytes([lines, chip, byte, 0])', 'bytes([lines, 1 - chip, byte, 0])'),
    ('strobes exchanged', edges, 'pins[RD] << 1 | pins[WR] << 2', 'pins[WR] << 1 | pins[RD] << 2'),
    ('bits of data in reverse', words_of_records, 'pins[bit] << bit', 'pins[bit] << 7 - bit'),
    ('the start of a capture waited over', edges, "{'skip': 0}", "{'skip': 1}"),
    ('a second record of an overlap', overlaps, TAKEN, 'pass'),
    ('an overlap of nobody counted for all', overlaps, TAKEN, 'self.taken[strobe].update((0, 1))'),
    ('an overlap of nobody counted for all, lines moving', moving_lines, TAKEN, 'self.taken[strobe].update((0, 1))'),
    ('an overlap of one chip counted for both', overlaps, TAKEN, 'self.taken[strobe].update(chips and (0, 1))'),
    ('an overlap counted past the deselection', overlaps, 'self.taken[strobe].intersection_update(new)', 'pass'),
    ('an overlap counted past the strobe', overlaps, 'self.taken[strobe].clear()', 'pass'),
    ('no power taken for an overlap', no_power, 'self.unpowered = {RD, WR}', 'pass'),
    ('no power taken for an overlap, lines moving', moving_lines, 'self.unpowered = {RD, WR}', 'pass'),
    ('one strobe low at the start taken for no power', edges, 'not pins[RD] and not pins[WR]', 'not pins[RD] or not pins[WR]'),
    ('no power for ever', no_power, 'self.unpowered.discard(strobe)', 'pass'),
    ('right before left', both_selected, 'for chip in (0, 1) if', 'for chip in (1, 0) if'),
    ('one record for both chips', both_selected, 'for chip in chips:\n', 'for chip in chips[:1]:\n'),
    ('polarity left aside', wirings, "1 if self.options['cs_polarity'] == 'active-high' else 0", '0'),
    ('no chip at the other level', wirings, "'level': (first, not first)", "'level': (first, False)"),
    ('right for left', wirings, "'right': (False, first)", "'right': (first, False)"),
    ('read-modify-write not followed', words_of_records, 'self.read_modify_write[chip] = byte == READ_MODIFY_WRITE', 'pass'),
    ('read-modify-write of one chip for both', words_of_records, 'self.read_modify_write[chip] =', 'self.read_modify_write[0] ='),
    ('read-modify-write ended by reset', words_of_records, 'byte in (READ_MODIFY_WRITE, END)', 'byte in (READ_MODIFY_WRITE, END, 0xe2)'),
    ('column 80 let through', words_of_records, '0x50 <= byte', '0x50 < byte'),
    ('a refused record not counted', words_of_records, 'self.records += 1', 'self.records += not number'),
    ('status of the display turned round', words_of_records, "'display off' if byte & 0x20 else 'display on'",
     "'display on' if byte & 0x20 else 'display off'"),
    ('an early deselection not told', words_of_deselections, 'if chip not in new:', 'if False:'),
    ('an early deselection not told, lines moving', moving_lines, 'if chip not in new:', 'if False:'),
    ('a deselection told beside its record', words_of_deselections, 'in self.owed(before, low):', 'in self.selected(before) if low else []:'),
    ('a later deselection told from the fall', words_of_deselections, 'max(self.selected_since[chip], ', '('),
    ('a deselection in an overlap told from the later fall', words_of_deselections, 'min(self.low_since', 'max(self.low_since'),
    ('a brief strobe not told', words_of_brief_strobes, '== self.samplenum - 1', '== self.samplenum'),
    ('a brief strobe not told, lines moving', moving_lines, '== self.samplenum - 1', '== self.samplenum'),
    ('two samples told as brief', words_of_brief_strobes, '== self.samplenum - 1', '>= self.samplenum - 2'),
    ('a strobe cut by the start told as brief', words_of_brief_strobes, '0 < self.low_since', '0 <= self.low_since'),
    ('a brief overlap told as a brief strobe', words_of_brief_strobes, 'for strobe in rising):', 'for strobe in STROBES):'),
    ('an overlap told from the first fall', words_of_cycles, 'max(self.low_since', 'min(self.low_since'),
    ('any value of an option taken', wrong_use, "not in option['values']", 'is None'),
)


def damaged_decoders(run):
    source = (SIGROK / 'sed1520' / 'pd.py').read_text()
    for place, (label, group, old, new) in enumerate(DAMAGES):
        run.check('damage "%s": its text is in the decoder once' % label, source.count(old) == 1)
        decoders = run.work / ('damaged%d' % place)
        shutil.copytree(SIGROK / 'sed1520', decoders / 'sed1520', ignore=shutil.ignore_patterns('__pycache__'))
        (decoders / 'sed1520' / 'pd.py').write_text(source.replace(old, new))
        try:
            group(Run(run.work, decoders, damaged=True))
            noticed = 'nothing'
        except Stop as stop:
            noticed = str(stop)
        run.check('damage "%s": noticed by %s' % (label, noticed), noticed != 'nothing' and 'Traceback' not in noticed)
