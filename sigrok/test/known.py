"""The way from a trace to its capture and back: every form, every wiring."""
import random

import capture
from checks import EXAMPLES, TRACE
from files import RATE, chosen, written
from traces import every_byte, played, random_trace


def known_traces(run):
    for label, bus, trace, forms in known_buses():
        for form in forms:
            run.traced(label, bus, trace, form)


def known_buses():
    """Label, bus, its trace, and the forms in which it is read."""
    every_form = ('sr', 'csv', 'timed-csv', 'vcd', 'binary')
    buses = []
    for name in ('listing', 'name'):
        trace = (EXAMPLES / (name + '.trace')).read_bytes()
        for seed in (None, 1):
            buses.append(('%s, seed %s' % (name, seed), played(trace, seed), trace, every_form))
    buses.append(('every byte', played(every_byte()), every_byte(), ('sr', 'vcd')))
    buses.append(('every byte, upset', played(every_byte(), 2), every_byte(), ('csv', 'sr')))
    for seed in range(3, 11):
        trace = random_trace(random.Random(seed), 400)
        buses.append(('random, seed %d' % seed, played(trace, seed), trace, ('csv', 'vcd')))
    trace = random_trace(random.Random(11), 16384)
    buses.append(('the longest trace', played(trace, 11), trace, ('sr',)))
    return buses


def wirings(run):
    trace = random_trace(random.Random(20), 300)
    for active, polarity in ((0, ''), (0, ':cs_polarity=active-low'), (1, ':cs_polarity=active-high')):
        for wiring, option in (('two', ''), ('two', ':one_select=left'), ('left', ''), ('left', ':one_select=left'),
                               ('right', ':one_select=right'), ('level', ':one_select=level')):
            for seed in (None, 21):
                bus = played(trace, seed, wiring, active)
                run.traced('wiring %s, seed %s' % (wiring, seed), bus, bus.heard(trace), 'csv', polarity + option)


def orders(run):
    """Channels in any order where they are named; not named, in the decoder's order."""
    trace = random_trace(random.Random(20), 300)
    bus = played(trace, 22)
    for label, order in (('in order', bus.names()), ('in another order', sorted(bus.names(), reverse=True))):
        path = run.work / 'ordered.csv'
        path.write_text(capture.csv_text(bus, order))
        got = run.sigrok('-I', 'csv:' + RATE, '-i', path, '-P', chosen(bus, 'csv'), *TRACE)
        run.same('channels ' + label, got.stdout, trace)
    got = run.sigrok(*written(run, bus, 'csv'), '-P', 'sed1520', *TRACE)
    run.same('channels not named, the capture has them in order', got.stdout, trace)
