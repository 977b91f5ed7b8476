"""The warnings with a number, held to what the model refuses."""
import random

from checks import SHOW
from traces import likely_trace, played


def model_refuses(run, trace):
    """Place, number and words with which the model refuses the trace, as show says them; None where it does not."""
    path = run.work / 'refused.trace'
    path.write_bytes(trace)
    done = run.sigrok(path, command=[SHOW])
    if done.returncode == 0:
        return None
    return done.words.strip().split(': record ')[1].replace(' refused: number ', ' ').replace(', ', ' ', 1)


def refusals(run):
    """The first warning with a number is what the model says."""
    for seed in range(40, 70):
        trace = likely_trace(random.Random(seed), 60)
        bus = played(trace, seed)
        run.traced('likely, seed %d' % seed, bus, trace)
        warnings = run.decode('likely', bus, output=('-A', 'sed1520=warning')).decode().splitlines()
        run.same('refused as by the model, seed %d' % seed, first_refusal(warnings), model_refuses(run, trace))


def first_refusal(warnings):
    for line in warnings:
        if ': refused with number ' in line:
            place = line.split('record ')[1].split(',')[0]
            number, words = line.split(': refused with number ')[1].split(': ', 1)
            return '%s %s %s' % (place, number, words)
    return None


def every_command(run):
    """Each byte written as the first command: warned of just where the model refuses it."""
    trace = b''.join(bytes([2, 0, byte, 0]) for byte in range(256))
    warned = {}
    for line in run.decode('every command', played(trace, least=2), output=('-A', 'sed1520=warning')).decode().splitlines():
        place, number, words = first_refusal([line]).split(' ', 2)
        warned[int(place)] = '0 %s %s' % (number, words)
    for byte in range(256):
        run.same('command %02X refused as by the model' % byte, warned.get(byte), model_refuses(run, bytes([2, 0, byte, 0])))
