#!/usr/bin/env python3
"""Runs the real sigrok-cli with the decoder on captures made from known traces, and compares bytes, words and refusals.

Usage: sigrok/test/run.py, after make -C host show, from any folder. Where sigrok-cli is missing it is installed from the distribution,
by root or by a sudo that asks nothing; where that cannot be, nothing is run, and the last line says so.

A group of checks is a function that takes the run alone; those of the files in MODULES are run. Failures too: a file with groups that is
not in MODULES, a file in MODULES without a group, and a group that checks nothing.
"""
import importlib
import inspect
import pathlib
import sys
import tempfile

sys.dont_write_bytecode = True                      # before the imports: no bytecode in the tree
from checks import HERE, SIGROK, Run  # noqa: E402
from sigrok_cli import missing  # noqa: E402

MODULES = ('known', 'cycles', 'moving', 'words', 'refusals', 'readme', 'wrong_use', 'damaged', 'sigrok_cli')


def groups(name):
    """The groups of a file, in their order; those that it imports are another's."""
    found = vars(importlib.import_module(name)).values()
    return [thing for thing in found if inspect.isfunction(thing) and thing.__module__ == name
            and list(inspect.signature(thing).parameters) == ['run']]


def try_module(run, name):
    found = groups(name)
    if not found:
        run.fail('%s.py has no group of checks' % name)
    for group in found:
        before = run.checks
        group(run)
        if run.checks == before:
            run.fail('%s.py: %s checks nothing' % (name, group.__name__))


def left_out():
    """The files that have groups but are not in MODULES."""
    others = {path.stem for path in HERE.glob('*.py')} - {'run', *MODULES}
    return sorted(name for name in others if groups(name))


def main():
    if len(sys.argv) > 1:
        print('sigrok/test/run.py: takes no arguments', file=sys.stderr)
        return 2
    reason = missing()
    if reason:
        print('sigrok: NOT RUN: ' + reason)
        return 0
    with tempfile.TemporaryDirectory() as folder:
        run = Run(pathlib.Path(folder), SIGROK)
        for name in MODULES:
            try_module(run, name)
        for name in left_out():
            run.fail('%s.py has groups of checks, but is not in MODULES' % name)
    print('sigrok: %d checks, %d failed' % (run.checks, run.failed))
    return 0 if run.failed == 0 else 1


if __name__ == '__main__':
    sys.exit(main())
