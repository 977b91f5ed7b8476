"""sigrok-cli itself: installs it where it is missing, and tries run.py where that cannot be."""
import os
import shutil
import subprocess
import sys

from checks import HERE


def missing():
    """Installs sigrok-cli where it is missing; gives the reason where that cannot be."""
    if shutil.which('sigrok-cli'):
        return None
    if not shutil.which('apt-get'):
        return 'sigrok-cli is missing, and there is no apt-get to install it'
    quiet = dict(stdin=subprocess.DEVNULL, stdout=subprocess.DEVNULL, stderr=subprocess.DEVNULL)
    rights = [] if os.geteuid() == 0 else ['sudo', '-n']
    if rights and (not shutil.which('sudo') or subprocess.run(['sudo', '-n', 'true'], **quiet).returncode):
        return 'sigrok-cli is missing, and only root can install it'
    environment = dict(os.environ, DEBIAN_FRONTEND='noninteractive')
    for step in (['install'], ['update'], ['install']):
        arguments = ['-y', '--no-install-recommends', 'sigrok-cli'] if step == ['install'] else []
        subprocess.run([*rights, 'apt-get', *step, *arguments], env=environment, **quiet)
        if shutil.which('sigrok-cli'):
            return None
    return 'sigrok-cli is missing, and apt-get could not install it'


def without_sigrok(run):
    """run.py where there is no sigrok-cli, and no way or a failing way to install it."""
    for label, commands in (('no apt-get', ()), ('an apt-get that fails', ('apt-get', 'sudo'))):
        folder = run.work / label
        folder.mkdir()
        for command in commands:
            (folder / command).write_text('#!/bin/sh\nexit 1\n')
            (folder / command).chmod(0o755)
        done = run.sigrok(HERE / 'run.py', command=[sys.executable], environment={'PATH': str(folder)})
        run.check('%s: says %s' % (label, done.stdout), done.stdout.startswith(b'sigrok: NOT RUN: sigrok-cli is missing'))
        run.same('%s: lines' % label, done.stdout.count(b'\n'), 1)
        run.same('%s: status' % label, done.returncode, 0)
