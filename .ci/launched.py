"""The program that the scripts beside this file try."""

import os
import subprocess
import sys

LAUNCHER = os.path.join(os.path.dirname(os.path.dirname(os.path.realpath(__file__))), 'pilepumice')


def program_of(words):
    """The first word, or else the program that ./pilepumice runs; ends where there is none, as ./pilepumice tells."""
    if words:
        return os.path.abspath(words[0])
    told = subprocess.run([LAUNCHER, '--program'], stdout=subprocess.PIPE, text=True)
    return told.stdout.strip() if told.returncode == 0 else sys.exit(told.returncode)
