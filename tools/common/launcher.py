"""The program that the talk and the page start: where it is, and how its status is told."""

import os

from common.refusals import Refused

TOP = os.path.dirname(os.path.dirname(os.path.dirname(os.path.realpath(__file__))))
PROGRAM = os.path.abspath(os.environ.get('PILEPUMICE') or os.path.join(TOP, 'pilepumice'))


def must_be_there():
    if not os.access(PROGRAM, os.X_OK) or os.path.isdir(PROGRAM):
        raise Refused(f"the program {PROGRAM} isn't there")


def as_shell(status):
    """A status as a shell tells it, where a signal's is negative."""
    return status if status >= 0 else 128 - status
