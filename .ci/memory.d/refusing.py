"""Programs of which refuse.c, put before the C library by the loader, refuses some calls: what .ci/memory and .ci/refusals share."""
import os
import shutil
import subprocess
from itertools import count
from pathlib import Path
from typing import NamedTuple

LAST = 1_000_000_000
SECONDS = 120
AT_ONCE = 4 * os.cpu_count()


class Refusal(NamedTuple):
    """Calls that are refused: the nth one of a kind, `memory` or `threads`, alone or with all after it."""
    kind: str
    number: int
    is_alone: bool

    def words(self):
        return f'{self.kind} {self.number} {self.number if self.is_alone else LAST}'

    def __str__(self):
        return f'{self.kind} {self.number}' + ('' if self.is_alone else ' and all after it')


class Run(NamedTuple):
    """The status, None where the run didn't end, what was written, and the lines that were told on standard error."""
    status: int
    text: bytes
    told: list

    def refused(self):
        return [line for line in self.told if line.startswith('refused ')]

    def started(self):
        """How many threads were started."""
        return sum(line.startswith('started ') for line in self.told)


def has_compiler():
    return shutil.which('cc') is not None


def built_shim(folder):
    """refuse.c as the loader takes it, built in a folder."""
    shim = Path(folder) / 'refuse.so'
    # without what the compiler knows of malloc and its like, which are written there
    words = ['cc', '-O1', '-fno-builtin', '-Wall', '-Wextra', '-shared', '-fPIC', '-o', shim]
    subprocess.run([*words, Path(__file__).with_name('refuse.c')], check=True)
    return shim


def refused_run(command, shim, words, **how):
    """A run of which some calls are refused, by words as Refusal has them; none are where these are empty."""
    env = {**os.environ, 'LD_PRELOAD': str(shim), 'REFUSE': words}
    try:
        done = subprocess.run(command, env=env, capture_output=True, timeout=SECONDS, **how)
    except subprocess.TimeoutExpired:
        return Run(None, b'', [f'refused {words}'])
    return Run(done.returncode, done.stdout, done.stderr.decode('latin-1').splitlines())


def each_in_turn(pool, run_of, kind, is_alone):
    """Each refusal and its run, up to the first run that is refused nothing."""
    for first in count(1, AT_ONCE):
        refusals = [Refusal(kind, number, is_alone) for number in range(first, first + AT_ONCE)]
        for refusal, ran in zip(refusals, pool.map(run_of, refusals)):
            if not ran.refused():
                return
            yield refusal, ran
