"""What the tests of the tools share: the tools and the program as calls, and grids as texts."""

import contextlib
import functools
import importlib.machinery
import importlib.util
import io
import os
import subprocess
import sys
import tempfile
import unittest

TOP = os.path.dirname(os.path.dirname(os.path.dirname(os.path.realpath(__file__))))
TOOLS = os.path.join(TOP, 'tools')
PROGRAM = os.environ.get('PILEPUMICE') or os.path.join(TOP, 'pilepumice')
sys.path.insert(1, os.path.join(TOP, '.ci', 'second'))
sys.path.insert(2, TOOLS)
PYTHON = sys.executable, '-S'  # without the packages that are installed beside it, since the tools need none
HEADER = 'xllcorner 100\nyllcorner 200.5\ncellsize 10\n'


def call(*words, given=b'', folder=None, **variables):
    """What a command writes on standard output and standard error, and its status."""
    done = subprocess.run(words, input=given, cwd=folder, capture_output=True, env={**os.environ, **variables})
    return done.stdout, done.stderr.decode(), done.returncode


def process(name, *words, **rest):
    """The same of a tool."""
    return call(*PYTHON, os.path.join(TOOLS, name), *map(str, words), **rest)


def tool(name, *words, given=b'', folder='.'):
    """The same of a tool that is called within this process, which is faster."""
    from common.refusals import run
    out, told, status, here, saved = io.TextIOWrapper(io.BytesIO(), write_through=True), io.StringIO(), 0, os.getcwd(), (sys.argv, sys.stdin)
    sys.argv, sys.stdin = [name, *map(str, words)], io.TextIOWrapper(io.BytesIO(given))
    os.chdir(folder)
    try:
        with contextlib.redirect_stdout(out), contextlib.redirect_stderr(told):
            run(name, functions(name).main)
    except SystemExit as end:
        status = end.code
    finally:
        os.chdir(here)
        sys.argv, sys.stdin = saved
    return out.buffer.getvalue(), told.getvalue(), status


@functools.cache
def functions(name):
    """A tool as a module."""
    loader = importlib.machinery.SourceFileLoader(f'tool_{name}', os.path.join(TOOLS, name))
    module = importlib.util.module_from_spec(importlib.util.spec_from_loader(loader.name, loader))
    loader.exec_module(module)
    return module


def program(words, session, folder=None):
    """What the program writes over a session, and its status."""
    out, _, status = call(PROGRAM, *words, given=session, folder=folder)
    return out, status


def grid_text(rows, null=-9999, header=HEADER):
    """The text of a grid given by its rows; None is null."""
    head = f'ncols {len(rows[0])}\nnrows {len(rows)}\n{header}NODATA_value {null}\n'
    return head + ''.join(' '.join(str(null if cell is None else cell) for cell in row) + '\n' for row in rows)


def rows_of(text):
    """The rows of a grid's text whose header has six lines, None for null."""
    lines = text.splitlines()
    null = int(lines[5].split()[1])
    return [[None if int(word) == null else int(word) for word in line.split()] for line in lines[6:]]


def grid_of(rows):
    """The rows as the tools keep a grid."""
    from common.grid_text import Grid
    return Grid(len(rows), len(rows[0]), (), [cell for row in rows for cell in row])


class Case(unittest.TestCase):
    """A test with a folder of its own."""

    def setUp(self):
        room = tempfile.TemporaryDirectory()
        self.addCleanup(room.cleanup)
        self.folder = room.name

    def path(self, name):
        return os.path.join(self.folder, name)

    def write(self, name, text):
        with open(self.path(name), 'wb') as file:
            file.write(text if isinstance(text, bytes) else text.encode())
        return self.path(name)

    def read(self, name):
        with open(self.path(name), 'rb') as file:
            return file.read()

    def grid(self, name, rows, **rest):
        return self.write(name, grid_text(rows, **rest))

    def refused(self, name, *words, saying, calls=tool, **rest):
        """The tool ends with status 2 and one sentence on standard error that says this, and writes nothing else."""
        out, told, status = calls(name, *words, folder=self.folder, **rest)
        self.assertEqual((out, status), (b'', 2), told)
        self.assertIn(saying, told)
        self.assertTrue(told.startswith(f'{name}: ') and told.count('\n') == 1, told)
