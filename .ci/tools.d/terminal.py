"""A terminal with `talk` behind it, for the tests: keys go in, and what stands on the screen comes out."""

import fcntl
import os
import pty
import re
import select
import signal
import struct
import termios
import time

from support import PYTHON, TOOLS

PATIENCE = 20  # seconds
PROMPT = '\n> '
MODES = re.compile('\x1b\\[\\?[0-9]+[hl]')  # how readline sets up a terminal; not on the screen


class Terminal:
    def __init__(self, *words, folder, columns=400, rows=24, **variables):
        self.shown, self.status = '', None
        self.process, self.keys = pty.fork()
        if self.process == 0:
            os.chdir(folder)
            os.environ.pop('NO_COLOR', None)
            os.environ.update({'TERM': 'vt100', 'COLORTERM': 'truecolor', 'INPUTRC': os.devnull, **variables})
            os.execv(PYTHON[0], [*PYTHON, os.path.join(TOOLS, 'talk'), *words])
        fcntl.ioctl(self.keys, termios.TIOCSWINSZ, struct.pack('HHHH', rows, columns, 0, 0))

    def __enter__(self):
        return self

    def __exit__(self, *_):
        if self.status is None:
            os.kill(self.process, signal.SIGKILL)
            os.waitpid(self.process, 0)
        os.close(self.keys)

    def read(self, until):
        """Reads on until what is shown satisfies `until`, or all has ended."""
        limit = time.monotonic() + PATIENCE
        while not until():
            if not select.select([self.keys], [], [], max(0, limit - time.monotonic()))[0]:
                raise AssertionError(f'the terminal waits, and shows {self.shown!r}')
            try:
                got = os.read(self.keys, 65536)
            except OSError:  # how Linux tells that the other end is closed
                got = b''
            if not got:
                return
            self.shown = MODES.sub('', (self.shown + got.decode(errors='replace'))).replace('\r\n', '\n')

    def prompt(self):
        """What is shown up to the next prompt, as lines; first come the replies to the loads."""
        self.read(lambda: ('\n' + self.shown).endswith(PROMPT))
        lines, self.shown = self.shown[:-len('> ')].split('\n')[:-1], ''
        return without_launcher(lines)

    def press(self, keys):
        os.write(self.keys, keys.encode() if isinstance(keys, str) else keys)

    def line(self, text):
        """Types a line; the lines that are shown after it, up to the next prompt."""
        self.press(text + ('\r' if isinstance(text, str) else b'\r'))
        return self.prompt()[1:]

    def give_up(self):
        """Presses control-C at the prompt; the lines up to the next one. The pause is for the interpreter, which doesn't see a signal
        that comes in the instant in which it takes a key."""
        time.sleep(0.1)
        self.press('\x03')
        return self.prompt()

    def wait_for(self, text):
        self.read(lambda: text in self.shown)
        assert text in self.shown, self.shown

    def end(self, keys=''):
        """Reads to the end; the lines that are shown, and the status."""
        self.press(keys)
        self.read(lambda: False)
        self.status = os.waitstatus_to_exitcode(os.waitpid(self.process, 0)[1])
        return without_launcher(self.shown.split('\n')), self.status


def without_launcher(lines):
    """The lines but those that ./pilepumice says on standard error."""
    return [line for line in lines if not line.startswith('pilepumice: ')]
