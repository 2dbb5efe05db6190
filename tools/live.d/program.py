"""The program, between two pipes: lines go in, and each reply is read to its last line."""

import contextlib
import fcntl
import os
import select
import signal
import subprocess
import time

from common.replies import ASK_FOR_MARK, BLANKS, COUNTED, HEADER, WIDEST_LINE, is_answered, is_mark, length_of_branches, sets_language

WIDEST_PIPE = 1 << 20
PIECE = 1 << 20


class Ended(Exception):
    """The program ended before it answered all lines; `replies` are those that it gave."""

    def __init__(self, replies):
        super().__init__('the program has ended')
        self.replies = replies


class Reply:
    """What was written to one line, and how many seconds it took, from the sending of the lines or from the reply before."""

    def __init__(self, text, seconds):
        self.text, self.seconds = text, seconds


def is_quit(line):
    line = line.removesuffix(b'\r')
    return len(line) <= WIDEST_LINE and line.strip(BLANKS) == b'quit'


def lines_after(first, second, line):
    """How many lines come after the first one of the reply to a line; `second` gives the second one where it is needed."""
    words = first.split()
    if words[:1] == [b'branch']:
        return length_of_branches(line) - 1
    if words[:1] == [b'ncols']:
        return HEADER - 1 + int(second().split()[1])
    word = words[0].decode('latin-1') if words else ''
    return int(words[COUNTED[word]]) if word in COUNTED else 0


class Program:
    """One run. It isn't for several threads at a time: the session has turns."""

    def __init__(self, path, words):
        self.process = subprocess.Popen([path, *words], stdin=subprocess.PIPE, stdout=subprocess.PIPE, bufsize=0, start_new_session=True)
        self.lines_in, self.text_out = self.process.stdin.fileno(), self.process.stdout.fileno()
        for pipe in (self.lines_in, self.text_out):
            widen(pipe)
        os.set_blocking(self.lines_in, False)
        self.unread, self.place, self.began = bytearray(), 0, 0.0

    def beginning(self):
        """The replies to the loads and the model file, as one text. Ended where the program ended over them."""
        reply = Reply(b'', 0.0)
        with self.to_the_end([reply]):
            self.send(ASK_FOR_MARK)
            while not is_mark(line := self.line()):
                reply.text += line
        return reply.text

    def ask(self, lines):
        """The replies to lines of bytes, None for a line that has none. All are sent before the first reply is waited for."""
        replies = []
        with self.to_the_end(replies):
            self.send(b''.join(line + b'\n' + ASK_FOR_MARK * sets_language(line) for line in lines))
            for line in lines:
                replies.append(self.reply_to(line))
        return replies

    def ask_for_lines(self, text, count):
        """The same for a text of so many lines, whose replies are one line each; answers these as one text."""
        with self.to_the_end([]):
            self.send(text)
            counted, looked = 0, self.place
            while (counted := counted + self.unread.count(b'\n', looked)) < count:
                looked = len(self.unread)
                self.take_in()
        return self.taken(len(self.unread))

    @contextlib.contextmanager
    def to_the_end(self, replies):
        """Round an exchange, which is whole or the last one: after replies that weren't read, later ones would go to wrong lines."""
        try:
            yield
        except EOFError:
            raise Ended(replies) from None
        except BaseException:
            self.stop(signal.SIGKILL)
            raise

    def send(self, data):
        """Sends bytes. What the program writes meanwhile is taken in, so that neither of both waits for the other."""
        self.began = time.monotonic()
        left, turns = memoryview(data), select.poll()
        turns.register(self.lines_in, select.POLLOUT)
        turns.register(self.text_out, select.POLLIN)
        try:
            while left:
                for pipe, _ in turns.poll():
                    if pipe == self.text_out:
                        self.take_in()
                    else:
                        left = left[os.write(self.lines_in, left):]
        except (BrokenPipeError, EOFError):
            pass  # what it wrote before it ended is read all the same

    def take_in(self):
        piece = os.read(self.text_out, PIECE)
        if not piece:
            raise EOFError
        self.unread += piece

    def end_of_line(self, start):
        """Where the line ends that starts at a place of what was taken in, with its line feed."""
        looked = start
        while (end := self.unread.find(b'\n', looked)) < 0:
            looked = len(self.unread)
            self.take_in()
        return end + 1

    def taken(self, end):
        """What the program wrote up to a place, which counts as read."""
        text, self.place = bytes(memoryview(self.unread)[self.place:end]), end
        if end == len(self.unread):
            self.unread, self.place = bytearray(), 0
        return text

    def line(self):
        """The next line that the program writes, with its line feed."""
        return self.taken(self.end_of_line(self.place))

    def reply_to(self, line):
        if is_quit(line) or not is_answered(line.removesuffix(b'\r')):
            return None
        reply = self.reply(line)
        if not sets_language(line):
            return reply
        if is_mark(reply.text):
            return None
        self.reply(ASK_FOR_MARK)
        return reply

    def reply(self, line):
        first = self.end_of_line(self.place)
        end = first
        for _ in range(lines_after(bytes(self.unread[self.place:first]), lambda: self.unread[first:self.end_of_line(first)], line)):
            end = self.end_of_line(end)
        return Reply(self.taken(end), self.passed())

    def passed(self):
        before, self.began = self.began, time.monotonic()
        return self.began - before

    def status(self):
        """The status with which the program ended, negative for a signal; None while it runs."""
        return self.process.poll()

    def stop(self, sign):
        """Sends a signal to the launcher and to the program that it has started, to which it hands none on."""
        with contextlib.suppress(ProcessLookupError):
            os.killpg(self.process.pid, sign)

    def end(self):
        """Ends the session; answers the status."""
        self.process.stdin.close()
        return self.process.wait()


def widen(pipe):
    """Gives a pipe room for a grid's rows, where the system lends it."""
    try:
        fcntl.fcntl(pipe, fcntl.F_SETPIPE_SZ, WIDEST_PIPE)
    except OSError:
        pass
