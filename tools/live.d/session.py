"""One session that several pages share: the lines and replies so far, and what has changed since a page last asked.

Lines that pages hand on are kept with their replies, in order. What the pages ask of their own accord (stamps, cells, legends,
the list) changes nothing, and isn't kept: a session of the lines that were answered has the same replies without it."""

import os
import re
import tempfile
import threading
from bisect import bisect_left

from common.grid_text import TILE
from common.language import Names, explain, refused_column
from common.replies import HEADER
from program import Ended, is_quit

DEAR_AS_CELLS = 40  # asking for one cell takes about as long as printing so many of a grid
WORTH_A_SIGHT = 0.5  # the share of cells up to which those in sight are asked for first
HEAD_LINES, HEAD_BYTES = 40, 4000  # what a page is shown of a reply
MOST_LEGEND = 200
WIDEST_COMMENT = 4000
MARKING = {b'label', b'symbol', b'undo'}  # first words of edits that may change what values mean
QUIET = {b'paint', b'label', b'symbol'}  # of those that change no name
NAME = re.compile(r'[A-Za-z][A-Za-z0-9_]*(\.[A-Za-z][A-Za-z0-9_]*)*')


class NotSent(Exception):
    """Why lines weren't sent, in a sentence."""


class Entry:
    """A line that was sent, and what pages are shown of its reply."""

    def __init__(self, line):
        self.line, self.head, self.cut, self.seconds, self.sentence, self.is_answered = line, '', 0, 0.0, None, False

    def told(self, number):
        first = self.head.partition('\n')[0]
        return {'number': number, 'line': self.line.decode(errors='replace'), 'reply': self.head, 'cut': self.cut, 'seconds': self.seconds,
                'column': refused_column(first) if first else None, 'sentence': self.sentence, 'answered': self.is_answered}


class Turns:
    """A lock that is had in the order in which it was asked for, so that who asks often keeps nobody waiting for long."""

    def __init__(self):
        self.changed, self.given, self.served = threading.Condition(), 0, 0

    def __enter__(self):
        with self.changed:
            mine, self.given = self.given, self.given + 1
            self.changed.wait_for(lambda: self.served == mine)

    def __exit__(self, *_):
        with self.changed:
            self.served += 1
            self.changed.notify_all()

    def is_taken(self):
        return self.served != self.given


class Session:
    def __init__(self, program, words):
        self.program, self.words = program, words
        self.turns = Turns()
        self.entries, self.replies, self.written = [], tempfile.TemporaryFile(), 0
        self.names, self.edits, self.marks, self.size = Names(), 0, 0, None

    def begin(self):
        """Reads what is written before the first line of the session; answers it. Ended where no session comes about."""
        text = self.program.beginning()
        self.keep(text)
        self.learn_names()
        self.learn_edits()
        return text

    # What pages send

    def say(self, lines, shown, sight=None):
        """Sends lines, and gathers what has changed of the shown layers since the edits that go with them; of the cells of many
        tiles only those in sight, where there is one. Answers the entries, the changes with their texts, and the number of edits."""
        layers = [name for name in shown if NAME.fullmatch(name)]
        with self.turns:
            entries, stamps = self.send(lines, layers) if lines else ([], [])
            changes = {}
            try:
                if any(since < self.edits for since in shown.values()) and not self.has_ended():
                    changes = self.changes(dict(zip(layers, stamps or self.ask(*map(stamps_of, layers)))), shown, sight)
            except Ended:
                pass  # the pages are told of the end by the state
            return entries, changes, self.edits

    def send(self, lines, layers):
        """Sends lines up to a `quit`, and keeps them with their replies. Answers their entries, and the stamps of layers after them,
        which are asked for at once, so that the program is waited for only once; none where it ended."""
        self.refuse_the_ended()
        quits = [is_quit(line) for line in lines]
        lines = lines[:quits.index(True) + 1] if True in quits else lines
        sent = [Entry(line) for line in lines]
        questions = [] if True in quits else [stamps_of(layer) for layer in layers]
        try:
            replies = self.program.ask(lines + questions)
        except Ended as ended:
            replies = ended.replies[:len(sent)]
        self.keep_or_end(b''.join(reply.text for reply in replies[:len(sent)] if reply))
        for entry, reply in zip(sent, replies):
            entry.is_answered = True
            if reply:
                self.show_reply(entry, reply)
        self.close(sent)
        first = len(self.entries)
        self.entries += sent
        return list(enumerate(sent, first)), replies[len(sent):]

    def close(self, sent):
        """What is to be done after replies: counts, names, sentences."""
        self.count_edits(entry.head for entry in sent)
        accepted = {(entry.line.split() + [b''])[0] for entry in sent if entry.head.startswith('ok ')}
        self.marks += len(accepted & MARKING)
        if accepted - QUIET:
            self.try_to_learn_names()
        for entry in sent:
            entry.sentence = explain(entry.head.partition('\n')[0], entry.line, self.names)
        if is_quit(sent[-1].line) or not sent[-1].is_answered:
            self.program.process.wait()

    def show_reply(self, entry, reply):
        head = reply.text[:HEAD_BYTES].decode('latin-1').split('\n')[:HEAD_LINES]
        entry.head = '\n'.join(head).removesuffix('\n')
        entry.cut = max(0, reply.text.count(b'\n') - entry.head.count('\n') - 1)
        entry.seconds = reply.seconds

    def keep_or_end(self, text):
        """Keeps the replies to lines; where that can't be, the program ends, since it would go on with lines that the session doesn't have."""
        try:
            with self.program.to_the_end([]):
                self.keep(text)
        except OSError as error:
            raise NotSent(f"the program was ended, since replies can't be kept: {error.strerror}") from error

    def keep(self, text):
        self.replies.seek(self.written)
        self.replies.write(text)
        self.replies.flush()
        self.written += len(text)

    def count_edits(self, replies):
        for reply in replies:
            words = reply.partition('\n')[0].split()
            if words[:1] == ['ok']:
                self.edits = int(words[1])

    def try_to_learn_names(self):
        try:
            self.learn_names()
        except Ended:
            pass

    def learn_names(self):
        self.names = Names(self.ask(b'list')[0].text.decode('latin-1').splitlines()[1:])

    def learn_edits(self):
        """How many edits there were before the first line, from the number that one more would have. What was written doesn't tell it: the
        reply to an edit of a branch looks as if there had been one."""
        layers = self.names.layers()
        tried = f'drop {layers[0]}' if layers else 'new Any 1'
        self.edits = int(self.ask(f'branch {tried} end'.encode())[0].text.split()[3]) - 1

    # What pages ask

    def ask(self, *lines):
        """The replies to lines of our own, each of which has one."""
        return self.program.ask(lines)

    def changes(self, stamps, shown, sight):
        """For each layer with its stamps how it stands: a name for what is missing, or the tiles that changed and a text that has
        their cells."""
        changes = {name: self.change(name, reply, shown[name], sight) for name, reply in stamps.items()}
        few = {name: [self.cells_in(tile, sight if change.get('in_sight') else None) for tile in change['tiles']]
               for name, (change, text) in changes.items() if text is None}
        for name, text in self.cells_of(few).items():
            changes[name] = changes[name][0], text
        return changes

    def change(self, name, reply, since, sight):
        """How a layer stands; without the text where cells of its tiles are to be asked for one by one."""
        first, *rows = reply.text.decode('latin-1').splitlines()
        if not first.startswith('stamps '):
            return {'missing': first}, b''
        tiles = later_than(since, rows)
        if not tiles:
            return {'tiles': []}, b''
        if since == 0 or not self.size:
            return {'whole': True, 'tiles': tiles if since else []}, self.grid(name)
        as_cells, as_grid = self.count_of(tiles, None), self.size[0] * self.size[1] // DEAR_AS_CELLS
        if sight and self.count_of(tiles, sight) < min(as_cells, as_grid) * WORTH_A_SIGHT:
            return {'tiles': tiles, 'in_sight': True}, None
        if as_cells <= as_grid:
            return {'tiles': tiles}, None
        return {'tiles': tiles, 'in_rows': True}, self.rows_of(name, tiles)

    def cells_in(self, tile, sight):
        """The rows and columns of a tile's cells, all or those in sight."""
        of_tile = [range(TILE * place + 1, min(TILE * (place + 1), size) + 1) for place, size in zip(tile, self.size)]
        if sight is None:
            return of_tile
        return [seen[bisect_left(seen, places[0]):bisect_left(seen, places[-1] + 1)] for seen, places in zip(sight, of_tile)]

    def count_of(self, tiles, sight):
        return sum(len(rows) * len(columns) for rows, columns in (self.cells_in(tile, sight) for tile in tiles))

    def grid(self, name):
        """A layer's printed grid, or the reply that says why there is none."""
        text = self.ask(b'grid ' + name.encode())[0].text
        if text.startswith(b'ncols '):
            columns, rows = (int(line.split()[1]) for line in text.split(b'\n', 2)[:2])
            self.size = rows, columns
        return text

    def cells_of(self, wanted):
        """The replies that tell cells of layers, given as pairs of rows and columns, row by row. All are asked for at once."""
        texts = {name: b''.join(lines_for(name.encode(), *part) for part in parts) for name, parts in wanted.items()}
        text = b''.join(texts.values())
        replies = self.program.ask_for_lines(text, text.count(b'\n')) if text else b''
        answers, end = {}, len(replies)
        for name in reversed(texts):
            start = replies.index(b'value %b ' % name.encode()) if texts[name] else end
            answers[name], end = replies[start:end], start
        return answers

    def rows_of(self, name, tiles):
        """The rows in which tiles lie, whole, as the grid is printed: that is less work than cutting many tiles out."""
        rows = self.grid(name).split(b'\n')[HEADER:-1]
        return b'\n'.join(b'\n'.join(rows[TILE * row:TILE * (row + 1)]) for row in sorted({row for row, _ in tiles}))

    def printed(self, name):
        """A layer's grid for a page that saves it."""
        with self.turns:
            self.refuse_the_ended()
            return self.grid(name)

    def legend(self, name):
        """The first lines of a layer's legend, and how many more there are; nothing where the layer is undefined."""
        with self.turns:
            self.refuse_the_ended()
            lines = self.ask(b'legend ' + name.encode())[0].text.decode('latin-1').splitlines()
        rows = [row.split(' ', 3) for row in lines[1:MOST_LEGEND + 1]] if lines[0].startswith('legend ') else []
        return {'rows': rows, 'more': max(0, len(lines) - 1 - MOST_LEGEND)}

    # What is told without asking the program, also while it is at work

    def has_ended(self):
        return self.program.status() is not None

    def refuse_the_ended(self):
        if self.has_ended():
            raise NotSent('the program has ended')

    def state(self):
        status = self.program.status()
        return {'edits': self.edits, 'marks': self.marks, 'lines': len(self.entries), 'working': self.turns.is_taken(),
                'ended': ending(status), 'sources': self.names.sources, 'statements': self.names.statements,
                'dotted': self.names.dotted()}

    def since(self, first):
        """What a page is shown of the entries from a number on."""
        entries = self.entries[first:]
        return [entry.told(number) for number, entry in enumerate(entries, first)]

    def as_session(self):
        """The lines that were answered; their first line, a comment, says of which run they are."""
        lines = [entry.line for entry in self.entries if entry.is_answered]
        words = ' '.join(self.words).encode(errors='replace')[:WIDEST_COMMENT].replace(b'\n', b' ')
        return b''.join(line + b'\n' for line in [b'# pilepumice ' + words, *lines])

    def all_replies(self):
        return os.pread(self.replies.fileno(), self.written, 0)


def stamps_of(layer):
    return b'stamps ' + layer.encode()


def lines_for(name, rows, columns):
    """The lines that ask for a layer's cells in rows and columns, as one text."""
    ends = [b'%d\n' % column for column in columns]
    heads = [b'value %b %d ' % (name, row) for row in rows] if ends else []
    return b''.join(head + head.join(ends) for head in heads)


def later_than(since, rows):
    """The tiles, by row and column from 0, whose stamps in rows of text are later than an edit."""
    stamps = [list(map(int, row.split())) for row in rows]
    return [(row, column) for row, line in enumerate(stamps) if max(line) > since for column, stamp in enumerate(line) if stamp > since]


def ending(status):
    """How the program ended, in words; None while it runs."""
    if status is None:
        return None
    return f'the program ended with status {status}' if status >= 0 else f'the program was ended by signal {-status}'
