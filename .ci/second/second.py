#!/usr/bin/env python3
"""A second program for the language: the same words, sessions, replies and statuses as the program's.

It is written from the documents of the language alone, and never from the program's code or what it writes. So where
the two differ in a byte, one of them has read a document wrong, or a document is in doubt. It evaluates every statement
on whole grids after each edit and finds the counts by comparing whole layers, so it is slow and plain; it has no tiles,
workers, books or repairs. `sessions` compares the two over random sessions.

    second.py run WORKERS MODEL NAME=FILE {NAME=FILE} < SESSION
    second.py sample WORKERS N
"""

import io
import os
import re
import sys

sys.dont_write_bytecode = True
from grids import Extent, Refused, read_grid
from lines import is_plain, parse_line
from machine import Machine

FILE_LIMIT = 67_108_864
SESSION_LIMIT = 1_073_741_824
PIECE = 65_536
DONE, USAGE, LOAD, SHELF_FAULT, SOURCE_FAULT, SINK_FAULT, NO_MEMORY, TOO_LONG = 0, 2, 3, 4, 5, 6, 7, 8


class Ended(Exception):
    """The run ends with this status."""


def put(lines):
    left = memoryview(''.join(line + '\n' for line in lines).encode())
    try:
        while left:
            left = left[os.write(1, left):]
    except OSError:
        raise Ended(SINK_FAULT)


def cut(source):
    """The lines of a source, each with its length. Of a line that is too long only the end is kept."""
    taken, line, length = 0, b'', 0
    while True:
        try:
            piece = source.readline(min(PIECE, SESSION_LIMIT - taken))
        except OSError:
            raise Ended(SOURCE_FAULT)
        taken, length, line = taken + len(piece), length + len(piece), (line + piece)[-PIECE:]
        if piece.endswith(b'\n'):
            ending = 2 if line.endswith(b'\r\n') else 1
            yield line[:-ending], length - ending
            line, length = b'', 0
        if taken == SESSION_LIMIT:
            raise Ended(TOO_LONG)
        if not piece:
            break
    if line:
        yield line, length


def play(machine, lines, is_model=False):
    """-> the machine after the lines, up to a `quit`."""
    for line, length in lines:
        try:
            said = parse_line(line, length, machine.language, machine.is_open)
            if said == ('quit',):
                break
            if said is None:
                continue
            if said[0] == 'model':
                machine = machine.speaking(said[1])
            elif said[0] in ('value', 'grid', 'show', 'legend', 'table', 'stamps', 'list', 'branch'):
                put(machine.asked(*said))
            else:
                machine, reply = machine.edited(*said)
                put(reply)
        except Refused as refused:
            put([f'refused {refused}'])
            if is_model:
                raise Ended(LOAD)
    return machine


def fetch(name):
    """The bytes of a file, one more than the limit where there are more."""
    try:
        with open(name, 'rb') as file:
            return file.read(FILE_LIMIT + 1)
    except OSError:
        raise Ended(SHELF_FAULT)


def load(machine, name, data):
    """-> the machine after a load; the first one makes it."""
    try:
        if len(data) > FILE_LIMIT:
            raise Refused(f'long {FILE_LIMIT}')
        extent, header, cells = read_grid(data)
        machine = machine or Machine(extent, header)
        if (extent.rows, extent.columns) != (machine.extent.rows, machine.extent.columns):
            raise Refused(f'size {machine.extent.rows} {machine.extent.columns}')
        machine, reply = machine.edited('load', name, cells)
    except Refused as refused:
        put([f'refused load {name} {refused}'])
        raise Ended(LOAD)
    put(reply)
    return machine


def run(model, pairs):
    machine = None
    for name, file in pairs:
        machine = load(machine, name, fetch(file))
    if model != '-':
        data = fetch(model)
        if len(data) > FILE_LIMIT:
            put([f'refused model long {FILE_LIMIT}'])
            raise Ended(LOAD)
        machine = play(machine, cut(io.BytesIO(data)), is_model=True)
    play(machine, cut(sys.stdin.buffer))


STATEMENTS = '''G = IncrementalGradient of H
M = ZonalMean of G within Z
D = FocalProximity of S spreading in F within 100000
W = IncrementalDrainage of H carrying 1
R = FocalInsularity of Z
Q = FocalMaximum of H at 3
'''
LAYERS = {
    'H': lambda r, c: (7 * r * r + 11 * c * c + 3 * r * c) % 1000,
    'F': lambda r, c: 1 + (5 * r + 3 * c) % 9,
    'S': lambda r, c: 1 if (r - 1) % 100 == 0 and (c - 1) % 100 == 0 else None,
    'Z': lambda r, c: 1 + 16 * ((r - 1) // 128) + (c - 1) // 128,
}


def sample(size):
    machine = Machine(Extent(size, size), ['xllcorner 0', 'yllcorner 0', 'cellsize 1'])
    for name, cell in LAYERS.items():
        machine, reply = machine.edited('load', name, tuple(cell(1 + at // size, 1 + at % size) for at in range(size * size)))
        put(reply)
    lines = STATEMENTS
    for i in range(1, 51):
        r, c = 1 + 37 * i % size, 1 + 53 * i % size
        lines += f"paint {'F' if i % 2 else 'H'} {r} {c} {r} {c} {1 + i % 9}\n"
    play(machine, cut(io.BytesIO((lines + 'legend M\nquit\n').encode())))


def number(word, greatest):
    """The number that a word is, None where it is none from 1 on."""
    return int(word) if re.fullmatch('[1-9][0-9]{0,3}', word) and int(word) <= greatest else None


def start(words):
    """Runs the words, which are read by position."""
    if not all(word.isascii() or word.encode(errors='ignore').decode() == word for word in words):
        raise Ended(USAGE)
    form, workers, *rest = words + [''] * (2 - len(words))
    if number(workers, 64) and form == 'sample' and len(rest) == 1 and number(rest[0], 1224):
        return sample(number(rest[0], 1224))
    pairs = [word.partition('=')[::2] for word in rest[1:]]
    names = [name for name, _ in pairs]
    is_run = form == 'run' and number(workers, 64) and rest and rest[0] and 1 <= len(pairs) <= 32
    if not is_run or len(set(names)) < len(names) or not all(is_plain(name) and file for name, file in pairs):
        raise Ended(USAGE)
    run(rest[0], pairs)


def main(words):
    try:
        start(words)
    except Ended as ended:
        return ended.args[0]
    except MemoryError:
        return NO_MEMORY
    return DONE


if __name__ == '__main__':
    sys.exit(main(sys.argv[1:]))
