"""Replies of a session: which lines have one, and how many lines each has."""

import re

from common.language import REQUESTS, words_with_columns

WIDEST_LINE = 4096
BLANKS = b' \t'
SETTING = re.compile(rb'[ \t]*model[ \t]+\+?0*[12][ \t]*')  # sets the language, where its place is open
ASKING = [[word.encode()] for word in REQUESTS]
COUNTED = {'show': 2, 'legend': 2, 'stamps': 2, 'table': 3, 'list': 1}  # which word of the first line says how many follow
HEADER = 6  # lines of a printed grid's header
MARK = b'all_was_answered_up_to_this_line'  # a layer that isn't there: the reply to its request ends the replies before it
ASK_FOR_MARK = b'value ' + MARK + b' 1 1\n'


def is_mark(reply):
    return reply.startswith((b'undefined ' + MARK + b':', b'value ' + MARK + b' '))


def is_answered(line):
    """Whether a line of bytes has a reply: it isn't empty and no comment, or is too long to be either. One that sets the language has a reply
    only where it is refused, and `quit` has none."""
    words = line.lstrip(BLANKS)
    return len(line) > WIDEST_LINE or bool(words) and not words.startswith(b'#')


def sets_language(line):
    """Whether a line of bytes has no reply where it is accepted, as its first word tells."""
    return len(line.removesuffix(b'\r')) <= WIDEST_LINE and line.split()[:1] == [b'model']


def answered(lines):
    """The lines of bytes that have a reply, with their numbers from 1, where all edits but the last line's are accepted."""
    is_open = True
    for number, line in enumerate(lines, 1):
        if is_open and SETTING.fullmatch(line):
            is_open = False
        elif is_answered(line):
            yield number, line
            is_open = is_open and line.split()[:1] in ASKING


def length_of_branches(line):
    """How many lines the reply has to a line of branches that is accepted: one for each branch, and one for each item."""
    words = [word for word, _ in words_with_columns(line)]
    return 2 * words.count('branch') + words.count(';')


def length(lines, first, line=b''):
    """How many lines the reply has whose first line this is. Those of branches are told by the line of bytes that it answers; where that isn't
    given, each of them is taken for a reply."""
    words = lines[first].split()
    if words[:1] == ['branch'] and line:
        return length_of_branches(line)
    if words[:1] == ['ncols'] and first + 1 < len(lines):
        return HEADER + int(lines[first + 1].split()[1])
    if words and words[0] in COUNTED:
        return 1 + int(words[COUNTED[words[0]]])
    return 1


def paired(answered, lines):
    """Each answered line with its number, as above, and the lines of its reply, as long as there are any."""
    first = 0
    for number, line in answered:
        if first >= len(lines):
            return
        after = first + length(lines, first, line)
        yield number, line, lines[first:after]
        first = after


def split(lines):
    """The replies, each as its lines; ValueError or IndexError where these are none."""
    replies, first = [], 0
    while first < len(lines):
        after = first + length(lines, first)
        if after <= first:
            raise ValueError
        replies.append(lines[first:after])
        first = after
    return replies
