"""What may stand where the TAB key is pressed."""

import os
import re

from common.language import ITEMS, LINES, OPERATIONS, REQUESTS, RESERVED, item_of, words_with_columns

OWN_LINES = {  # the talk's own lines
    '.map': ('.map LAYER', 'draws a layer in colours'),
    '.save': ('.save LAYER FILE', 'writes its grid, and beside it the .prj of the first grid'),
    '.log': ('.log FILE', 'writes the accepted edits of the talk, as a session'),
    '.help': ('.help [WORD]', 'tells the lines of the language, or the form of a line or an operation'),
}
DELIMITERS = ' \t=(),;:'
BEFORE_A_TERM = ('of', 'and', 'in', 'on', 'within', 'carrying')


def files(beginning):
    """The files whose path begins so, folders with a slash."""
    folder = os.path.dirname(beginning)
    try:
        found = sorted(os.listdir(folder or '.'))
    except OSError:
        return []
    paths = (os.path.join(folder, name) for name in found)
    return [path + '/' if os.path.isdir(path) else path + ' ' for path in paths if path.startswith(beginning)]


def joining(operation):
    """The words of an operation's forms, such as `of` and `within`."""
    return list(dict.fromkeys(word for form in OPERATIONS[operation] for word in re.findall('[a-z]+', form.partition(' ')[2])))


def in_operation(words, layers):
    """What may follow within an operation, from its name on."""
    if len(words) == 1:
        return ['of']
    return layers if words[-1] in BEFORE_A_TERM else joining(words[0])


def terms(words, names):
    """The layers that a term may name: in a procedure's line, what the line itself has named."""
    if words[0] == 'procedure':
        return list(dict.fromkeys(word for word in words[2:] if word[0].isalpha() and word not in RESERVED))
    return names.layers()


def after(words, names):
    """The words that may come after these words of a line."""
    if not words:
        return [*LINES, *OWN_LINES, *names.layers()]
    first = words[0]
    if first == 'branch':
        item = item_of(words)
        return [*after(item, names), 'branch', 'end'] if item else [*ITEMS, *names.layers()]
    if '=' in words:
        body = words[len(words) - words[::-1].index('='):]
        if not body:
            return [*OPERATIONS, *(f'{name}(' for name in names.procedures)]
        return in_operation(body, terms(words, names)) if body[0] in OPERATIONS else terms(words, names)
    if first == '.help':
        return [*OPERATIONS, *LINES]
    if len(words) > (2 if first == 'table' else 1):
        return ['null'] if first == 'paint' and len(words) == 6 else []
    if first == 'paint':
        return names.sources
    if first == 'model':
        return ['1', '2']
    if first in ('drop', 'label', 'symbol'):
        return names.layers()
    if first in ('.map', '.save') or first in REQUESTS and first not in ('list', 'quit'):
        return names.layers()
    return ['='] if first in names.layers() else []


def candidates(line, text, names):
    """How the text that stands at the end of a line may go on."""
    words = [word for word, _ in words_with_columns(line[:len(line) - len(text)].encode())]
    if words[:1] == ['.log'] and len(words) == 1 or words[:1] == ['.save'] and len(words) == 2:
        return files(text)
    choice = names.dotted() if '.' in text[1:] else after(words, names)
    return [word if word.endswith('(') else word + ' ' for word in choice if word.startswith(text)]
