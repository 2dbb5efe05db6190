"""The words of the language, the forms of its lines and operations, and what its refusals say, in sentences."""

import difflib
import re

STATISTICS = ('Sum', 'Maximum', 'Minimum', 'Mean', 'Median', 'Majority', 'Minority', 'Variety')
SHAPES = ('Linkage', 'Length', 'Partition', 'Frontage', 'Gradient', 'Aspect')
OPERATIONS = {
    **{f'Local{it}': [f'Local{it} of TERM and TERM {{and TERM}} [ignoring nulls]'] for it in (*STATISTICS, 'Product')},
    'LocalDifference': ['LocalDifference of TERM and TERM'],
    'LocalRatio': ['LocalRatio of TERM and TERM'],
    'LocalRating': ['LocalRating of TERM with CELL for NUMBER [to NUMBER] {with CELL for NUMBER [to NUMBER]}'],
    **{f'Focal{it}': [f'Focal{it} of TERM [at RADIUS]'] for it in STATISTICS},
    'FocalProximity': ['FocalProximity of PLACES [spreading in FRICTION] [within LIMIT]'],
    'FocalNeighbor': ['FocalNeighbor of PLACES [spreading in FRICTION] [within LIMIT]'],
    'FocalInsularity': ['FocalInsularity of TERM'],
    **{f'Zonal{it}': [f'Zonal{it} of TERM within ZONES'] for it in STATISTICS},
    **{f'Incremental{it}': [f'Incremental{it} of TERM'] for it in SHAPES},
    'IncrementalDrainage': ['IncrementalDrainage of HEIGHTS [carrying WEIGHTS]'],
}
OPERATIONS['FocalSum'].append('FocalSum of VIEWERS radiating on HEIGHTS [from NUMBER] [to NUMBER] [within REACH]')
REQUESTS = {
    'value': 'value NAME ROW COL', 'grid': 'grid NAME', 'show': 'show NAME', 'legend': 'legend NAME',
    'table': 'table ZONES VALUES', 'stamps': 'stamps NAME', 'list': 'list', 'quit': 'quit',
    'branch': 'branch ITEM {; ITEM} {branch ITEM {; ITEM}} end, an ITEM being a statement, paint, new, drop or value',
}
EDITS = {
    'paint': 'paint NAME ROW COL ROW COL CELL', 'new': 'new NAME CELL', 'drop': 'drop NAME', 'label': 'label NAME NUMBER TEXT',
    'symbol': 'symbol NAME NUMBER SIGN', 'undo': 'undo', 'procedure': 'procedure NAME(NAME, ..): NAME = OPERATION; ..; result = OPERATION',
}
LINES = {**EDITS, **REQUESTS, 'model': 'model VERSION'}
DEFINITIONS = ('NAME = OPERATION', 'NAME = PROCEDURE(TERM, ..)')
RESERVED = {*OPERATIONS, *LINES, *'''result null of and with for to at within spreading radiating in on from carrying
    ignoring nulls end'''.split()}
ITEMS = ('paint', 'new', 'drop', 'value')  # first words of what a branch may do, beside statements
MOST_BRANCHES = 16
WORD = re.compile(r'[=(),;:]|[^ \t=(),;:]+')
NAME = re.compile('[A-Za-z][A-Za-z0-9_]{0,31}')
KIND = re.compile('^(local|focal|zonal|incremental)')
DECIMAL = re.compile(r'[+-]?([0-9]+\.[0-9]*|\.[0-9]+)')

CELLS = 'a cell is a number from -1000000000000000 to 1000000000000000, or null'
LANGUAGES = 'the language is 1 or 2'
TOO_MANY_BRANCHES = f'a line has at most {MOST_BRANCHES} branches'
LATE_MODEL = 'a line that sets the language stands before the first edit, and only once'
OF_LANGUAGE_2 = 'ignoring nulls is of language 2, for which the line model 2 stands before the first edit'
RANGES = {'at': 'a radius is 1 to 32', 'within': 'the reach of a view is 1 to 64, the limit of a way 0 to 1000000000000000'}
TEXTS = {'label': "a label's text has at most 64 bytes", 'symbol': 'a symbol is one byte'}
LIMITS = {
    'sources': '32 layers that are loaded or made by new', 'statements': '64 statements, those of calls included',
    'zonals': '12 Zonal statements', 'neighbors': '8 statements of FocalNeighbor', 'procedures': '32 procedures',
    'labels': '4096 labels', 'symbols': '4096 symbols',
}
SENTENCES = {
    'long': 'the line has {0} bytes, and at most 4096 can be',
    'derived': "{0} is a statement's layer: paint what it reads",
    'count': 'terms that are given: {0}; that the procedure takes: {1}',
    'size': 'the map has {0} rows and {1} columns; the first corner of a rectangle lies above and to the left of the second',
    'cycle': '{0} would read its own layer',
    'nothing': 'no edit is left to take back: the newest 64 can be, and loads stay',
    'viewers': '{0} would have {1} viewers, and at most 64 can be',
    'overflow': '{0} would be beyond 1000000000000000 in row {1}, column {2}',
}
LOADS = {
    'key': 'at byte {0} stands no key of a grid header, or one that was there before, or a key is missing (cells that are not square have dx and dy)',
    'number': 'at byte {0} a value of the header is missing or not of its form (NODATA_value must be a whole number)',
    'limits': '{0} rows and {1} columns are beyond 4096 each, or 1500000 cells',
    'cell': 'cell {0} is no whole number', 'range': 'cell {0} is beyond 1000000000000000 and is not the NODATA_value',
    'few': 'there are {0} cells, and the header says {1}', 'more': 'at byte {0}, after the last cell, stands something more',
    'size': 'the first grid has {0} rows and {1} columns, and this one others', 'long': 'the file has more than {0} bytes',
}


def is_name(text):
    return bool(NAME.fullmatch(text)) and text not in RESERVED


def nearest(word, among, least=0.6):
    """The name that is most like a word, whatever its letter case, and by `least` at the least; None where none is. Before all others come those
    that are the same but for Local, Focal, Zonal or Incremental, and then those that begin with the word."""
    among, word = list(among), word.lower()
    lower = [name.lower() for name in among]
    rest = KIND.sub('', word)
    alike = [name for name in lower if KIND.sub('', name) == rest] or [name for name in lower if len(rest) > 2 and name.startswith(word)]
    found = difflib.get_close_matches(word, alike, 1, 0) or difflib.get_close_matches(word, lower, 1, least)
    return among[lower.index(found[0])] if found else None


def or_nearest(text, word, among, least=0.6):
    close = nearest(word, among, least)
    return f'{text}; did you mean {close}?' if close else text


class Names:
    """What a session has, as `list` tells it: layers, which of them can be painted, and procedures."""

    def __init__(self, lines=()):
        self.sources, self.statements, self.procedures = [], {}, {}
        for line in lines:
            if line.startswith('procedure '):
                head, _, body = line[len('procedure '):].partition(': ')
                self.procedures[head.split('(')[0]] = head, body
            elif ' = ' in line:  # also `source = ..`, since that is no word of the language
                name, _, body = line.partition(' = ')
                self.statements[name] = body
            elif line.startswith('source '):
                self.sources.append(line.split()[1])

    def layers(self):
        return [*self.sources, *self.statements]

    def inner(self, body):
        """The names within a call, such as `rise`, and `steep.rise` of a call within it."""
        found = re.match(r'(\w+)\(', body)
        if not found or found[1] not in self.procedures:
            return
        for statement in self.procedures[found[1]][1].split('; '):
            name, _, its_body = statement.partition(' = ')
            if name != 'result':
                yield name
            yield from (f'{name}.{below}' for below in self.inner(its_body))

    def dotted(self):
        return [f'{name}.{below}' for name, body in self.statements.items() for below in self.inner(body)]


def words_with_columns(line):
    """The words of a line of bytes, with their columns from 1."""
    text = line.decode('latin-1')
    return [(found[0], found.start() + 1) for found in WORD.finditer(text)]


def item_of(words):
    """Of words that begin a line of branches, those of the last item; else all of them."""
    if words[:1] != ['branch']:
        return words
    return words[1 + max(place for place, word in enumerate(words) if word in ('branch', ';')):]


def forms_at(words, names):
    """The forms that hold where these words of a line stand: of the operation, the procedure or the line that they are part of."""
    is_branch, words = words[:1] == ['branch'], item_of(words)
    is_over = 'end' in (words[:-1] or words)
    if is_branch and (not words or is_over or words[0] in LINES and words[0] not in ITEMS):
        return [LINES['branch']]
    called = [word for before, word in zip(words, words[1:]) if before == '=']
    if called and called[-1] in OPERATIONS:
        return OPERATIONS[called[-1]]
    if called and called[-1] in names.procedures:
        return [names.procedures[called[-1]][0]]
    if words and words[0] in LINES and not called:
        return [LINES[words[0]]]
    return list(DEFINITIONS)


def explain_place(kind, at, line, names):
    """What is wrong at a column of a line of bytes."""
    words = words_with_columns(line)
    before = [word for word, column in words if column < at]
    here = next((word for word, column in words if column == at), '')
    is_branch = before[:1] == ['branch']
    forms = '   or   '.join(forms_at(before + [here] if here else before[:1] if is_branch else before, names))
    if kind == 'operation':
        return or_nearest(f'{here} is no operation', here, [*OPERATIONS, *names.procedures], 0.8)
    if kind == 'number':
        return explain_number(item_of(before))
    if at <= len(line) and not 0x20 <= line[at - 1] <= 0x7E:
        return 'lines are plain ASCII, without accents and signs beyond it'
    if not line[at - 1:].strip(b' \t'):
        return f'the line ends too early: {forms}'
    if len(before) > 3 and before[0] in TEXTS:
        return TEXTS[before[0]]
    if here == 'model' and not before:
        return LATE_MODEL
    if here == 'branch' and before.count(here) == MOST_BRANCHES:
        return TOO_MANY_BRANCHES
    if here == 'ignoring' and before[-2:-1] == ['and'] and here in forms:
        return OF_LANGUAGE_2
    if here in RESERVED and (not before or before[-1] in ('new', 'procedure', '=', 'of', 'and', 'in', 'on', 'within', 'carrying', ',', '(')):
        return f"{here} is a word of the language, and can't be a name"
    why = ', as numbers are whole' if DECIMAL.fullmatch(here) else ''
    return f"{here or 'this'} can't stand here{why}: {forms}"


def explain_number(before):
    operation = next((word for word in reversed(before) if word in OPERATIONS), '')
    if before[-1] in RANGES and not operation.startswith('Zonal'):  # whose `within` has zones behind it
        return RANGES[before[-1]]
    if before[0] == 'value' or before[0] == 'paint' and len(before) < 6:
        return 'rows and columns are 1 to 4096'
    if before[0] == 'model':
        return LANGUAGES
    return CELLS if '=' in before or before[0] in EDITS else 'the number is out of its range'


def explain_load(words):
    """A refused load, from `load NAME KIND ..`."""
    _, name, kind, *rest = words
    if kind in LOADS:
        return f'the grid of {name}: ' + LOADS[kind].format(*rest, '', '') + ' (docs/GUIDE.md, "From and to other programs")'
    return explain_edit(words[2:], Names()) or f'the grid of {name} was refused'


def explain_edit(words, names):
    """A refused edit, from its cause on; None where nothing is known of the cause."""
    kind, *rest = words
    name = rest[0] if rest else ''
    if kind == 'unknown':
        return or_nearest(f'there is no layer {name}', name, names.layers())
    if kind == 'procedure':
        return or_nearest(f'there is no procedure {name}', name, names.procedures)
    if kind == 'exists':
        return f'the name {name} is taken' + (': it can be painted, or dropped first' if name in names.sources else '')
    if kind == 'limit' and name in LIMITS:
        return f'there can be at most {LIMITS[name]}'
    if kind == 'model':
        return 'the model file has more than 67108864 bytes'
    return SENTENCES[kind].format(*rest, '', '', '') if kind in SENTENCES else None


def explain_undefined(words, names):
    """An undefined layer, from `undefined NAME: MISSING`."""
    name, missing = words[1].rstrip(':'), words[2]
    text = f'there is no layer {missing}' + ('' if name == missing else f', which {name} needs')
    return or_nearest(text, missing, [it for it in names.layers() + names.dotted() if it != name])


def refused_column(reply):
    """The column of a refusal that has one."""
    words = reply.split()
    return int(words[2]) if words[:1] == ['refused'] and words[1] in ('syntax', 'operation', 'number') else None


def explain(reply, line, names):
    """A sentence on the first line of a reply to a line of bytes; None where there is nothing to explain."""
    words = reply.split()
    if words[:1] == ['undefined']:
        return explain_undefined(words, names)
    if words[:1] != ['refused']:
        return None
    if refused_column(reply):
        return explain_place(words[1], refused_column(reply), line, names)
    if words[1] == 'load':
        return explain_load(words[1:])
    return explain_edit(words[1:], names)
