"""The lines of a session: words, grammar, first fault, and the canonical text of statements."""

import re
from collections import namedtuple

from grids import GREATEST, Refused

# An operation: the name that it is written with (`Sight` for FocalSum radiating, `Flow` for IncrementalDrainage
# carrying), its terms (names are texts, numbers are whole numbers), and what else is written; of a Local statistic
# that passes null over it is `nulls`.
Op = namedtuple('Op', 'kind terms extra')
Call = namedtuple('Call', 'procedure given')
Procedure = namedtuple('Procedure', 'name takes body')

STATISTICS = ('Sum', 'Maximum', 'Minimum', 'Mean', 'Median', 'Majority', 'Minority', 'Variety')
LOCAL = {'Local' + s for s in STATISTICS} | {'LocalProduct'}
FOCAL = {'Focal' + s for s in STATISTICS}
ZONAL = {'Zonal' + s for s in STATISTICS}
FORMS = {'Incremental' + s for s in ('Linkage', 'Length', 'Partition', 'Frontage', 'Gradient', 'Aspect')}
SPREADING = {'FocalProximity', 'FocalNeighbor'}
OPERATIONS = LOCAL | FOCAL | ZONAL | FORMS | SPREADING | {'LocalDifference', 'LocalRatio', 'LocalRating', 'FocalInsularity',
                                                          'IncrementalDrainage'}
RESERVED = OPERATIONS | set(
    'procedure paint new drop label symbol value grid show legend table stamps list quit result null of and with for to '
    'at within spreading radiating in on from carrying ignoring nulls model undo branch end'.split())
LONGEST_LINE = 4096
NUMBER = re.compile('[+-]?[0-9]+')
FORM = re.compile('[A-Za-z][A-Za-z0-9_]{0,31}')
ITEMS = ('paint', 'new', 'drop', 'value')  # first words of what a branch may do, beside statements
MOST_BRANCHES = 16


def is_plain(text):
    return bool(FORM.fullmatch(text)) and text not in RESERVED


def is_any(text):
    first, *later = text.split('.')
    return is_plain(first) and len(text) <= 1100 and all(is_plain(part) or part == 'result' for part in later)


class Words:
    """The words of a line from the left on. Each call takes the word that it names, or is refused there."""

    def __init__(self, line, language):
        self.line, self.language = line, language
        self.words = [(m[0], m.start() + 1) for m in re.finditer(r'[=(),;:]|[^ \t=(),;:]+', line)]
        self.words += [('', len(line) + 1)] * 2
        self.next = 0

    @property
    def text(self):
        return self.words[self.next][0]

    def refuse(self, kind='syntax'):
        raise Refused(f'{kind} {self.words[self.next][1]}')

    def take(self):
        self.next += 1
        return self.words[self.next - 1][0]

    def has(self, text):
        """Takes the word where it is this one."""
        found = self.text == text
        self.next += found
        return found

    def word(self, text):
        return self.take() if self.text == text else self.refuse()

    def name(self, fits=is_plain):
        return self.take() if fits(self.text) else self.refuse()

    def number(self, least=-GREATEST, greatest=GREATEST):
        if not NUMBER.fullmatch(self.text):
            self.refuse()
        if not least <= int(self.text) <= greatest:
            self.refuse('number')
        return int(self.take())

    def cell(self):
        if self.text == 'null':
            self.take()
            return None
        return self.number()

    def term(self, fits):
        return self.take() if fits(self.text) else self.number()

    def rest(self):
        """What stands after the words taken, from its first byte that isn't a blank on, and its column."""
        text, at = self.words[self.next - 1]
        after = self.line[at - 1 + len(text):]
        left = after.lstrip(' \t')
        return left.rstrip(' \t'), len(self.line) - len(left) + 1

    def end(self):
        if self.text:
            self.refuse()


def parse_call(words, fits):
    procedure = words.take()
    words.word('(')
    given = [words.term(fits)]
    while len(given) < 8 and words.has(','):
        given.append(words.term(fits))
    words.word(')')
    return Call(procedure, tuple(given))


def parse_rates(words):
    rates = []
    while len(rates) < 32 and (words.has('with') if rates else words.word('with')):
        give = words.cell()
        words.word('for')
        low = words.number()
        rates.append((give, low, words.number() if words.has('to') else low))
    return tuple(rates)


def parse_operation(words, fits):
    kind, extra = words.take(), None
    words.word('of')
    terms = [words.term(fits)]
    if kind in LOCAL | {'LocalDifference', 'LocalRatio'}:
        words.word('and')
        terms.append(words.term(fits))
        while kind in LOCAL and len(terms) < 8 and words.has('and'):
            terms.append(words.term(fits))
        if kind in LOCAL and words.language == 2 and words.has('ignoring'):
            extra = words.word('nulls')
    elif kind == 'LocalRating':
        extra = parse_rates(words)
    elif kind == 'FocalSum' and words.has('radiating'):
        words.word('on')
        kind = 'Sight'
        terms.append(words.term(fits))
        extra = (words.number() if words.has('from') else 0, words.number() if words.has('to') else 0,
                 words.number(1, 64) if words.has('within') else 64)
    elif kind in FOCAL:
        extra = words.number(1, 32) if words.has('at') else None
    elif kind in SPREADING:
        terms.append(words.word('in') and words.term(fits) if words.has('spreading') else 1)
        extra = words.number(0) if words.has('within') else GREATEST
    elif kind in ZONAL:
        words.word('within')
        terms.append(words.term(fits))
    elif kind == 'IncrementalDrainage' and words.has('carrying'):
        kind = 'Flow'
        terms.append(words.term(fits))
    return Op(kind, tuple(terms), extra)


def parse_body(words, fits=is_plain):
    """What stands after `=`; `fits` tells which names may be terms."""
    if words.text in OPERATIONS:
        return parse_operation(words, fits)
    is_called = words.words[words.next + 1][0] == '('
    if is_called and is_plain(words.text):
        return parse_call(words, fits)
    words.refuse('operation' if FORM.fullmatch(words.text) and not is_called else 'syntax')


def parse_procedure(words):
    name = words.name()
    words.word('(')
    takes = [words.name()]
    while len(takes) < 8 and words.has(','):
        takes.append(words.name(lambda word: is_plain(word) and word not in takes))
    words.word(')')
    words.word(':')
    known, body = set(takes), []
    while True:
        is_last = len(body) == 15
        inner = words.name(lambda word: word == 'result' or is_plain(word) and word not in known and not is_last)
        words.word('=')
        body.append((inner, parse_body(words, lambda word: word in known)))
        if inner == 'result':
            return Procedure(name, tuple(takes), tuple(body))
        words.word(';')
        known.add(inner)


def parse_mark(words, kind):
    """A label's or a symbol's line, whose text is no words."""
    name, value = words.name(), words.number()
    text, at = words.rest()
    if not text:
        raise Refused(f'syntax {len(words.line) + 1}')
    if kind == 'label' and len(text) > 64:
        raise Refused(f'syntax {at + 64}')
    if kind == 'symbol' and len(text) > 1:
        raise Refused(f"syntax {at + len(text) - len(text[1:].lstrip(' ' + chr(9)))}")
    return kind, name, value, text


def parse_item(words):
    return parse_words(words, is_open=False) if is_plain(words.text) or words.text in ITEMS else words.refuse()


def parse_branches(words):
    """-> for each branch its items, each what a line of its own would say."""
    branches = []
    while not words.has('end'):
        if len(branches) == MOST_BRANCHES:
            words.refuse()
        words.word('branch')
        items = [parse_item(words)]
        while words.has(';'):
            items.append(parse_item(words))
        branches.append(items)
    return branches


def parse_words(words, is_open):
    first = words.text
    if is_plain(first):
        name = words.take()
        words.word('=')
        return 'define', name, parse_body(words)
    if first == 'model' and is_open:
        return words.take(), words.number(1, 2)
    if first == 'branch':
        return first, parse_branches(words)
    if first not in ('procedure', 'paint', 'new', 'drop', 'undo', 'value', 'grid', 'show', 'legend', 'table', 'stamps', 'list', 'quit'):
        words.refuse()
    words.take()
    if first == 'procedure':
        return first, parse_procedure(words)
    if first == 'paint':
        return first, words.name(), *(words.number(1, 4096) for _ in range(4)), words.cell()
    if first == 'new':
        return first, words.name(), words.cell()
    if first == 'drop':
        return first, words.name()
    if first == 'value':
        return first, words.name(is_any), words.number(1, 4096), words.number(1, 4096)
    if first == 'table':
        return first, words.name(is_any), words.name(is_any)
    return (first,) if first in ('undo', 'list', 'quit') else (first, words.name(is_any))


def parse_line(line, length, language, is_open):
    """-> what the line says, a tuple that begins with its kind; None for a blank line. Refused at its first fault. Given
    are the language of the line and whether the place of a `model` line is open."""
    if length > LONGEST_LINE:
        raise Refused(f'long {length}')
    if line.lstrip(b' \t')[:1] in (b'', b'#'):
        return None
    for at, byte in enumerate(line, 1):
        if byte != 9 and not 0x20 <= byte <= 0x7E:
            raise Refused(f'syntax {at}')
    words = Words(line.decode(), language)
    if words.text in ('label', 'symbol'):
        return parse_mark(words, words.take())
    said = parse_words(words, is_open)
    words.end()
    return said


def print_body(written):
    if isinstance(written, Call):
        return f"{written.procedure}({', '.join(map(str, written.given))})"
    kind, terms, extra = written
    first, last = terms[0], terms[-1]
    if kind == 'LocalRating':
        rates = [f" with {'null' if give is None else give} for {low}" + (f' to {high}' if high != low else '')
                 for give, low, high in extra]
        return f"{kind} of {first}{''.join(rates)}"
    if kind == 'Sight':
        parts = [f' {word} {value}' for word, value, default in zip(('from', 'to', 'within'), extra, (0, 0, 64))
                 if value != default]
        return f"FocalSum of {first} radiating on {last}{''.join(parts)}"
    if kind in SPREADING:
        spreading = f' spreading in {last}' if last != 1 else ''
        return f'{kind} of {first}{spreading}' + (f' within {extra}' if extra != GREATEST else '')
    if kind == 'Flow':
        return f'IncrementalDrainage of {first} carrying {last}'
    if kind in ZONAL:
        return f'{kind} of {first} within {last}'
    if kind in FOCAL and extra is not None:
        return f'{kind} of {first} at {extra}'
    return f"{kind} of {' and '.join(map(str, terms))}" + (' ignoring nulls' if extra == 'nulls' else '')


def print_procedure(procedure):
    inner = '; '.join(f'{name} = {print_body(written)}' for name, written in procedure.body)
    return f"procedure {procedure.name}({', '.join(procedure.takes)}): {inner}"
