"""The map machine: sources, procedures, statements, labels, symbols and stamps; every edit evaluates all anew, and may be taken back."""

from collections import Counter, namedtuple

from grids import GREATEST, Refused, print_grid
from lines import Call, Op, ZONAL, print_body, print_procedure
from operations import MOST_VIEWERS, damage, differing, layer_of, remade, work

MOST = {'sources': 32, 'statements': 64, 'zonals': 12, 'neighbors': 8, 'labels': 4096, 'symbols': 4096, 'procedures': 32}
MOST_KEPT = 64
LAST_NUMBER = 2 ** 64 - 1
PARTS = ('procedures', 'names', 'sources', 'labels', 'symbols')  # what edits change; layers and stamps follow from it

# What an edit touches: a name, None where no layer is touched, and places of its grid, None for all that stands for the name.
Touch = namedtuple('Touch', 'name places')
NOTHING = Touch(None, None)
# An edit that can be taken back: the parts as they were before it, in the order of PARTS, and what it touched.
Kept = namedtuple('Kept', 'parts touch')


class Machine:
    def __init__(self, extent, header):
        self.extent, self.header, self.number = extent, header, 0
        self.language, self.is_open = 1, True  # of the next line, and whether that may be a `model` line
        self.procedures = {}  # in order of definition
        self.names = {}       # what is written under a name, None for a source; in order of first definition
        self.sources = {}
        self.labels, self.symbols = {}, {}  # by name and value
        self.layers, self.stamps = {}, {}   # of what is defined
        self.kept = ()  # the edits that can be taken back, the newest last

    def copy(self):
        other = Machine(self.extent, self.header)
        other.number, other.language, other.is_open, other.kept = self.number, self.language, self.is_open, self.kept
        for part in (*PARTS, 'layers', 'stamps'):
            setattr(other, part, dict(getattr(self, part)))
        return other

    def speaking(self, language):
        """The machine after a `model` line."""
        after = self.copy()
        after.language, after.is_open = language, False
        return after

    # Statements

    def check_call(self, written, procedures):
        if isinstance(written, Call):
            if written.procedure not in procedures:
                raise Refused(f'procedure {written.procedure}')
            wanted = len(procedures[written.procedure].takes)
            if len(written.given) != wanted:
                raise Refused(f'count {len(written.given)} {wanted}')

    def flat_count(self, written):
        """How many flat statements a written one has; found before they are made, since they may be very many."""
        sizes = {}
        for name, procedure in self.procedures.items():
            sizes[name] = sum(sizes[inner.procedure] if isinstance(inner, Call) else 1 for _, inner in procedure.body)
        return sizes[written.procedure] if isinstance(written, Call) else 1

    def expand(self, name, prefix, written):
        """-> the flat statements (name, operation) in order, the one of the name last."""
        if isinstance(written, Op):
            return [(name, written)]
        procedure = self.procedures[written.procedure]
        stands_for, flat = dict(zip(procedure.takes, written.given)), []
        for inner, body in procedure.body:
            new = name if inner == 'result' else f'{prefix}.{inner}'
            terms = tuple(stands_for.get(term, term) for term in (body.given if isinstance(body, Call) else body.terms))
            body = body._replace(given=terms) if isinstance(body, Call) else body._replace(terms=terms)
            flat += self.expand(new, f'{prefix}.result' if inner == 'result' else new, body)
            stands_for[inner] = new
        return flat

    def flats(self):
        """All flat statements by place."""
        return [flat for name, written in self.names.items() if written is not None for flat in self.expand(name, name, written)]

    def depths(self, operators):
        depths = {}

        def depth(name):
            if name not in depths:
                needs = [term for term in operators[name].terms if isinstance(term, str)] if name in operators else []
                depths[name] = 1 + max(map(depth, needs), default=0) if name in operators else 0
            return depths[name]
        return {name: depth(name) for name in operators}

    def missing(self, name):
        """The first missing name of a name that isn't defined."""
        operators = dict(self.flats())
        while name in operators:
            name = next(term for term in operators[name].terms if isinstance(term, str) and term not in self.layers)
        return name

    def is_cycle(self, name):
        operators, reached, left = dict(self.flats()), set(), [name]
        while left:
            op = operators.get(left.pop())
            new = {term for term in op.terms if isinstance(term, str)} - reached if op else set()
            reached |= new
            left += new
        return name in reached

    def operands(self, op):
        """The grids of an operation's terms; None where one is undefined."""
        grids = tuple(self.layers.get(term) if isinstance(term, str) else (term,) * self.extent.count for term in op.terms)
        return None if None in grids else grids

    def evaluate(self):
        """Makes all layers anew, from the sources alone. Refused at the first fault by depth, then place."""
        self.layers = dict(self.sources)
        flats = self.flats()
        depths = self.depths(dict(flats))
        for name, op in sorted(flats, key=lambda flat: depths[flat[0]]):
            operands = self.operands(op)
            if operands is None:
                continue
            if op.kind == 'Sight':
                count = sum(cell is not None for cell in operands[0])
                if count > MOST_VIEWERS:
                    raise Refused(f'viewers {name} {count}')
            layer = layer_of(self.extent, op, operands)
            for at, cell in enumerate(layer):
                if cell is not None and abs(cell) > GREATEST:
                    row, column = divmod(at, self.extent.columns)
                    raise Refused(f'overflow {name} {row + 1} {column + 1}')
            self.layers[name] = layer

    # Edits. Each changes a copy of the machine and tells what it touches, or is refused.

    def limit(self, what, count):
        if count > MOST[what]:
            raise Refused(f'limit {what}')

    def put_source(self, name, cells):
        if name in self.names:
            raise Refused(f'exists {name}')
        self.names[name], self.sources[name] = None, cells
        self.limit('sources', len(self.sources))
        return Touch(name, None)

    def paint(self, name, top, left, bottom, right, cell):
        if name not in self.names:
            raise Refused(f'unknown {name}')
        if name not in self.sources:
            raise Refused(f'derived {name}')
        rows, columns = self.extent.rows, self.extent.columns
        if top > bottom or left > right or bottom > rows or right > columns:
            raise Refused(f'size {rows} {columns}')
        cells = list(self.sources[name])
        painted = [self.extent.place(r, c) for r in range(top - 1, bottom) for c in range(left - 1, right)]
        for at in painted:
            cells[at] = cell
        self.sources[name] = tuple(cells)
        return Touch(name, painted)

    def drop(self, name):
        if name not in self.names:
            raise Refused(f'unknown {name}')
        del self.names[name]
        self.sources.pop(name, None)
        for marks in (self.labels, self.symbols):
            for key in [key for key in marks if key[0] == name]:
                del marks[key]
        return Touch(name, None)

    def mark(self, kind, name, value, text):
        if name not in self.names:
            raise Refused(f'unknown {name}')
        marks = self.labels if kind == 'label' else self.symbols
        marks[name, value] = text
        self.limit(kind + 's', len(marks))
        return NOTHING

    def put_procedure(self, procedure):
        if procedure.name in self.procedures:
            raise Refused(f'exists {procedure.name}')
        for _, written in procedure.body:
            self.check_call(written, self.procedures)
        self.procedures[procedure.name] = procedure
        self.limit('procedures', len(self.procedures))
        return NOTHING

    def define(self, name, written):
        if name in self.sources:
            raise Refused(f'exists {name}')
        self.check_call(written, self.procedures)
        others = {other: kept for other, kept in self.names.items() if other != name and kept is not None}
        self.limit('statements', self.flat_count(written) + sum(map(self.flat_count, others.values())))
        self.names[name] = written
        flats = self.flats()
        self.limit('zonals', sum(op.kind in ZONAL for _, op in flats))
        self.limit('neighbors', sum(op.kind == 'FocalNeighbor' for _, op in flats))
        if self.is_cycle(name):
            raise Refused(f'cycle {name}')
        return Touch(name, None)

    def undo(self):
        """Puts the parts back as they were before the newest edit that is kept. It touches what that edit touched."""
        if not self.kept:
            raise Refused('nothing')
        *before, newest = self.kept
        self.kept = tuple(before)
        for part, was in zip(PARTS, newest.parts):
            setattr(self, part, dict(was))
        return newest.touch

    def keep(self, before, touch):
        """Keeps an edit of a machine, so that it can be taken back."""
        kept = Kept(tuple(getattr(before, part) for part in PARTS), touch)
        self.kept = (*before.kept, kept)[-MOST_KEPT:]

    def standing(self, touch):
        """What is touched, as it stands after the edit: the flat statements, and the places of a source."""
        if touch.name in self.sources:
            return (), {touch.name: range(self.extent.count) if touch.places is None else touch.places}
        written = self.names.get(touch.name)
        return {flat for flat, _ in self.expand(touch.name, touch.name, written)} if written else (), {}

    def count(self, before, written, painted):
        """The changed tiles, the damage and the work, over all that is defined now; sets the stamps."""
        extent, operators, total = self.extent, dict(self.flats()), Counter()
        everywhere = range(extent.count)
        stamps, self.stamps = self.stamps, {}
        for name, layer in self.layers.items():
            old = before.layers.get(name)
            changed = set(everywhere) if old is None else differing(old, layer)
            tiles = extent.tiles_near(changed, 0)
            kept = stamps.get(name, [0] * extent.tile_rows * extent.tile_columns)
            self.stamps[name] = [self.number if tile in tiles else stamp for tile, stamp in enumerate(kept)]
            total['changed'] += len(tiles)
            if name in self.sources:
                total['evaluated'] += len(extent.tiles_near(painted.get(name, ()), 0))
                continue
            op = operators[name]
            now = self.operands(op)
            if name in written or old is None:
                touched, tiles = set(everywhere), extent.tiles_near(everywhere, 0)
                changed = {at for at in everywhere if layer[at] is not None}
            else:
                was = before.operands(op)
                touched = set().union(*map(differing, was, now))
                changed = remade(extent, op, changed, was, now)
                tiles = damage(extent, op, touched, changed, was, now)
            total['evaluated'] += len(tiles)
            total['worked'] += work(extent, op, touched, changed, layer)
        return total['changed'], total['evaluated'], total['worked']

    def change(self, kind, *parts):
        """Does an edit, evaluation apart. -> what it touches."""
        if kind == 'new':
            return self.put_source(parts[0], parts[1:] * self.extent.count)
        if kind in ('label', 'symbol'):
            return self.mark(kind, *parts)
        edits = {'load': self.put_source, 'paint': self.paint, 'drop': self.drop, 'procedure': self.put_procedure, 'define': self.define,
                 'undo': self.undo}
        return edits[kind](*parts)

    def edited(self, kind, *parts):
        """-> the machine after an edit, and the reply. Refused where the edit is."""
        after = self.copy()
        touch = after.change(kind, *parts)
        if kind == 'load':
            after.kept = ()
        elif kind != 'undo':
            after.keep(self, touch)
        after.evaluate()
        after.number = min(self.number + 1, LAST_NUMBER)
        after.is_open = self.is_open and kind == 'load'
        changed, evaluated, worked = after.count(self, *after.standing(touch))
        return after, [f'ok {after.number} changed {changed} evaluated {evaluated} worked {worked}']

    # Requests

    def sign(self, name, value):
        if value is None:
            return '.'
        plain = '*' if value > 9 else '-' if value < 0 else str(value)
        return self.symbols.get((name, value), plain)

    def legend(self, name):
        counts = Counter(self.layers[name])
        lines = [f'legend {name} {len(counts)}']
        for value in sorted(counts, key=ascending):
            label = self.labels.get((name, value))
            lines.append(f'{shown(value)} {counts[value]} {self.sign(name, value)}' + (f' {label}' if label else ''))
        return lines

    def table(self, zones, values):
        counts = Counter(zip(self.layers[zones], self.layers[values]))
        pairs = sorted(counts, key=lambda pair: (ascending(pair[0]), ascending(pair[1])))
        return [f'table {zones} {values} {len(pairs)}'] + [f'{shown(z)} {shown(v)} {counts[z, v]}' for z, v in pairs]

    def list(self):
        lines = [print_procedure(procedure) for procedure in self.procedures.values()]
        for name, written in self.names.items():
            lines.append(f'source {name}' if written is None else f'{name} = {print_body(written)}')
        return [f'list {len(lines)}'] + lines

    def branched(self, branches):
        """What each branch tells: its items as they were lines, from this machine on, which stays as it is."""
        lines = []
        for number, items in enumerate(branches, 1):
            lines.append(f'branch {number}')
            tried = self
            for item in items:
                try:
                    tried, reply = (tried, tried.asked(*item)) if item[0] == 'value' else tried.edited(*item)
                except Refused as refused:
                    reply = [f'refused {refused}']
                lines += reply
        return lines

    def asked(self, kind, *parts):
        """The lines of the reply to a request."""
        if kind == 'list':
            return self.list()
        if kind == 'branch':
            return self.branched(*parts)
        for name in parts if kind == 'table' else parts[:1]:
            if name not in self.layers:
                return [f'undefined {name}: {self.missing(name)}']
        if kind in ('legend', 'table'):
            return getattr(self, kind)(*parts)
        name, extent = parts[0], self.extent
        layer = self.layers[name]
        if kind == 'grid':
            return print_grid(extent, self.header, layer)
        if kind == 'value':
            at = extent.place(parts[1] - 1, parts[2] - 1)
            return [f"value {name} {parts[1]} {parts[2]} {'outside' if at is None else shown(layer[at])}"]
        if kind == 'show':
            signs, width = ''.join(self.sign(name, cell) for cell in layer), extent.columns
            return [f'show {name} {extent.rows} {width}'] + [signs[k:k + width] for k in range(0, extent.count, width)]
        texts, width = [str(stamp) for stamp in self.stamps[name]], extent.tile_columns
        return [f'stamps {name} {extent.tile_rows} {width}'] + [' '.join(texts[k:k + width]) for k in range(0, len(texts), width)]


def shown(cell):
    return 'null' if cell is None else str(cell)


def ascending(cell):
    """The order of cells in displays: null first."""
    return (cell is not None, cell or 0)
