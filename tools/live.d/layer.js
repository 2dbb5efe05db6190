// A layer's cells, as the program told them, and how they are coloured. Cells are numbers of 64 bits with a point, which hold each of the
// program's exactly.

export const TILE = 32;
export const NULL = -1_000_000_000_000_001; // as the program prints it
const HEADER = 6; // lines before a printed grid's cells
const MOST_CLASSES = 12;
const MOST_TABLED = 1 << 20; // values between the least and the greatest for which colours are kept in a table

let look; // the colours that all tools have

export const useLook = (given) => { look = given; };

const [SPACE, MINUS, ZERO, NINE, LETTER_N, LINE_FEED] = [32, 45, 48, 57, 110, 10];

// The number that begins at a place of a text of bytes, or `null`.
function numberAt(text, place) {
  const isNegative = text[place] === MINUS;
  if (text[place] === LETTER_N) return NULL;
  let number = 0;
  for (let next = isNegative ? place + 1 : place; text[next] >= ZERO && text[next] <= NINE; next++) number = number * 10 + text[next] - ZERO;
  return isNegative ? -number : number;
}

// So many numbers of a printed grid's rows, from a place of a text of bytes on.
function numbersOfRows(text, place, count) {
  const numbers = new Float64Array(count);
  for (let index = 0; index < count; index++) {
    while (text[place] <= SPACE) place++;
    if (place >= text.length) throw new Error('a text has too few cells');
    numbers[index] = numberAt(text, place);
    while (text[place] > SPACE) place++;
  }
  return numbers;
}

// The last words of replies to `value` lines, of which there are so many.
function numbersOfReplies(text, count) {
  const numbers = new Float64Array(count);
  let end = text.length - 1;
  for (let index = count - 1; index >= 0; index--) {
    if (end < 0) throw new Error('there are too few replies');
    let place = end;
    while (text[place - 1] > SPACE) place--;
    numbers[index] = numberAt(text, place);
    do place--; while (place >= 0 && text[place] !== LINE_FEED);
    end = place;
  }
  return numbers;
}

function headerOf(text) {
  let place = 0;
  for (let line = 0; line < HEADER; line++) place = text.indexOf(LINE_FEED, place) + 1;
  const words = new TextDecoder().decode(text.subarray(0, place)).split(/\s+/);
  return {columns: Number(words[1]), rows: Number(words[3]), place};
}

// The colour between stops; the same sums as the other tools', so that the same cells have the same colours.
function between(stops, value) {
  const after = stops.findIndex(([place]) => place > value);
  if (after === 0) return stops[0][1];
  if (after < 0) return stops[stops.length - 1][1];
  const [[low, first], [high, second]] = [stops[after - 1], stops[after]];
  const share = (value - low) / (high - low);
  return first.map((part, index) => Math.floor(part + (second[index] - part) * share + 0.5));
}

const packed = ([red, green, blue]) => (255 << 24 | blue << 16 | green << 8 | red) >>> 0;

// The colours of values as numbers of four bytes, each worked out where it is met first; null is clear.
function inkOf(colourOf, low, high) {
  if (high - low < MOST_TABLED) {
    const known = new Uint32Array(high - low + 1);
    return (value) => value === NULL ? 0 : known[value - low] ||= packed(colourOf(value));
  }
  const known = new Map([[NULL, 0]]);
  return (value) => {
    let colour = known.get(value);
    if (colour === undefined) known.set(value, colour = packed(colourOf(value)));
    return colour;
  };
}

export class Layer {
  constructor(name) {
    Object.assign(this, {name, kind: 'usual', opacity: 1, since: 0, asked: 0, missing: null, legend: null});
    this.forget();
  }

  forget() {
    Object.assign(this, {rows: 0, columns: 0, cells: null, ink: null, classes: new Map(), low: Infinity, high: -Infinity, isRamp: false});
  }

  // Whether cells as of an edit are to be asked for: nothing was told of them yet, or only those in sight.
  lacks(edits) {
    return this.asked < edits || !this.missing && this.since < this.asked;
  }

  // Takes in a change that the server told, and that may have only the cells in a sight; answers the tiles that have other cells than
  // before.
  take(change, asOf, sight) {
    this.asked = asOf;
    if (!change.in_sight) this.since = asOf; // else the rest is still to be asked for
    this.missing = change.missing || null;
    if (this.missing) {
      this.forget();
      this.since = 0;
      return [];
    }
    if (change.whole) this.takeWhole(change.text);
    else if (change.in_rows) this.takeRows(change.tiles, change.text);
    else if (change.in_sight) this.takeParts(change.tiles.map((tile) => this.partInSight(tile, sight)), change.text);
    else this.takeParts(change.tiles.map((tile) => this.wholeTile(tile)), change.text);
    return change.tiles;
  }

  takeWhole(text) {
    const {rows, columns, place} = headerOf(text);
    Object.assign(this, {rows, columns, cells: numbersOfRows(text, place, rows * columns)});
    this.meet(this.cells);
  }

  // Takes in replies that tell the cells of parts, each of which has its rows and columns.
  takeParts(parts, text) {
    const numbers = numbersOfReplies(text, parts.reduce((sum, {rows, columns}) => sum + rows.length * columns.length, 0));
    let place = 0;
    for (const {rows, columns} of parts) {
      for (const row of rows) for (const column of columns) this.cells[row * this.columns + column] = numbers[place++];
    }
    this.meet(numbers);
  }

  wholeTile(tile) {
    const {left, top, width, height} = this.area(tile);
    return {rows: Array.from({length: height}, (_, row) => top + row), columns: Array.from({length: width}, (_, column) => left + column)};
  }

  // The cells of a tile in a sight, whose rows and columns count from 1 as in the language.
  partInSight(tile, {rows, columns}) {
    const {left, top, width, height} = this.area(tile);
    const within = (places, first, count) => places.map((place) => place - 1).filter((place) => place >= first && place < first + count);
    return {rows: within(rows, top, height), columns: within(columns, left, width)};
  }

  // The same where the text has the whole rows in which tiles lie, as the grid is printed.
  takeRows(tiles, text) {
    const tops = [...new Set(tiles.map((tile) => this.area(tile).top))];
    const heightAt = (top) => Math.min(TILE, this.rows - top);
    const numbers = numbersOfRows(text, 0, tops.reduce((sum, top) => sum + heightAt(top), 0) * this.columns);
    let place = 0;
    for (const top of tops) {
      const count = heightAt(top) * this.columns;
      this.cells.set(numbers.subarray(place, place + count), top * this.columns);
      place += count;
    }
    this.meet(numbers);
  }

  // The cells of a tile, which is given by its row and column of tiles.
  area([row, column]) {
    const [left, top] = [column * TILE, row * TILE];
    return {left, top, width: Math.min(TILE, this.columns - left), height: Math.min(TILE, this.rows - top)};
  }

  // Takes note of values, and of how they are coloured. A class keeps its colour, and a ramp doesn't shrink.
  meet(numbers) {
    const {low, high, isRamp} = this;
    const before = this.classes.size;
    const found = new Set();
    let last = NULL;
    for (const number of numbers) {
      if (number === NULL || number === last) continue;
      last = number;
      if (number < this.low) this.low = number;
      if (number > this.high) this.high = number;
      if (!this.isRamp && !this.classes.has(number)) {
        found.add(number);
        this.isRamp = this.classes.size + found.size > MOST_CLASSES;
      }
    }
    if (!this.isRamp) [...found].sort((a, b) => a - b).forEach((number) => this.classes.set(number, this.classes.size));
    if (!this.ink || before !== this.classes.size || isRamp !== this.isRamp || low !== this.low || high !== this.high) this.mix();
  }

  // Mixes the colours anew.
  mix() {
    this.ink = this.low > this.high ? () => 0 : inkOf(this.colourOf(), this.low, this.high);
  }

  draws() {
    return this.kind !== 'usual' ? this.kind : this.isRamp ? 'ramp' : 'classes';
  }

  // How a value is coloured, as three numbers.
  colourOf() {
    const {low, high} = this;
    if (this.draws() === 'classes') return (value) => look.classes[this.classes.get(value)];
    if (this.draws() === 'ramp') {
      const stops = look.heights.map(([share, colour]) => [low + share * (high - low), colour]);
      return low === high ? () => look.heights[0][1] : (value) => between(stops, value);
    }
    const most = Math.log1p(high - low);
    return (value) => between(look.flow, most ? Math.log1p(value - low) / most : 0);
  }

  // Writes the colours of a row's cells at the columns given; `pixels` begins where the first of these is seen.
  drawRow(pixels, row, columnsAt) {
    const {cells, ink} = this;
    const first = row * this.columns;
    let [last, colour] = [NULL, 0];
    for (let index = 0; index < columnsAt.length; index++) {
      const cell = cells[first + columnsAt[index]];
      if (cell !== last) colour = ink(last = cell);
      pixels[index] = colour;
    }
  }

  // The cell of a row and a column from 0, as the language writes it; nothing off the map.
  cell(row, column) {
    if (!this.cells || row < 0 || column < 0 || row >= this.rows || column >= this.columns) return null;
    const number = this.cells[row * this.columns + column];
    return number === NULL ? 'null' : String(number);
  }
}
