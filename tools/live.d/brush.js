// The cells that a stroke meets, and the rectangles that paint them.

// The cells on the line between two cells, both of them among these.
function* cellsBetween([row, column], [lastRow, lastColumn]) {
  const steps = Math.max(Math.abs(lastRow - row), Math.abs(lastColumn - column), 1);
  for (let step = 0; step <= steps; step++) {
    yield [Math.round(row + (lastRow - row) * step / steps), Math.round(column + (lastColumn - column) * step / steps)];
  }
}

export class Stroke {
  constructor(rows, columns, size) {
    Object.assign(this, {rows, columns, size, cells: new Set(), last: null});
  }

  // Goes on to a cell, in a straight line; what lies off the map is left out.
  to(place) {
    for (const [row, column] of cellsBetween(this.last || place, place)) this.stamp(row, column);
    this.last = place;
  }

  stamp(row, column) {
    const [top, left] = [row - (this.size - 1 >> 1), column - (this.size - 1 >> 1)];
    for (let y = Math.max(0, top); y < Math.min(this.rows, top + this.size); y++) {
      for (let x = Math.max(0, left); x < Math.min(this.columns, left + this.size); x++) this.cells.add(y * this.columns + x);
    }
  }

  // Rectangles that cover just these cells, each [first row, first column, last row, last column] from 0. Runs of cells in a row
  // are joined with the same run of the row above.
  rectangles() {
    const done = [];
    let open = new Map();
    for (const [row, left, right] of this.runs()) {
      const key = `${left} ${right}`;
      const above = open.get(key);
      if (above && above[2] === row - 1) above[2] = row;
      else {
        const rectangle = [row, left, row, right];
        done.push(rectangle);
        open.set(key, rectangle);
      }
    }
    return done;
  }

  // The cells as runs [row, first column, last column], row by row.
  runs() {
    const runs = [];
    for (const cell of [...this.cells].sort((a, b) => a - b)) {
      const [row, column] = [Math.floor(cell / this.columns), cell % this.columns];
      const last = runs[runs.length - 1];
      if (last && last[0] === row && last[2] === column - 1) last[2] = column;
      else runs.push([row, column, column]);
    }
    return runs;
  }

  lines(name, value) {
    return this.rectangles().map((corners) => `paint ${name} ${corners.map((corner) => corner + 1).join(' ')} ${value}`);
  }
}
