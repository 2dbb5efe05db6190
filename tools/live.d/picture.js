// A picture of a part of the map, pixel by pixel: each has the colour of the cell in its middle, so that cells aren't smoothed.

// For each pixel of a row or column of pixels, the cell it shows: the first such pixel, and the cells from there on.
export function cellsAlong(pixels, perCell, start, count) {
  const cellAt = (pixel) => Math.floor((pixel + 0.5) / perCell + start);
  const seen = Array.from({length: pixels}, (_, pixel) => cellAt(pixel));
  const first = seen.findIndex((cell) => cell >= 0 && cell < count);
  return {first: Math.max(0, first), cells: Int32Array.from(seen.filter((cell) => cell >= 0 && cell < count))};
}

// One pixel over another, the upper one with an opacity from 0 to 1.
function over(upper, lower, opacity) {
  const [above, below] = [(upper >>> 24) / 255 * opacity, (lower >>> 24) / 255];
  const both = above + below * (1 - above);
  if (both === 0) return 0;
  const part = (shift) => Math.round(((upper >>> shift & 255) * above + (lower >>> shift & 255) * below * (1 - above)) / both) << shift;
  return (Math.round(both * 255) << 24 | part(16) | part(8) | part(0)) >>> 0;
}

function layOver(upper, lower, opacity) {
  for (let index = 0; index < upper.length; index++) {
    if (upper[index]) lower[index] = opacity === 1 ? upper[index] : over(upper[index], lower[index], opacity);
  }
}

export class Picture {
  constructor(width, height) {
    this.data = new ImageData(width, height);
    this.words = new Uint32Array(this.data.data.buffer);
  }

  // Draws layers, which have cells, one over another; a view has its scale in pixels of the picture, and where its first cell is.
  draw(layers, {scale, x, y}) {
    const {width, height} = this.data;
    this.words.fill(0);
    if (!layers.length) return;
    const across = cellsAlong(width, scale, x, layers[0].columns), down = cellsAlong(height, scale, y, layers[0].rows);
    const row = new Uint32Array(across.cells.length);
    down.cells.forEach((cell, index) => {
      const start = (down.first + index) * width + across.first;
      if (index && cell === down.cells[index - 1]) {
        this.words.copyWithin(start, start - width, start - width + row.length);
        return;
      }
      const pixels = this.words.subarray(start, start + row.length);
      for (const layer of layers) {
        layer.drawRow(row, cell, across.cells);
        layOver(row, pixels, layer.opacity);
      }
    });
  }
}
