// The panels in which layers are drawn. All show the same part of the map, so that panning or zooming one moves all.

import {Picture, cellsAlong} from './picture.js';

const RINGED = 1500; // milliseconds for which changed tiles are ringed
const FADING = 250; // milliseconds after which rings are drawn fainter
const [RULER_WIDTH, RULER_HEIGHT, MARGIN] = [32, 16, 8];
const [LEAST_LEGEND, GREATEST_LEGEND, LEGEND_SHARE] = [136, 220, 0.28]; // pixels of the page, and the share of a panel
const GAP = 8; // between panels, with their borders
const [LEAST_SCALE, GREATEST_SCALE] = [0.05, 64]; // pixels of the page for a cell
const LEAST_SIGN = 12; // from this scale on the cells of classes have their signs
const RULER_STEPS = [1, 2, 5, 10, 20, 50, 100, 200, 500, 1000, 2000];
const MARKED = '#d11', BRUSHED = '#e6007acc', POINTED = '#0008', EDGE = '#999';

// The sign that a `symbol` line gave to a value; nothing where it has the sign that all such values have.
export function ownSign(value, sign) {
  const usual = value === 'null' ? '.' : value < 0 ? '-' : value > 9 ? '*' : value;
  return sign === usual ? '' : sign;
}

function element(kind, parent, className) {
  const made = document.createElement(kind);
  if (className) made.className = className;
  parent.append(made);
  return made;
}

const KINDS = ['pointerdown', 'pointermove', 'pointerup', 'pointercancel', 'pointerleave', 'wheel'];

class Panel {
  constructor(root, layers, hands) {
    this.layers = layers;
    const frame = element('div', root, 'panel');
    this.box = element('div', frame, 'map');
    [this.picture, this.rulers, this.marks] = ['picture', 'rulers', 'marks'].map((kind) => element('canvas', this.box, kind));
    this.legend = element('div', frame, 'legend');
    for (const kind of KINDS) this.marks.addEventListener(kind, (event) => hands(event, this));
    this.marks.addEventListener('contextmenu', (event) => event.preventDefault());
    this.contexts = [this.picture, this.rulers, this.marks].map((canvas) => canvas.getContext('2d', {willReadFrequently: canvas === this.picture}));
  }

  // Makes the canvases as large as they are seen, and clear.
  fit() {
    const {clientWidth, clientHeight} = this.box;
    Object.assign(this, {width: clientWidth, height: clientHeight});
    const [width, height] = [clientWidth, clientHeight].map((size) => Math.max(1, Math.round(size * devicePixelRatio)));
    for (const context of this.contexts) {
      if (context.canvas.width !== width || context.canvas.height !== height) Object.assign(context.canvas, {width, height});
      context.setTransform(devicePixelRatio, 0, 0, devicePixelRatio, 0, 0);
      context.clearRect(0, 0, clientWidth, clientHeight);
    }
    if (this.pixels?.data.width !== width || this.pixels.data.height !== height) this.pixels = new Picture(width, height);
  }
}

export class Panels {
  constructor(root, told) {
    Object.assign(this, {root, told, panels: [], rings: [], stroke: null, pointed: null, grabbed: null, view: null, isFitted: true, isPlanned: false,
      fading: null});
    this.sizes = new ResizeObserver(() => this.plan());
  }

  // Shows layers, each in a panel of its own or all in one.
  arrange(layers, isOver) {
    this.root.replaceChildren();
    const groups = isOver ? [layers].filter(({length}) => length) : layers.map((layer) => [layer]);
    this.panels = groups.map((group) => new Panel(this.root, group, (event, panel) => this.hand(event, panel)));
    this.sizes.disconnect();
    this.panels.forEach(({box}) => this.sizes.observe(box));
    this.draw();
  }

  // Puts as many panels side by side as show the map largest, each with its legend beside the map or below it.
  spread() {
    const across = this.panels.map((_, index) => index + 1);
    const ways = across.flatMap((count) => [this.wayToSpread(count, false), this.wayToSpread(count, true)]);
    const best = ways.reduce((first, second) => second.scale > first.scale ? second : first);
    this.root.style.gridTemplateColumns = `repeat(${best.across}, minmax(0, 1fr))`;
    this.root.style.gridTemplateRows = `repeat(${best.deep}, minmax(0, 1fr))`;
    this.root.style.setProperty('--legend', `${best.legend}px`);
    this.root.classList.toggle('below', best.isBelow);
  }

  wayToSpread(across, isBelow) {
    const {rows, columns} = this.size();
    const deep = Math.ceil(this.panels.length / across);
    const [width, height] = [this.root.clientWidth / across - GAP, this.root.clientHeight / deep - GAP];
    const legend = Math.min(GREATEST_LEGEND, Math.max(LEAST_LEGEND, LEGEND_SHARE * (isBelow ? height : width)));
    const scale = Math.min((width - (isBelow ? 0 : legend) - RULER_WIDTH - MARGIN) / columns, (height - (isBelow ? legend : 0) - RULER_HEIGHT - MARGIN) / rows);
    return {across, deep, legend, isBelow, scale};
  }

  size() {
    return this.panels.flatMap(({layers}) => layers).find(({cells}) => cells) || null;
  }

  // The whole map, as large as it fits into the panels; it stays so until it is moved.
  fitView() {
    this.isFitted = true;
    const {rows, columns} = this.size();
    const {clientWidth, clientHeight} = this.panels[0].box;
    const [width, height] = [Math.max(20, clientWidth - RULER_WIDTH - MARGIN), Math.max(20, clientHeight - RULER_HEIGHT - MARGIN)];
    const scale = Math.min(width / columns, height / rows);
    this.view = {scale, x: -(RULER_WIDTH + (width - columns * scale) / 2) / scale, y: -(RULER_HEIGHT + (height - rows * scale) / 2) / scale};
  }

  // The rows and columns, from 1, of which cells are in sight; null where nothing is drawn yet.
  sight() {
    const size = this.size();
    if (!size || !this.view || this.isWhole) return null;
    const {scale, x, y} = this.view;
    const along = (side, start, count) => {
      const pixels = Math.max(...this.panels.map(({pixels: drawn}) => drawn ? drawn.data[side] : 0));
      return [...new Set(cellsAlong(pixels, scale * devicePixelRatio, start, count).cells)].map((cell) => cell + 1);
    };
    return {rows: along('height', y, size.rows), columns: along('width', x, size.columns)};
  }

  // The cell at a place of a panel, from 0; also off the map.
  cellAt(event) {
    const {scale, x, y} = this.view;
    return [Math.floor(event.offsetY / scale + y), Math.floor(event.offsetX / scale + x)];
  }

  hand(event, panel) {
    if (!this.view) return;
    if (event.type === 'wheel') this.zoom(event);
    else if (event.type === 'pointerdown') this.press(event, panel);
    else if (event.type === 'pointermove') this.move(event);
    else if (event.type === 'pointerleave') this.point(null);
    else this.release(event);
  }

  zoom(event) {
    event.preventDefault();
    const {scale, x, y} = this.view;
    const next = Math.min(GREATEST_SCALE, Math.max(LEAST_SCALE, scale * Math.exp(-event.deltaY / 400)));
    this.isFitted = false;
    this.view = {scale: next, x: x + event.offsetX / scale - event.offsetX / next, y: y + event.offsetY / scale - event.offsetY / next};
    this.plan();
  }

  press(event, panel) {
    panel.marks.setPointerCapture(event.pointerId);
    const isDrag = event.button !== 0 || event.shiftKey;
    this.stroke = isDrag ? null : this.told.begin(this.cellAt(event), event.altKey);
    this.grabbed = this.stroke ? null : {x: this.view.x + event.offsetX / this.view.scale, y: this.view.y + event.offsetY / this.view.scale};
    this.move(event);
  }

  move(event) {
    if (this.grabbed) {
      const {scale} = this.view;
      this.isFitted = false;
      this.view = {scale, x: this.grabbed.x - event.offsetX / scale, y: this.grabbed.y - event.offsetY / scale};
      this.plan();
    }
    if (this.stroke) this.stroke.to(this.cellAt(event));
    this.point(this.cellAt(event));
  }

  release(event) {
    const {stroke} = this;
    Object.assign(this, {grabbed: null, stroke: null});
    if (stroke && event.type === 'pointerup') this.told.end(stroke, event.timeStamp); // it stays in sight until it is answered
    else this.planMarks();
  }

  point(cell) {
    this.pointed = cell;
    this.told.point(cell);
    this.planMarks();
  }

  ring(layer, tiles) {
    const now = performance.now();
    this.rings = this.rings.filter(({until}) => until > now);
    if (tiles.length) this.rings.push({layer, tiles, until: now + RINGED});
    this.planMarks();
  }

  // Drawing is put off to the next frame, so that many causes make one picture.
  plan() {
    this.isWhole = true;
    this.planMarks();
  }

  planMarks() {
    if (this.isPlanned) return;
    this.isPlanned = true;
    requestAnimationFrame(() => {
      this.isPlanned = false;
      if (this.isWhole) this.draw();
      else this.drawMarks();
    });
  }

  draw() {
    this.isWhole = false;
    if (!this.size()) return;
    this.spread();
    if (this.isFitted) this.fitView();
    for (const panel of this.panels) {
      panel.fit();
      this.drawPicture(panel);
      this.drawRulers(panel);
    }
    this.drawMarks();
  }

  // Draws at once what layers show that have other cells now; the view is as it was.
  redraw(layers) {
    if (this.isWhole || this.panels.some(({pixels}) => !pixels)) return void this.draw();
    for (const panel of this.panels) {
      if (panel.layers.some((layer) => layers.includes(layer))) this.drawPicture(panel);
    }
    this.drawMarks();
  }

  drawPicture(panel) {
    const [context] = panel.contexts;
    const {scale, x, y} = this.view;
    const drawn = panel.layers.filter(({cells}) => cells);
    panel.pixels.draw(drawn, {scale: scale * devicePixelRatio, x, y});
    context.putImageData(panel.pixels.data, 0, 0);
    if (scale < LEAST_SIGN) return;
    for (const layer of drawn) {
      context.globalAlpha = layer.opacity;
      this.drawSigns(context, layer, panel);
    }
    context.globalAlpha = 1;
  }

  // The signs that `symbol` lines gave to values, in the cells that are seen.
  drawSigns(context, layer, {width, height}) {
    const signs = new Map((layer.legend || []).map(([value, , sign]) => [value, ownSign(value, sign)]));
    if (!signs.size) return;
    const {scale, x, y} = this.view;
    Object.assign(context, {font: `${scale * 0.7}px monospace`, textAlign: 'center', textBaseline: 'middle', fillStyle: '#000'});
    for (let row = Math.max(0, Math.floor(y)); row < Math.min(layer.rows, y + height / scale); row++) {
      for (let column = Math.max(0, Math.floor(x)); column < Math.min(layer.columns, x + width / scale); column++) {
        const sign = signs.get(layer.cell(row, column));
        if (sign) context.fillText(sign, (column + 0.5 - x) * scale, (row + 0.5 - y) * scale);
      }
    }
  }

  drawMarks() {
    if (!this.view) return;
    const now = performance.now();
    this.rings = this.rings.filter(({until}) => until > now);
    for (const panel of this.panels) {
      const [, , context] = panel.contexts;
      context.clearRect(0, 0, panel.width, panel.height);
      this.drawRings(context, panel, now);
      this.drawStroke(context);
      this.drawPointed(context);
    }
    clearTimeout(this.fading);
    if (this.rings.length) this.fading = setTimeout(() => this.planMarks(), FADING);
  }

  drawEdge(context) {
    const {rows, columns} = this.size();
    Object.assign(context, {strokeStyle: EDGE, lineWidth: 1});
    this.rectangle(context, 0, 0, columns, rows);
  }

  rectangle(context, left, top, width, height) {
    const {scale, x, y} = this.view;
    context.strokeRect((left - x) * scale, (top - y) * scale, width * scale, height * scale);
  }

  drawRings(context, {layers}, now) {
    Object.assign(context, {strokeStyle: MARKED, lineWidth: 2});
    for (const {layer, tiles, until} of this.rings) {
      if (!layers.includes(layer) || !layer.cells) continue;
      context.globalAlpha = (until - now) / RINGED;
      for (const tile of tiles) {
        const {left, top, width, height} = layer.area(tile);
        this.rectangle(context, left, top, width, height);
      }
    }
    context.globalAlpha = 1;
  }

  drawStroke(context) {
    if (!this.stroke) return;
    const {scale, x, y} = this.view;
    context.fillStyle = BRUSHED;
    for (const [row, left, right] of this.stroke.runs()) {
      context.fillRect((left - x) * scale, (row - y) * scale, Math.max(1, (right - left + 1) * scale), Math.max(1, scale));
    }
  }

  drawPointed(context) {
    if (!this.pointed) return;
    Object.assign(context, {strokeStyle: POINTED, lineWidth: 1});
    const size = this.told.brushSize();
    const [row, column] = this.pointed.map((place) => place - (size - 1 >> 1));
    this.rectangle(context, column, row, size, size);
  }

  // Rows and columns, counted from 1 as the language counts them.
  drawRulers({contexts: [, context], width, height}) {
    this.drawEdge(context);
    const {rows, columns} = this.size();
    const {scale, x, y} = this.view;
    const step = RULER_STEPS.find((size) => size * scale >= 40) || RULER_STEPS[RULER_STEPS.length - 1];
    context.fillStyle = '#fffc';
    context.fillRect(0, 0, width, RULER_HEIGHT);
    context.fillRect(0, 0, RULER_WIDTH, height);
    Object.assign(context, {fillStyle: '#333', font: '11px sans-serif', textBaseline: 'middle', textAlign: 'center'});
    const numbers = (count) => [1, ...Array.from({length: Math.floor(count / step)}, (_, index) => (index + 1) * step).filter((number) => number > 1)];
    for (const number of numbers(columns)) {
      const place = (number - 0.5 - x) * scale;
      if (place > RULER_WIDTH) context.fillText(number, place, RULER_HEIGHT / 2);
    }
    context.textAlign = 'right';
    for (const number of numbers(rows)) {
      const place = (number - 0.5 - y) * scale;
      if (place > RULER_HEIGHT) context.fillText(number, RULER_WIDTH - 4, place);
    }
  }
}
