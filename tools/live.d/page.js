// The page: what is shown and said, and what becomes of strokes and lines.

import {Layer, useLook} from './layer.js';
import {Panels, ownSign} from './panels.js';
import {Stroke} from './brush.js';
import {Refused, json, say} from './wire.js';

const PAUSE = 1000; // milliseconds between two looks at what other pages did
const MOST_SHOWN_UNASKED = 6;
const MOST_LINES = 400; // of a stroke, that are sent at a time
const MOST_ENTRIES = 500;
const CALM = 200; // milliseconds without an edit after which legends are asked for
const LONGEST_FRAME = 500; // milliseconds
const KINDS = {usual: 'as it is', ramp: 'ramp', logarithm: 'by logarithm'};

const at = (id) => document.getElementById(id);
const layers = new Map(); // by name, those that were ever shown
const panels = new Panels(at('panels'), {begin, end, point, brushSize});
let state = {edits: 0, marks: 0, sources: [], statements: {}, dotted: [], ended: null};
let shown = [], seen = 0, history = [], recalled = 0, hasProjection = false;
let turn = Promise.resolve(); // one exchange after another
const outdated = new Set(); // the layers whose legends are to be asked for again
let legendTimer;

// Resolves when the frame is through that is drawn next, or after some time where none is, as on a page that isn't seen.
const afterFrame = () => new Promise((done) => {
  const limit = setTimeout(done, LONGEST_FRAME);
  requestAnimationFrame(() => setTimeout(() => {
    clearTimeout(limit);
    done();
  }));
});
const names = () => [...state.sources, ...Object.keys(state.statements), ...state.dotted];
const hand = () => document.querySelector('input[name=hand]:checked').value;

function made(kind, parent, text = '', attributes = {}) {
  const element = document.createElement(kind);
  element.textContent = text;
  Object.assign(element, attributes);
  parent.append(element);
  return element;
}

// Exchanges with the server

// Sends lines, and draws what they changed. `released` is when the mouse was let go, where it was.
function send(lines, released = null) {
  turn = turn.then(() => exchange(lines, released)).catch(complain);
  return turn;
}

async function exchange(lines, released) {
  const began = released ?? performance.now();
  const isFirst = new Set(shown.filter((name) => layers.get(name).since === 0));
  const sight = lines.length ? panels.sight() : null;
  const answer = await say(lines, edits(), sight);
  const changed = take(answer, sight);
  useState(answer.state);
  afterwards(lines, answer, began, changed, isFirst).catch(complain);
  if (changed.some((layer) => layer.lacks(answer.as_of))) await askForTheRest();
}

// The edits up to which the page has the shown layers' cells.
const edits = () => Object.fromEntries(shown.map((name) => [name, layers.get(name).since]));

async function askForTheRest() {
  await afterFrame();
  askLegendsLater(take(await say([], edits())));
}

// What can wait until the pictures are seen: rings, replies, legends.
async function afterwards(lines, answer, began, changed, isFirst) {
  await afterFrame();
  const drawn = performance.now() - began;
  for (const [name, {tiles}] of Object.entries(answer.layers)) if (!isFirst.has(name)) panels.ring(layers.get(name), tiles || []);
  panels.planMarks();
  askLegendsLater(changed);
  await logEntries(answer);
  if (lines.length) tell(answer.entries, drawn, changed);
}

// Takes in and draws what changed; answers the layers that did.
function take(answer, sight = null) {
  const changed = [];
  for (const [name, change] of Object.entries(answer.layers)) {
    const layer = layers.get(name);
    const wasMissing = layer.missing;
    const tiles = layer.take(change, answer.as_of, sight);
    if (tiles.length || change.whole || wasMissing !== layer.missing) changed.push(layer);
  }
  if (changed.length) panels.redraw(changed);
  point(panels.pointed);
  changed.filter(({missing}) => missing).forEach(drawLegend);
  return changed;
}

// The counts of the replies and the time, beside the pictures.
function tell(entries, drawn, changed) {
  const last = entries.length ? entries[entries.length - 1].reply.split('\n')[0] : '';
  const program = entries.reduce((sum, {seconds}) => sum + seconds, 0) * 1000;
  const count = entries.length > 1 ? `${entries.length} lines, the last: ` : '';
  at('told').textContent = `${count}${last.slice(0, 80)} | program ${program.toFixed(1)} ms, drawn ${drawn.toFixed(0)} ms`;
  Object.assign(at('told').dataset, {drawn, program, entries: entries.length, layers: changed.length, turns: Number(at('told').dataset.turns || 0) + 1});
}

function complain(error) {
  panels.planMarks();
  if (!(error instanceof Refused)) console.error(error);
  at('told').textContent = error instanceof Refused ? error.message : 'the server is not there';
}

// Shows entries that aren't shown yet, if none is lacking before them.
async function logEntries({entries}) {
  if (entries.length && entries[0].number > seen) await lookAtLog();
  else logNew(entries);
}

function logNew(entries) {
  for (const entry of entries) {
    if (entry.number < seen) continue;
    log(entry);
    seen = entry.number + 1;
  }
}

async function lookAtLog() {
  const {state: told, entries} = await json(`state?from=${seen}`);
  logNew(entries);
  useState(told);
}

async function watch() {
  try {
    await lookAtLog();
    if (!state.ended && shown.some((name) => layers.get(name).lacks(state.edits))) await send([]);
  } catch (error) {
    complain(error);
  }
  setTimeout(watch, PAUSE);
}

function useState(told) {
  const before = JSON.stringify(names());
  const written = JSON.stringify(state.statements);
  const known = new Set(names());
  if (state.marks !== told.marks) askLegendsLater(shown.map((name) => layers.get(name)));
  state = told;
  at('ended').hidden = !state.ended;
  at('ended').textContent = state.ended || '';
  for (const control of [at('line'), at('undo')]) control.disabled = Boolean(state.ended);
  if (before === JSON.stringify(names())) {
    if (written !== JSON.stringify(state.statements)) listLayers();
    return;
  }
  const fresh = names().filter((name) => !known.has(name) && !state.dotted.includes(name));
  show([...shown.filter((name) => names().includes(name)), ...fresh.slice(0, Math.max(0, MOST_SHOWN_UNASKED - shown.length))]);
}

// The list of layers

function show(wanted) {
  const order = names();
  const next = [...new Set(wanted)].sort((a, b) => order.indexOf(a) - order.indexOf(b));
  for (const name of next) if (!layers.has(name)) layers.set(name, new Layer(name));
  const isSame = JSON.stringify(next) === JSON.stringify(shown);
  shown = next;
  listLayers();
  if (isSame) return;
  arrange();
  if (shown.some((name) => layers.get(name).since < state.edits)) send([]);
}

function arrange() {
  panels.arrange(shown.map((name) => layers.get(name)), at('arranged').value === 'over');
  shown.forEach((name) => drawLegend(layers.get(name)));
}

function listLayers() {
  at('layers').replaceChildren();
  for (const name of names()) listLayer(made('li', at('layers')), name);
  const source = at('source').value;
  at('source').replaceChildren(...state.sources.map((name) => new Option(name)));
  if (state.sources.includes(source)) at('source').value = source;
}

function listLayer(item, name) {
  const head = made('div', item, '', {className: 'name'});
  const label = made('label', head, '', {title: state.statements[name] ? `${name} = ${state.statements[name]}` : name});
  const box = made('input', label, '', {type: 'checkbox', checked: shown.includes(name)});
  label.append(` ${name}`);
  box.dataset.layer = name;
  box.addEventListener('change', () => show(box.checked ? [...shown, name] : shown.filter((other) => other !== name)));
  made('a', head, 'save', {href: `grid?layer=${name}`, download: `${name}.asc`});
  if (hasProjection) made('a', head, 'prj', {href: `projection?layer=${name}`, download: `${name}.prj`});
  if (shown.includes(name)) tune(made('div', item, '', {className: 'tuning'}), layers.get(name));
}

function tune(row, layer) {
  const kind = made('select', row, '', {title: 'colours'});
  kind.append(...Object.entries(KINDS).map(([key, text]) => new Option(text, key)));
  kind.value = layer.kind;
  kind.addEventListener('change', () => {
    layer.kind = kind.value;
    layer.mix();
    panels.draw();
    askLegendsLater([layer]);
  });
  const opacity = made('input', row, '', {type: 'range', min: 0, max: 1, step: 0.05, value: layer.opacity, title: 'opacity'});
  opacity.addEventListener('input', () => {
    layer.opacity = Number(opacity.value);
    panels.plan();
  });
}

// Legends

// Legends count all cells, so they wait until nothing is painted.
function askLegendsLater(changed) {
  changed.forEach((layer) => outdated.add(layer));
  if (!outdated.size) return;
  clearTimeout(legendTimer);
  legendTimer = setTimeout(() => askLegends().catch(complain), CALM);
}

async function askLegends() {
  const asked = [...outdated].filter(({name, cells}) => cells && shown.includes(name));
  outdated.clear();
  for (const layer of asked) {
    if (layer.draws() === 'classes' && !state.ended) layer.legend = (await json(`legend?layer=${layer.name}`)).rows;
    else layer.legend = null;
    drawLegend(layer);
  }
  if (asked.length) panels.plan();
}

function swatch(parent, colour, sign = '') {
  const box = made('span', parent, sign, {className: colour ? 'swatch' : 'swatch clear'});
  if (colour) box.style.backgroundColor = `rgb(${colour.join(',')})`;
}

function legendRow(table, colour, sign, ...texts) {
  const row = made('tr', table);
  swatch(made('td', row), colour, sign);
  for (const text of texts) made('td', row, text);
}

function drawLegend(layer) {
  const panel = panels.panels.find(({layers: drawn}) => drawn.includes(layer));
  if (!panel) return;
  let box = [...panel.legend.children].find(({dataset}) => dataset.layer === layer.name);
  if (!box) {
    box = made('div', panel.legend);
    box.dataset.layer = layer.name;
  }
  box.replaceChildren();
  made('strong', box, layer.name);
  if (layer.missing) return void made('div', box, layer.missing);
  if (!layer.cells) return;
  const table = made('table', box), colourOf = layer.colourOf();
  if (layer.draws() === 'classes') {
    for (const [value, count, sign, text] of layer.legend || []) {
      legendRow(table, value === 'null' ? null : colourOf(Number(value)), ownSign(value, sign), value, count, text || '');
    }
  } else {
    for (const share of [1, 0.75, 0.5, 0.25, 0]) {
      const value = Math.round(layer.low + share * (layer.high - layer.low));
      legendRow(table, colourOf(value), '', String(value));
    }
    askAll(box, layer);
  }
}

function askAll(box, layer) {
  const button = made('button', box, 'count the values', {type: 'button'});
  button.addEventListener('click', async () => {
    try {
      const {rows, more} = await json(`legend?layer=${layer.name}`);
      const table = made('table', box), colourOf = layer.colourOf();
      for (const [value, count, sign, text] of rows) legendRow(table, value === 'null' ? null : colourOf(Number(value)), '', value, count, text || '');
      if (more) made('div', box, `and ${more} more values`);
      button.remove();
    } catch (error) {
      complain(error);
    }
  });
}

// The brush

function brushSize() {
  return hand() === 'paint' ? Math.min(99, Math.max(1, Math.floor(at('size').value) || 1)) : 1;
}

// A stroke that begins at a cell; none where the hand moves the map or takes up a value.
function begin([row, column], isPick) {
  if (hand() !== 'paint' || state.ended) return null;
  if (isPick) {
    pick(row, column);
    return null;
  }
  const {rows, columns} = panels.size();
  return new Stroke(rows, columns, brushSize());
}

function pick(row, column) {
  const value = layers.get(at('source').value)?.cell(row, column);
  if (!value) return;
  at('null').checked = value === 'null';
  if (value !== 'null') at('value').value = value;
}

function end(stroke, released) {
  const lines = stroke.lines(at('source').value, at('null').checked ? 'null' : at('value').value.trim());
  for (let first = 0; first < lines.length; first += MOST_LINES) send(lines.slice(first, first + MOST_LINES), released);
}

function point(cell) {
  if (!cell) {
    at('place').textContent = '';
    return;
  }
  const values = shown.map((name) => [name, layers.get(name).cell(...cell)]).filter(([, value]) => value !== null);
  at('place').textContent = values.length ? [`row ${cell[0] + 1} column ${cell[1] + 1}`, ...values.map((pair) => pair.join(' '))].join('  ') : '';
}

// The lines

function log({line, reply, cut, seconds, column, sentence, answered}) {
  made('div', at('log'), `> ${line.slice(0, 4100)}`, {className: 'line'});
  if (column && line.length <= 4096) made('div', at('log'), `${' '.repeat(column + 1)}^`, {className: 'caret'});
  if (reply) made('div', at('log'), reply, {className: /^(refused|undefined) /.test(reply) ? 'refused' : ''});
  if (cut) made('div', at('log'), `# and ${cut} more lines, which "its replies" has`, {className: 'note'});
  if (sentence) made('div', at('log'), `# ${sentence}`, {className: 'note'});
  if (seconds >= 0.5) made('div', at('log'), `# ${seconds.toFixed(1)} s`, {className: 'note'});
  if (!answered) made('div', at('log'), '# not answered: the program ended', {className: 'note'});
  while (at('log').childElementCount > MOST_ENTRIES) at('log').firstChild.remove();
  at('log').scrollTop = at('log').scrollHeight;
}

function recall(step) {
  recalled = Math.min(history.length, Math.max(0, recalled + step));
  at('line').value = history[recalled] || '';
}

at('typed').addEventListener('submit', (event) => {
  event.preventDefault();
  const line = at('line').value;
  if (!line.trim()) return;
  history.push(line);
  recalled = history.length;
  at('line').value = '';
  send([line]);
});
at('line').addEventListener('keydown', ({key}) => {
  if (key === 'ArrowUp') recall(-1);
  if (key === 'ArrowDown') recall(1);
});
at('undo').addEventListener('click', () => send(['undo']));
at('arranged').addEventListener('change', arrange);
at('fit').addEventListener('click', () => {
  panels.isFitted = true;
  panels.plan();
});

async function start() {
  const look = await json('look');
  useLook(look);
  hasProjection = look.projection;
  document.title = `Pilepumice: ${look.words.slice(3).join(' ')}`;
  await lookAtLog();
  setTimeout(watch, PAUSE);
}

window.live = {layers, panels}; // for the browser's console, and for tests
start().catch(complain);
