// The design and its cells: arrays by a cell's number, names, and an index of places.
"use strict";

export const UNPLACED = 255;
// What the page knows. `uncommitted` has the cells that are not at their committed places, `glows` those that moved last.
export const state = {
  design: null, count: 0, sequence: 0, facts: [], recent: [], uncommitted: new Set(), glows: new Map(), others: new Map(),
  now: null, committed: null, before: null, opened: null, rule: null, macro: null, team: null,
};

const decoder = new TextDecoder();
let names, offsets, table, widths, heights;

export async function loadDesign() {
  state.design = await fetched("design").then((answer) => answer.json());
  widths = Float64Array.from(state.design.macros, (macro) => macro[1]);
  heights = Float64Array.from(state.design.macros, (macro) => macro[2]);
}

async function fetched(path) {
  const answer = await fetch(path);
  if (!answer.ok) throw new Error(`${path}: ${answer.status}`);
  return answer;
}

// Reads all cells, the facts of the teams and the last changes, all of one moment; also again, if too much has changed.
export async function loadCells() {
  const buffer = await fetched("cells").then((answer) => answer.arrayBuffer());
  const length = new DataView(buffer).getUint32(0, true);
  const head = JSON.parse(decoder.decode(new Uint8Array(buffer, 4, length)));
  const kinds = { i: Int32Array, I: Uint32Array, B: Uint8Array }, found = {};
  let at = 4 + length;
  for (const [name, kind, bytes] of head.parts) {
    found[name] = new kinds[kind](buffer, at, bytes / kinds[kind].BYTES_PER_ELEMENT);
    at += bytes + ((8 - (bytes % 8)) % 8);
  }
  const places = (prefix) => found[prefix + "x"] && { x: found[prefix + "x"], y: found[prefix + "y"], orient: found[prefix + "orient"] };
  Object.assign(state, { count: head.count, sequence: head.sequence, facts: head.facts, recent: head.recent });
  Object.assign(state, { now: places(""), committed: places("committed_") });
  Object.assign(state, { before: places("before_") || null, rule: found.rule, macro: found.macro, others: new Map(head.others) });
  state.opened ||= copyOf(state.now);
  state.team = new Uint16Array(head.count);
  state.design.teams.forEach((team, number) => state.team.fill(number, team.start, team.stop));
  names = found.names;
  indexNames();
  state.uncommitted = new Set();
  for (let cell = 0; cell < state.count; cell += 1) if (differs(state.now, state.committed, cell)) state.uncommitted.add(cell);
  grid.build();
}

const copyOf = (places) => ({ x: places.x.slice(), y: places.y.slice(), orient: places.orient.slice() });

export const differs = (one, other, cell) => one.x[cell] !== other.x[cell] || one.y[cell] !== other.y[cell] || one.orient[cell] !== other.orient[cell];

// Names are bytes, one after the other. A hash table finds a cell by its name without a string for each.
function indexNames() {
  offsets = new Uint32Array(state.count + 1);
  for (let cell = 0, at = 0; cell < state.count; cell += 1) {
    offsets[cell] = at;
    const end = names.indexOf(10, at);
    at = (end < 0 ? names.length : end) + 1;
    offsets[cell + 1] = at;
  }
  let size = 16;
  while (size < 2 * state.count) size *= 2;
  table = new Uint32Array(size);
  for (let cell = 0; cell < state.count; cell += 1) {
    let slot = hash(names, offsets[cell], offsets[cell + 1] - 1) & (size - 1);
    while (table[slot]) slot = (slot + 1) & (size - 1);
    table[slot] = cell + 1;
  }
}

function hash(bytes, from, to) {
  let value = 2166136261;
  for (let at = from; at < to; at += 1) value = Math.imul(value ^ bytes[at], 16777619);
  return (value ^ (value >>> 15)) >>> 0;
}

export const nameOf = (cell) => decoder.decode(names.subarray(offsets[cell], offsets[cell + 1] - 1));

// The number of the cell with this name, or -1.
export function cellNamed(name) {
  const bytes = new TextEncoder().encode(name), size = table.length;
  for (let slot = hash(bytes, 0, bytes.length) & (size - 1); table[slot]; slot = (slot + 1) & (size - 1)) {
    const cell = table[slot] - 1, from = offsets[cell];
    if (offsets[cell + 1] - 1 - from === bytes.length && bytes.every((byte, at) => names[from + at] === byte)) return cell;
  }
  return -1;
}

const isTurned = (orient) => orient !== UNPLACED && orient % 2 === 1;
export const widthOf = (cell, orient = state.now.orient[cell]) => (isTurned(orient) ? heights : widths)[state.macro[cell]];
export const heightOf = (cell, orient = state.now.orient[cell]) => (isTurned(orient) ? widths : heights)[state.macro[cell]];
export const isPlaced = (cell, places = state.now) => places.orient[cell] !== UNPLACED;
export const boxOf = (cell, places = state.now) =>
  isPlaced(cell, places) ? [places.x[cell], places.y[cell], widthOf(cell, places.orient[cell]), heightOf(cell, places.orient[cell])] : null;
export const microns = (length) => (length / state.design.units).toFixed(3).replace(/\.?0+$/, "");
export const orientOf = (cell, places = state.now) => state.design.orients[places.orient[cell]];

export function reasonOf(cell) {
  const other = state.others.get(cell), words = state.design.rules[state.rule[cell]];
  return words ? words[1].replace("\x01", () => nameOf(cell)).replace("\x02", () => (other === null || other === undefined ? "another cell" : nameOf(other))) : "";
}

export function setPlace(cell, x, y, orient) {
  const { now, committed, glows } = state;
  glows.set(cell, [performance.now(), now.x[cell], now.y[cell], now.orient[cell]]);
  [now.x[cell], now.y[cell], now.orient[cell]] = [x, y, orient];
  if (differs(now, committed, cell)) state.uncommitted.add(cell); else state.uncommitted.delete(cell);
  grid.move(cell);
}

// Buckets of places: a cell is in the bucket of its lower left corner. Cells that have moved since are in `strays`.
export const grid = {
  side: 1, left: 0, bottom: 0, wide: 1, high: 1, starts: new Uint32Array(2), order: new Uint32Array(0), strays: new Set(), widest: 0, highest: 0, meanWidth: 1,

  build() {
    const { now, count, design } = state, [left, bottom, wide, high] = design.box;
    this.side = Math.max(design.site[1], Math.ceil(Math.sqrt((wide * high * 12) / Math.max(count, 1))));
    [this.left, this.bottom] = [left, bottom];
    [this.wide, this.high] = [Math.max(1, Math.ceil(wide / this.side)), Math.max(1, Math.ceil(high / this.side))];
    this.strays.clear();
    const starts = new Uint32Array(this.wide * this.high + 1), order = new Uint32Array(count);
    let sum = 0;
    [this.widest, this.highest] = [0, 0];
    for (let cell = 0; cell < count; cell += 1) {
      this.widest = Math.max(this.widest, widths[state.macro[cell]], isTurned(now.orient[cell]) ? heights[state.macro[cell]] : 0);
      this.highest = Math.max(this.highest, heights[state.macro[cell]], isTurned(now.orient[cell]) ? widths[state.macro[cell]] : 0);
      sum += widths[state.macro[cell]];
      if (now.orient[cell] !== UNPLACED) starts[this.bucket(now.x[cell], now.y[cell]) + 1] += 1;
    }
    this.meanWidth = count ? sum / count : 1;
    for (let bucket = 0; bucket < this.wide * this.high; bucket += 1) starts[bucket + 1] += starts[bucket];
    const next = starts.slice();
    for (let cell = 0; cell < count; cell += 1) if (now.orient[cell] !== UNPLACED) order[next[this.bucket(now.x[cell], now.y[cell])]++] = cell;
    Object.assign(this, { starts, order });
  },

  // Places outside the design are in the buckets at its edges.
  column(x) { return Math.min(this.wide - 1, Math.max(0, Math.floor((x - this.left) / this.side))); },
  line(y) { return Math.min(this.high - 1, Math.max(0, Math.floor((y - this.bottom) / this.side))); },
  bucket(x, y) { return this.line(y) * this.wide + this.column(x); },

  move(cell) {
    this.strays.add(cell);
    if (this.strays.size > 5000 + state.count / 20) this.build();
  },

  // The ranges of `order` with the cells that may share points with a box.
  ranges([left, bottom, wide, high]) {
    const found = [], from = this.column(left - this.widest), to = this.column(left + wide);
    for (let line = this.line(bottom - this.highest); line <= this.line(bottom + high); line += 1) {
      found.push(this.starts[line * this.wide + from], this.starts[line * this.wide + to + 1]);
    }
    return found;
  },

  // At most how many cells share points with a box.
  most(box) {
    const found = this.ranges(box);
    let count = this.strays.size;
    for (let at = 0; at < found.length; at += 2) count += found[at + 1] - found[at];
    return count;
  },

  // Calls `take(cell, x, y, width, height)` for each placed cell that shares points with a box.
  visit(box, take) {
    const { now, macro } = state, [left, bottom, wide, high] = box, right = left + wide, top = bottom + high;
    const look = (cell) => {
      const orient = now.orient[cell], turned = orient % 2 === 1, x = now.x[cell], y = now.y[cell];
      const width = (turned ? heights : widths)[macro[cell]], height = (turned ? widths : heights)[macro[cell]];
      if (x < right && y < top && x + width > left && y + height > bottom) take(cell, x, y, width, height);
    };
    const found = this.ranges(box), order = this.order, hasStrays = this.strays.size > 0;
    for (let at = 0; at < found.length; at += 2) {
      for (let place = found[at]; place < found[at + 1]; place += 1) if (!hasStrays || !this.strays.has(order[place])) look(order[place]);
    }
    for (const cell of this.strays) if (now.orient[cell] !== UNPLACED) look(cell);
  },

  // The cell at a point: one that breaks a rule before others, the smallest of several. -1 for none.
  at(x, y) {
    let best = -1, least = Infinity;
    this.visit([x, y, 1e-9, 1e-9], (cell, left, bottom, width, height) => {
      const weight = width * height - (state.rule[cell] ? 1e15 : 0);
      if (weight < least) [best, least] = [cell, weight];
    });
    return best;
  },
};
