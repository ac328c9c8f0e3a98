// Draws the floorplan on three canvases: what is under the cells, the cells, and what is over them.
"use strict";
import { boxOf, grid, isPlaced, nameOf, state } from "./data.js";
import { mapBins, movedCells, teamBins } from "./bins.js";
import { Boxes, painterOf } from "./paint.js";
import { across, basePlaces, down, fitAll, layers, onView, shown, stage, view, viewBox } from "./view.js";

const canvases = Object.fromEntries(["under", "cells", "over"].map((name) => [name, document.getElementById(name)]));
const under = canvases.under.getContext("2d"), over = canvases.over.getContext("2d"), painter = painterOf(canvases.cells);
// Cells have marks, and names, from these heights in pixels on; moved cells glow for these milliseconds.
const MARKED = 20, LABELLED = 24, GLOW = 6000;
// The most lines between two places of a cell, the least milliseconds between two maps while cells move, and the kept maps.
const MOST_LINES = 2000, MAPS = 400, MOST_MAPS = 8;
// The most cells that are outlined one by one.
const MOST_OUTLINED = 20000;
let colours = {}, teamColours = [], brokenColour = 0, list = new Boxes(), isWaiting = false;
// Maps by their kind, made again when cells have moved.
const maps = new Map();
export const drawn = { cells: 0, isMap: false, painter: painter.name };

export function redraw() {
  if (isWaiting) return;
  isWaiting = true;
  requestAnimationFrame(() => { isWaiting = false; draw(); });
}

export function cellsChanged() {
  for (const map of maps.values()) map.isOld = true;
  redraw();
}

export function measure() {
  const ratio = window.devicePixelRatio || 1, style = getComputedStyle(document.documentElement);
  view.wide = Math.max(1, stage.clientWidth);
  view.high = Math.max(1, stage.clientHeight);
  for (const canvas of Object.values(canvases)) [canvas.width, canvas.height] = [Math.round(view.wide * ratio), Math.round(view.high * ratio)];
  for (const name of ["chip", "row", "rowline", "fixed", "blocked", "soft", "label", "edge", "ink", "card", "bad", "warn", "link", "glow", "ghost", "other", "faint"]) {
    colours[name] = style.getPropertyValue("--" + name).trim();
  }
  teamColours = state.design.teams.map((team) => numberOf(team.colour, 255));
  brokenColour = numberOf(state.design.broken_colour, 255);
  if (view.isFitted) fitAll(); else redraw();
}

// A colour as a painter takes it.
function numberOf(colour, alpha) {
  const [red, green, blue] = [1, 3, 5].map((at) => parseInt(colour.slice(at, at + 2), 16));
  return ((alpha << 24) | (blue << 16) | (green << 8) | red) >>> 0;
}

function pixelsOf(box) {
  if (!box) return null;
  const x = across(box[0]), y = down(box[1] + box[3]), wide = box[2] * view.scale, high = box[3] * view.scale;
  return x > view.wide || y > view.high || x + wide < 0 || y + high < 0 ? null : [x, y, wide, high];
}

function begin(pen, colour) {
  const ratio = window.devicePixelRatio || 1;
  pen.setTransform(ratio, 0, 0, ratio, 0, 0);
  pen.globalAlpha = 1;
  if (colour) {
    pen.fillStyle = colour;
    pen.fillRect(0, 0, view.wide, view.high);
  } else {
    pen.clearRect(0, 0, view.wide, view.high);
  }
  pen.textAlign = "center";
  pen.textBaseline = "middle";
  pen.lineJoin = "round";
}

function fill(pen, box, colour) {
  const found = pixelsOf(box);
  if (!found) return null;
  pen.fillStyle = colour;
  pen.fillRect(found[0], found[1], Math.max(found[2], 0.7), Math.max(found[3], 0.7));
  return found;
}

function outline(pen, box, colour, width, gap = 0, dash = []) {
  const found = pixelsOf(box);
  if (!found) return;
  pen.strokeStyle = colour;
  pen.lineWidth = width;
  pen.setLineDash(dash);
  pen.strokeRect(found[0] - gap, found[1] - gap, found[2] + 2 * gap, found[3] + 2 * gap);
  pen.setLineDash([]);
}

function drawRows() {
  const step = state.design.site[1] * view.scale;
  for (const block of state.design.rows) {
    const found = fill(under, block, colours.row);
    if (!found || step < 5) continue;
    under.strokeStyle = colours.rowline;
    under.lineWidth = 0.8;
    under.beginPath();
    const rows = Math.round(block[3] / state.design.site[1]);
    for (let row = 0; row <= rows; row += 1) {
      const y = found[1] + row * step;
      if (y < -2 || y > view.high + 2) continue;
      under.moveTo(Math.max(found[0], -2), y);
      under.lineTo(Math.min(found[0] + found[2], view.wide + 2), y);
    }
    under.stroke();
  }
}

// A map of a kind. After changes it is made again, but for at most a tenth of the time.
function mapOf(kind, make) {
  const now = performance.now(), found = maps.get(kind);
  if (found && (!found.isOld || now - found.made < found.pause)) {
    if (found.isOld) setTimeout(redraw, found.pause);
    return found.bins;
  }
  const bins = make(), made = performance.now();
  if (maps.size > MOST_MAPS) maps.clear();
  maps.set(kind, { bins, made, pause: Math.max(MAPS, 9 * (made - now)), isOld: false });
  return bins;
}

function drawBins(pen, bins) {
  const [left, bottom, wide, high] = state.design.box;
  pen.save();
  pen.beginPath();
  pen.rect(across(left), down(bottom + high), wide * view.scale, high * view.scale);
  pen.clip();
  pen.imageSmoothingEnabled = false;
  pen.drawImage(bins.picture, across(bins.left), down(bins.bottom + bins.high * bins.side), bins.wide * bins.side * view.scale, bins.high * bins.side * view.scale);
  pen.restore();
}

export const currentMap = () => (shown.map === "none" ? null : mapOf(`${shown.map} ${shown.bin} ${shown.base}`, () => mapBins(shown.map, shown.bin)));

function drawUnder() {
  begin(under, colours.chip);
  if (layers.rows) drawRows();
  if (layers.fences) {
    under.globalAlpha = 0.14;
    state.design.fences.forEach((rects, team) => rects.forEach((rect) => fill(under, rect, state.design.teams[team].colour)));
    under.globalAlpha = 1;
  }
  if (drawn.isMap && layers.cells) drawBins(under, mapOf("teams", teamBins));
}

// Whether the cells in sight would be smaller than a pixel, or too many.
const isTooSmall = (box) => grid.meanWidth * view.scale < 1 || grid.most(box) > painter.most;

function drawCells() {
  const box = viewBox(), { scale } = view, left = view.wide / 2 - view.x * scale, top = view.high / 2 + view.y * scale;
  drawn.isMap = isTooSmall(box);
  list.count = 0;
  if (!drawn.isMap && layers.cells) {
    const { rule, team } = state, ghosts = shown.isBlinking ? basePlaces() : null;
    const add = (cell, x, y, width, height) => {
      let wide = width * scale, high = height * scale;
      const gap = wide > 5 && high > 5 ? 1 : wide > 2.5 ? 0.4 : 0;
      list.add(left + x * scale + gap / 2, top - (y + height) * scale + gap / 2, Math.max(wide - gap, 0.8), Math.max(high - gap, 0.8), rule[cell] ? brokenColour : teamColours[team[cell]]);
    };
    if (ghosts) {
      for (let cell = 0; cell < state.count; cell += 1) {
        const found = boxOf(cell, ghosts);
        if (found && found[0] < box[0] + box[2] && found[1] < box[1] + box[3] && found[0] + found[2] > box[0] && found[1] + found[3] > box[1]) add(cell, ...found);
      }
    } else {
      const broken = [];
      grid.visit(box, (cell, ...found) => { if (rule[cell]) broken.push([cell, found]); else add(cell, ...found); });
      for (const [cell, found] of broken) add(cell, ...found);
    }
  }
  drawn.cells = list.count;
  if (layers.obstacles) addObstacles();
  painter.paint(list, view.wide, view.high);
}

// Obstacles may be as many as cells: they are painted with them.
function addObstacles() {
  const fixed = numberOf(colours.fixed, 255), blocked = numberOf(colours.blocked, 255);
  for (const box of state.design.obstacles) {
    const found = pixelsOf(box);
    if (found && found[2] + found[3] > 0.7) list.add(found[0], found[1], Math.max(found[2], 0.7), Math.max(found[3], 0.7), box[4] === null ? blocked : fixed);
  }
}

// The corner of a cell that is its macro's lower left one, by orientation: N, W, S, E, FN, FW, FS, FE.
const CORNERS = [[0, 1], [1, 1], [1, 0], [0, 0], [1, 1], [0, 1], [0, 0], [1, 0]];

function drawMarks() {
  if (drawn.isMap || !layers.cells || state.design.site[1] * view.scale < MARKED || shown.isBlinking || shown.map !== "none") return;
  const { now } = state;
  over.strokeStyle = "rgba(255, 255, 255, .75)";
  over.lineWidth = 1;
  if (layers.marks) {
    over.beginPath();
    grid.visit(viewBox(), (cell, x, y, width, height) => {
      const [along, down_] = CORNERS[now.orient[cell]], wide = width * view.scale, high = height * view.scale, cut = Math.min(8, wide / 2, high / 3);
      const cornerX = across(x) + along * wide, cornerY = down(y + height) + down_ * high;
      over.moveTo(cornerX + (along ? -cut : cut), cornerY);
      over.lineTo(cornerX, cornerY + (down_ ? -cut : cut));
    });
    over.stroke();
  }
  if (!layers.names || state.design.site[1] * view.scale < LABELLED) return;
  over.font = "11px system-ui, sans-serif";
  over.fillStyle = "#ffffff";
  grid.visit(viewBox(), (cell, x, y, width, height) => {
    if (width * view.scale > 26) writeName(nameOf(cell), [across(x), down(y + height), width * view.scale, height * view.scale]);
  });
}

// A name where it has room; a long one by its last part.
function writeName(name, [x, y, wide, high]) {
  const room = Math.floor((wide - 8) / 6.2), slash = name.lastIndexOf("/");
  const short = name.length > room && slash > 0 ? "…" + name.slice(slash) : name;
  if (short.length <= room && high >= 16) over.fillText(short, x + wide / 2, y + high / 2);
}

function drawObstacles() {
  if (layers.obstacles) {
    over.lineWidth = 0.8;
    for (const box of state.design.obstacles) {
      // (a map covers the cells, and what is painted with them)
      const found = shown.map === "none" ? pixelsOf(box) : fill(over, box, box[4] === null ? colours.blocked : colours.fixed);
      if (!found || box[4] === null || Math.min(found[2], found[3]) < 12) continue;
      const [x, y, wide, high] = found;
      over.strokeStyle = colours.edge;
      over.beginPath();
      over.moveTo(x, y);
      over.lineTo(x + wide, y + high);
      over.moveTo(x, y + high);
      over.lineTo(x + wide, y);
      over.stroke();
      if (!layers.names) continue;
      over.font = "12px system-ui, sans-serif";
      over.fillStyle = colours.card;
      writeName(box[4], found);
    }
  }
  if (layers.soft) for (const box of state.design.soft) outline(over, box, colours.soft, 1.2, 0, [5, 4]);
}

function drawFences() {
  if (!layers.fences) return;
  state.design.fences.forEach((rects, team) => rects.forEach((rect) => outline(over, rect, state.design.teams[team].colour, 1.8)));
  if (!layers.names) return;
  // A tag with the team's name, in the upper left corner of the fence's largest box, as far as that is in sight.
  over.font = "600 12px system-ui, sans-serif";
  over.textAlign = "left";
  state.design.fences.forEach((rects, team) => {
    const found = rects.length && pixelsOf(rects.reduce((one, other) => (other[2] * other[3] > one[2] * one[3] ? other : one)));
    if (!found) return;
    const [x, y, wide, high] = found, { name, colour } = state.design.teams[team], long = over.measureText(name).width + 12;
    const left = Math.max(x, 0), top = Math.max(y, 0);
    if (left + long > x + wide || top + 18 > y + high) return;
    over.fillStyle = colour;
    over.fillRect(left, top, long, 18);
    over.fillStyle = "rgba(0, 0, 0, .28)";
    over.fillRect(left, top, long, 18);
    over.fillStyle = "#ffffff";
    over.fillText(name, left + 6, top + 9);
  });
  over.textAlign = "center";
}

// From the middle of a cell at one place to its middle at another, with a head if there is room.
function arrow(from, to) {
  const [x0, y0] = [across(from[0] + from[2] / 2), down(from[1] + from[3] / 2)], [x1, y1] = [across(to[0] + to[2] / 2), down(to[1] + to[3] / 2)];
  if (Math.max(x0, x1) < 0 || Math.min(x0, x1) > view.wide || Math.max(y0, y1) < 0 || Math.min(y0, y1) > view.high) return;
  const long = Math.hypot(x1 - x0, y1 - y0), head = Math.min(8, long / 2), turn = Math.atan2(y0 - y1, x0 - x1);
  over.moveTo(x0, y0);
  over.lineTo(x1, y1);
  if (long < 5) return;
  for (const aside of [0.45, -0.45]) {
    over.moveTo(x1, y1);
    over.lineTo(x1 + head * Math.cos(turn + aside), y1 + head * Math.sin(turn + aside));
  }
}

function drawUncommitted() {
  if (!layers.uncommitted || drawn.isMap) return;
  let lines = 0;
  const add = (cell) => {
    const box = boxOf(cell), before = boxOf(cell, state.committed), found = pixelsOf(box);
    if (found && found[2] > 4) over.rect(found[0] + 1.5, found[1] + 1.5, found[2] - 3, found[3] - 3);
    else if (found) over.rect(found[0], found[1], found[2], found[3]);
    if (box && before && lines < MOST_LINES && (lines += 1)) arrow(before, box);
  };
  over.beginPath();
  // Of many, only those in sight, if these are not too many either.
  if (state.uncommitted.size <= MOST_OUTLINED) state.uncommitted.forEach(add);
  else if (grid.most(viewBox()) <= MOST_OUTLINED) grid.visit(viewBox(), (cell) => { if (state.uncommitted.has(cell)) add(cell); });
  // (a light edge, so that it is seen on every colour)
  over.strokeStyle = colours.label;
  over.lineWidth = 4;
  over.stroke();
  over.strokeStyle = colours.link;
  over.lineWidth = 1.7;
  over.stroke();
}

// The farthest moves since the compared places, in the colours of the report's arrows.
function drawMoves() {
  const base = basePlaces();
  if (!layers.moves || !base) return;
  const moves = mapOf(`list ${shown.base}`, movedCells), row = state.design.site[1];
  if (moves.length > MOST_LINES && !moves.isSorted) {
    moves.sort((one, other) => other[1] - one[1]);
    moves.isSorted = true;
  }
  over.lineWidth = 1.3;
  let least = 0;
  for (const [most, colour] of state.design.move_colours) {
    over.strokeStyle = colour;
    over.beginPath();
    for (const [cell, way] of moves.slice(0, MOST_LINES)) if (way > least * row && (most === null || way <= most * row)) arrow(boxOf(cell, base), boxOf(cell));
    over.stroke();
    least = most;
  }
}

// Cells that have moved glow; a line from where they were fades with it.
function drawGlows() {
  const now = performance.now();
  for (const [cell, [since, x, y, orient]] of state.glows) {
    const age = (now - since) / GLOW;
    if (age >= 1) { state.glows.delete(cell); continue; }
    over.globalAlpha = 1 - age;
    outline(over, boxOf(cell), colours.glow, 3, 1.5);
    if (orient !== 255 && isPlaced(cell)) {
      over.strokeStyle = colours.glow;
      over.lineWidth = 2;
      over.beginPath();
      const box = boxOf(cell);
      arrow([x, y, box[2], box[3]], box);
      over.stroke();
    }
  }
  over.globalAlpha = 1;
  if (state.glows.size) setTimeout(redraw, 60);
}

function drawRulers() {
  over.font = "600 12px system-ui, sans-serif";
  for (const ruler of [...shown.rulers, ...(shown.ruler ? [shown.ruler] : [])]) {
    const [x0, y0, x1, y1] = [across(ruler[0]), down(ruler[1]), across(ruler[2]), down(ruler[3])];
    over.strokeStyle = colours.ink;
    over.lineWidth = 1.5;
    over.beginPath();
    over.moveTo(x0, y0);
    over.lineTo(x1, y1);
    const turn = Math.atan2(y1 - y0, x1 - x0) + Math.PI / 2;
    for (const [x, y] of [[x0, y0], [x1, y1]]) {
      over.moveTo(x - 6 * Math.cos(turn), y - 6 * Math.sin(turn));
      over.lineTo(x + 6 * Math.cos(turn), y + 6 * Math.sin(turn));
    }
    over.stroke();
    const text = rulerText(ruler), wide = over.measureText(text).width + 12;
    over.fillStyle = colours.label;
    over.fillRect((x0 + x1 - wide) / 2, (y0 + y1) / 2 - 24, wide, 19);
    over.fillStyle = colours.ink;
    over.fillText(text, (x0 + x1) / 2, (y0 + y1) / 2 - 14);
  }
}

export function rulerText([x0, y0, x1, y1]) {
  const micron = (length) => `${(Math.abs(length) / state.design.units).toFixed(3).replace(/\.?0+$/, "")}`;
  return `${micron(Math.hypot(x1 - x0, y1 - y0))} µm  (Δx ${micron(x1 - x0)}, Δy ${micron(y1 - y0)})`;
}

function drawOver() {
  begin(over);
  const map = currentMap();
  if (map) drawBins(over, map);
  drawMarks();
  drawObstacles();
  drawFences();
  drawMoves();
  drawUncommitted();
  drawGlows();
  if (shown.region) {
    over.globalAlpha = 0.12;
    fill(over, shown.region, colours.link);
    over.globalAlpha = 1;
    outline(over, shown.region, colours.link, 1.5, 0, [6, 4]);
  }
  if (shown.other >= 0) outline(over, boxOf(shown.other), colours.other, 2.5, 3);
  if (shown.selected >= 0) outline(over, boxOf(shown.selected), state.rule[shown.selected] ? colours.bad : colours.ink, 2.5, 4);
  if (shown.drag) outline(over, shown.drag, colours.ink, 2, 0, [5, 4]);
  if (shown.ghost) {
    over.globalAlpha = 0.3;
    fill(over, shown.ghost, colours.ghost);
    over.globalAlpha = 1;
    outline(over, shown.ghost, colours.ghost, 2.5);
    over.strokeStyle = colours.ghost;
    over.lineWidth = 1.5;
    over.beginPath();
    if (shown.drag) arrow(shown.drag, shown.ghost);
    over.stroke();
  }
  drawRulers();
}

// Draws everything now. `redraw` does so before the next frame.
export function draw() {
  if (!state.now) return;
  const box = viewBox();
  drawn.isMap = isTooSmall(box);
  drawUnder();
  drawCells();
  drawOver();
}

// The colour at a point of the page's stage, for tests: red, green and blue.
export function pixelAt(x, y) {
  draw();
  const canvas = new OffscreenCanvas(1, 1), pen = canvas.getContext("2d"), ratio = window.devicePixelRatio || 1;
  for (const each of Object.values(canvases)) pen.drawImage(each, Math.round(x * ratio), Math.round(y * ratio), 1, 1, 0, 0, 1, 1);
  return [...pen.getImageData(0, 0, 1, 1).data].slice(0, 3);
}

onView(redraw);
