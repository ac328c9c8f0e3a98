// Maps of bins: what is in squares of some rows. They also replace cells that would be smaller than a pixel.
"use strict";
import { boxOf, isPlaced, state, widthOf, heightOf } from "./data.js";
import { basePlaces } from "./view.js";

const MOST = 1 << 20;
// Colours of a share from 0 to 1, readable without red and green.
const RAMP = [[68, 1, 84], [59, 82, 139], [33, 145, 140], [94, 201, 98], [253, 231, 37]];

export function rampColour(share) {
  const at = Math.min(Math.max(share, 0), 1) * (RAMP.length - 1), low = Math.min(Math.floor(at), RAMP.length - 2);
  return RAMP[low].map((part, index) => Math.round(part + (RAMP[low + 1][index] - part) * (at - low)));
}

const rgbOf = (colour) => [1, 3, 5].map((at) => parseInt(colour.slice(at, at + 2), 16));

class Bins {
  constructor(side) {
    const [left, bottom, wide, high] = state.design.box;
    this.side = Math.max(side, Math.ceil(Math.sqrt((wide * high) / MOST)));
    [this.left, this.bottom] = [left, bottom];
    [this.wide, this.high] = [Math.max(1, Math.ceil(wide / this.side)), Math.max(1, Math.ceil(high / this.side))];
    this.values = new Float64Array(this.wide * this.high);
  }

  // The area of a bin inside the design.
  areaOf(bin) {
    const [, , wide, high] = state.design.box, left = (bin % this.wide) * this.side, bottom = Math.floor(bin / this.wide) * this.side;
    return Math.min(this.side, wide - left) * Math.min(this.side, high - bottom);
  }

  // Calls `take(bin, share)` for each bin of a box, with the part of the box that it has.
  spread(x, y, width, height, take) {
    const side = this.side, fromX = Math.max(x - this.left, 0), fromY = Math.max(y - this.bottom, 0);
    const toX = Math.min(x + width - this.left, this.wide * side), toY = Math.min(y + height - this.bottom, this.high * side);
    if (fromX >= toX || fromY >= toY) return;
    const column = Math.floor(fromX / side), line = Math.floor(fromY / side);
    if (toX <= (column + 1) * side && toY <= (line + 1) * side) {
      take(line * this.wide + column, ((toX - fromX) * (toY - fromY)) / (width * height));
      return;
    }
    for (let up = line; up * side < toY; up += 1) {
      const part = Math.min(toY, (up + 1) * side) - Math.max(fromY, up * side);
      for (let along = column; along * side < toX; along += 1) {
        const share = (part * (Math.min(toX, (along + 1) * side) - Math.max(fromX, along * side))) / (width * height);
        take(up * this.wide + along, share);
      }
    }
  }

  // An image of one pixel a bin; `colour(bin)` is red, green, blue, alpha, or null.
  image(colour) {
    const canvas = new OffscreenCanvas(this.wide, this.high), pen = canvas.getContext("2d"), data = pen.createImageData(this.wide, this.high);
    for (let line = 0; line < this.high; line += 1) {
      for (let column = 0; column < this.wide; column += 1) {
        const found = colour(line * this.wide + column);
        if (found) data.data.set(found, 4 * ((this.high - 1 - line) * this.wide + column));
      }
    }
    pen.putImageData(data, 0, 0);
    this.picture = canvas;
    return this;
  }
}

function eachPlaced(bins, take) {
  const { now } = state;
  for (let cell = 0; cell < state.count; cell += 1) {
    if (!isPlaced(cell)) continue;
    const width = widthOf(cell), height = heightOf(cell);
    bins.spread(now.x[cell], now.y[cell], width, height, (bin, share) => take(bin, share, cell, width * height));
  }
}

// The cells as bins: the darker, the more of a bin is taken, in the colour of the team with the most; red with broken rules.
export function teamBins() {
  const [, , wide, high] = state.design.box, bins = new Bins(Math.max(1, Math.ceil(Math.max(wide, high) / 700)));
  // One pass finds the team with more than half: each area of another team takes away from what the present one has.
  const team = new Int32Array(bins.values.length).fill(-1), lead = new Float64Array(bins.values.length), broken = new Uint8Array(bins.values.length);
  eachPlaced(bins, (bin, share, cell, area) => {
    bins.values[bin] += share * area;
    if (state.rule[cell]) broken[bin] = 1;
    if (team[bin] === state.team[cell]) lead[bin] += share * area;
    else if ((lead[bin] -= share * area) < 0) [team[bin], lead[bin]] = [state.team[cell], -lead[bin]];
  });
  const colours = state.design.teams.map((each) => rgbOf(each.colour)), red = rgbOf(state.design.broken_colour), area = bins.side * bins.side;
  return bins.image((bin) => (team[bin] < 0 ? null : [...(broken[bin] ? red : colours[team[bin]]), 255 * Math.min(1, 0.15 + (0.85 * bins.values[bin]) / area)]));
}

export const MAPS = { none: "none", use: "utilization", moves: "displacement", pins: "pin density" };

// The map of a kind with bins of some rows: its bins have an image, and the value of the last colour, `most`.
export function mapBins(kind, rows) {
  const bins = new Bins(rows * state.design.site[1]), { values } = bins;
  if (kind === "use") {
    eachPlaced(bins, (bin, share, cell, whole) => { values[bin] += share * whole; });
    for (const [x, y, width, height] of state.design.obstacles) bins.spread(x, y, width, height, (bin, share) => { values[bin] += share * width * height; });
    for (let bin = 0; bin < values.length; bin += 1) values[bin] /= bins.areaOf(bin);
    bins.most = 1;
  } else if (kind === "pins") {
    const pins = state.design.macros.map((macro) => macro[3]), square = state.design.units ** 2;
    eachPlaced(bins, (bin, share, cell) => { values[bin] += share * pins[state.macro[cell]]; });
    for (let bin = 0; bin < values.length; bin += 1) values[bin] /= bins.areaOf(bin) / square;
    bins.most = percentile(values, 0.99);
  } else {
    const counts = new Float64Array(values.length);
    for (const [cell, way] of movedCells()) {
      const [x, y, width, height] = boxOf(cell);
      bins.spread(x, y, width, height, (bin, share) => { values[bin] += share * way; counts[bin] += share; });
    }
    for (let bin = 0; bin < values.length; bin += 1) values[bin] = counts[bin] ? values[bin] / counts[bin] / state.design.units : 0;
    bins.most = percentile(values, 1);
  }
  return bins.image((bin) => (values[bin] > 0 ? [...rampColour(values[bin] / bins.most), 225] : null));
}

function percentile(values, part) {
  const found = Array.from(values).filter((value) => value > 0).sort((one, other) => one - other);
  return found.length ? found[Math.min(found.length - 1, Math.floor(found.length * part))] : 1;
}

// The cells that are elsewhere than at the compared places, with how far: |dx| + |dy|.
export function movedCells() {
  const base = basePlaces(), { now } = state, found = [];
  if (!base) return found;
  const add = (cell) => {
    if (!isPlaced(cell) || !isPlaced(cell, base)) return;
    const way = Math.abs(now.x[cell] - base.x[cell]) + Math.abs(now.y[cell] - base.y[cell]);
    if (way > 0) found.push([cell, way]);
  };
  if (base === state.committed) state.uncommitted.forEach(add);
  else for (let cell = 0; cell < state.count; cell += 1) add(cell);
  return found;
}
