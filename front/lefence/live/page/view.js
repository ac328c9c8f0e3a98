// Where the view is, and what is shown: the database units at its middle, pixels in a unit, layers and the map.
"use strict";
import { state } from "./data.js";

// (`isFitted`: all is in sight, and stays so if the page gets another size)
export const view = { x: 0, y: 0, scale: 1, wide: 1, high: 1, isFitted: false };
export const layers = { rows: true, fences: true, cells: true, obstacles: true, soft: true, names: true, marks: true, uncommitted: true, moves: false };
export const shown = { selected: -1, other: -1, region: null, rulers: [], ruler: null, map: "none", bin: 4, base: "committed", isBlinking: false, drag: null, ghost: null };
export const LAYERS = {
  rows: "Rows", fences: "Fences", cells: "Cells", obstacles: "Obstacles", soft: "Soft blockages", names: "Names", marks: "Orientation marks",
  uncommitted: "Not committed", moves: "Moves since the compared places",
};
const listeners = [];

export const stage = document.getElementById("stage");
export const across = (x) => view.wide / 2 + (x - view.x) * view.scale;
export const down = (y) => view.high / 2 - (y - view.y) * view.scale;
export const unitsX = (x) => view.x + (x - view.wide / 2) / view.scale;
export const unitsY = (y) => view.y - (y - view.high / 2) / view.scale;
export const viewBox = () => [unitsX(0), unitsY(view.high), view.wide / view.scale, view.high / view.scale];

// Calls a function after each change of the view.
export const onView = (listener) => listeners.push(listener);
export function viewChanged() { for (const listener of listeners) listener(); }

const leastScale = () => 0.4 * Math.min(view.wide / state.design.box[2], view.high / state.design.box[3]);
const mostScale = () => 480 / state.design.site[0];
const clampScale = (scale) => Math.min(Math.max(scale, leastScale()), mostScale());

export function fit([left, bottom, wide, high], share = 0.92) {
  view.scale = clampScale(share * Math.min(view.wide / Math.max(wide, 1), view.high / Math.max(high, 1)));
  [view.x, view.y] = [left + wide / 2, bottom + high / 2];
  view.isFitted = false;
  viewChanged();
}

export function fitAll() {
  fit(state.design.box);
  view.isFitted = true;
}

// Zooms by a factor; the point at these pixels stays where it is.
export function zoom(by, x = view.wide / 2, y = view.high / 2) {
  const before = view.scale;
  view.scale = clampScale(before * by);
  view.x += (x - view.wide / 2) * (1 / before - 1 / view.scale);
  view.y -= (y - view.high / 2) * (1 / before - 1 / view.scale);
  view.isFitted = false;
  viewChanged();
}

export function pan(x, y) {
  view.x -= x / view.scale;
  view.y += y / view.scale;
  view.isFitted = false;
  viewChanged();
}

// A box with some rows around it.
export function fitAround([left, bottom, wide, high], rows = 6) {
  const around = rows * state.design.site[1];
  fit([left - around, bottom - around, wide + 2 * around, high + 2 * around], 1);
}

// The places to compare the present ones with, or null.
export const basePlaces = () => ({ committed: state.committed, before: state.before, opened: state.opened })[shown.base];

// The address keeps view, layers, map, compared places and selection: a link shows the same.
export function addressOf(nameOf) {
  const parts = [`v=${+view.x.toFixed(1)},${+view.y.toFixed(1)},${+view.scale.toPrecision(6)}`];
  const off = Object.keys(layers).filter((name) => layers[name] === (name === "moves"));
  if (off.length) parts.push(`l=${off.join(",")}`);
  if (shown.map !== "none") parts.push(`m=${shown.map},${shown.bin}`);
  if (shown.base !== "committed") parts.push(`c=${shown.base}`);
  if (shown.selected >= 0) parts.push(`s=${encodeURIComponent(nameOf(shown.selected))}`);
  if (shown.region) parts.push(`r=${shown.region.map(Math.round).join(",")}`);
  return "#" + parts.join("&");
}

export function followAddress(hash, cellNamed) {
  let hasView = false;
  for (const part of hash.replace(/^#/, "").split("&")) {
    const key = part.slice(0, 2), text = part.slice(2), numbers = text.split(",").map(Number);
    if (key === "v=" && numbers.length === 3 && numbers.every(Number.isFinite) && numbers[2] > 0) {
      [view.x, view.y] = numbers;
      view.scale = clampScale(numbers[2]);
      view.isFitted = false;
      hasView = true;
    } else if (key === "l=") {
      for (const name of Object.keys(layers)) layers[name] = text.split(",").includes(name) === (name === "moves");
    } else if (key === "m=") {
      const [map, bin] = text.split(",");
      [shown.map, shown.bin] = [map, Math.min(40, Math.max(1, Number(bin) || 4))];
    } else if (key === "c=" && ["committed", "before", "opened"].includes(text)) {
      shown.base = text;
    } else if (key === "s=") {
      try { shown.selected = cellNamed(decodeURIComponent(text)); } catch { shown.selected = -1; }
    } else if (key === "r=" && numbers.length === 4 && numbers.every(Number.isFinite)) {
      shown.region = numbers;
    }
  }
  return hasView;
}
