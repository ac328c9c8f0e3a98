// Finds and explains: search, violations, the chosen cell, a region, maps, and two moments compared.
"use strict";
import { boxOf, cellNamed, grid, isPlaced, microns, nameOf, orientOf, reasonOf, state } from "./data.js";
import { MAPS, movedCells, rampColour } from "./bins.js";
import { currentMap, redraw } from "./draw.js";
import { element, onChange, swatch } from "./live.js";
import { basePlaces, fitAround, layers, shown, viewChanged } from "./view.js";

const MOST_FOUND = 200, MOST_LISTED = 500, MOST_FAR = 50;
const byId = (id) => document.getElementById(id);
const counted = (number) => number.toLocaleString("en");
const listeners = [];
let violations = [], isListing = false;

// Calls a function after another cell is chosen.
export const onSelect = (listener) => listeners.push(listener);

export function showTab(name) {
  for (const button of document.querySelectorAll("nav button")) {
    button.classList.toggle("on", button.dataset.tab === name);
    button.setAttribute("aria-selected", button.dataset.tab === name);
    byId(`tab-${button.dataset.tab}`).hidden = button.dataset.tab !== name;
  }
}

// Chooses a cell (-1 for none), and shows where it is if `goes`.
export function select(cell, goes = false) {
  shown.selected = cell;
  shown.other = cell >= 0 && state.rule[cell] ? state.others.get(cell) ?? -1 : -1;
  if (cell >= 0 && goes && isPlaced(cell)) fitAround(boxOf(cell));
  drawCell();
  for (const row of byId("violations").children) row.classList.toggle("here", row.dataset.cell === (cell < 0 ? undefined : nameOf(cell)));
  for (const listener of listeners) listener(cell);
  viewChanged();
}

export function placeText(cell, places = state.now) {
  if (!isPlaced(cell, places)) return "no place";
  return `${microns(places.x[cell])}, ${microns(places.y[cell])} µm ${orientOf(cell, places)}  (${places.x[cell]} ${places.y[cell]})`;
}

function drawCell() {
  const cell = shown.selected;
  if (cell < 0) return byId("cell").replaceChildren(element("p", { className: "faint" }, "Click a cell, or search one by name. Drag with Shift to select a region."));
  const [macro, width, height, pins] = state.design.macros[state.macro[cell]];
  const facts = [
    ["Team", element("span", {}, swatch(state.team[cell]), state.design.teams[state.team[cell]].name)], ["Macro", macro],
    ["Size", `${microns(width)} × ${microns(height)} µm${state.design.has_pins ? `, ${pins} pins` : ""}`], ["Place", placeText(cell)],
    ["Committed", state.uncommitted.has(cell) ? placeText(cell, state.committed) : "here"],
  ];
  if (state.uncommitted.has(cell) && isPlaced(cell) && isPlaced(cell, state.committed)) {
    const way = Math.abs(state.now.x[cell] - state.committed.x[cell]) + Math.abs(state.now.y[cell] - state.committed.y[cell]);
    facts.push(["Displacement", `${microns(way)} µm (${(way / state.design.site[1]).toFixed(1)} rows)`]);
  }
  const rule = state.rule[cell];
  facts.push(["Rule", rule ? element("span", { className: "bad" }, `${rule} ${state.design.rules[rule][0]}: ${reasonOf(cell)}`) : isPlaced(cell) ? "keeps all rules" : "–"]);
  const other = state.others.get(cell);
  if (rule && other !== null && other !== undefined) facts.push(["Other cell", cellLink(other)]);
  const list = element("dl", {}, ...facts.flatMap(([name, value]) => [element("dt", {}, name), element("dd", {}, value)]));
  return byId("cell").replaceChildren(element("b", { className: "name" }, nameOf(cell)), list);
}

function cellLink(cell) {
  const link = element("a", { className: "name", href: "#", onclick: (event) => { event.preventDefault(); select(cell, true); } }, nameOf(cell));
  return link;
}

function cellRow(cell, more, tail = "") {
  const small = element("small", {}, more), name = element("td", {}, element("span", { className: "name" }, nameOf(cell)), small);
  return element("tr", { className: "go", data: { cell: nameOf(cell) }, onclick: () => select(cell, true) }, element("td", { className: "dot" }, swatch(state.team[cell])), name, element("td", { className: "number" }, tail));
}

// Lists the cells that break a rule, those without a place, and counts the rules.
function listViolations() {
  violations = [];
  for (let cell = 0; cell < state.count; cell += 1) if (state.rule[cell]) violations.push(cell);
  const counts = new Map();
  for (const cell of violations) counts.set(state.rule[cell], (counts.get(state.rule[cell]) || 0) + 1);
  const text = [...counts].sort(([one], [other]) => one - other).map(([rule, count]) => `${state.design.rules[rule][0]} (rule ${rule}): ${counted(count)}`).join(" · ");
  byId("rules-note").textContent = violations.length ? text : "No cell breaks a rule.";
  byId("violations").replaceChildren(...violations.slice(0, MOST_LISTED).map((cell) => cellRow(cell, reasonOf(cell), isPlaced(cell) ? `${microns(state.now.x[cell])}, ${microns(state.now.y[cell])}` : "")));
  const unplaced = [];
  for (let cell = 0; cell < state.count && unplaced.length < MOST_LISTED; cell += 1) if (!isPlaced(cell)) unplaced.push(cell);
  const count = state.facts.reduce((sum, facts) => sum + facts.unplaced, 0);
  byId("unplaced-title").textContent = count ? `Without a place: ${counted(count)}` : "Every cell has a place";
  byId("unplaced").replaceChildren(...unplaced.map((cell) => cellRow(cell, state.design.macros[state.macro[cell]][0])));
}

export function stepViolation(by) {
  if (!violations.length) return;
  const at = violations.indexOf(shown.selected);
  showTab("rules");
  select(violations[at < 0 ? (by > 0 ? 0 : violations.length - 1) : (at + by + violations.length) % violations.length], true);
  document.querySelector("#violations tr.here")?.scrollIntoView({ block: "nearest" });
}

// Finds cells by name, by a pattern with stars, or by a part of the name. The first one is shown.
export function search(text) {
  const wanted = text.trim();
  showTab("cell");
  if (!wanted) return byId("found").replaceChildren();
  const exact = cellNamed(wanted);
  const found = exact >= 0 ? [exact] : cellsLike(wanted);
  byId("found").replaceChildren(...found.slice(0, MOST_FOUND).map((cell) => cellRow(cell, state.design.macros[state.macro[cell]][0])));
  if (found.length) select(found[0], true);
  const note = !found.length ? "no cell has such a name" : found.length > MOST_FOUND ? `the first ${MOST_FOUND} cells` : counted(found.length) + (found.length === 1 ? " cell" : " cells");
  byId("found").prepend(element("tr", {}, element("td", { className: "faint", colSpan: 3 }, `${wanted}: ${note}`)));
  return undefined;
}

function cellsLike(wanted) {
  const escaped = (part) => part.replace(/[.+?^${}()|[\]\\]/g, "\\$&");
  const pattern = new RegExp(wanted.includes("*") ? `^${wanted.split("*").map(escaped).join(".*")}$` : escaped(wanted)), found = [];
  for (let cell = 0; cell < state.count && found.length <= MOST_FOUND; cell += 1) if (pattern.test(nameOf(cell))) found.push(cell);
  return found;
}

// Counts what is in the region: cells with their middle there.
export function showRegion() {
  const box = shown.region;
  if (!box) return byId("region").replaceChildren();
  const teams = new Map();
  let illegal = 0, open = 0, pins = 0, all = 0;
  grid.visit(box, (cell, x, y, width, height) => {
    const middleX = x + width / 2, middleY = y + height / 2;
    if (middleX < box[0] || middleX >= box[0] + box[2] || middleY < box[1] || middleY >= box[1] + box[3]) return;
    const counts = teams.get(state.team[cell]) || [0, 0];
    teams.set(state.team[cell], [counts[0] + 1, counts[1] + width * height]);
    all += 1;
    illegal += state.rule[cell] ? 1 : 0;
    open += state.uncommitted.has(cell) ? 1 : 0;
    pins += state.design.macros[state.macro[cell]][3];
  });
  const area = [...teams.values()].reduce((sum, counts) => sum + counts[1], 0);
  const facts = [
    ["Region", `${microns(box[0])}, ${microns(box[1])} to ${microns(box[0] + box[2])}, ${microns(box[1] + box[3])} µm`],
    ["Cells", `${counted(all)}, ${((100 * area) / (box[2] * box[3])).toFixed(1)}% of the area`], ["Illegal", counted(illegal)], ["Not committed", counted(open)],
    ...(state.design.has_pins ? [["Pins", counted(pins)]] : []),
  ];
  const list = element("dl", { id: "region-facts" }, ...facts.flatMap(([name, value]) => [element("dt", {}, name), element("dd", {}, value)]));
  const rows = [...teams].sort(([one], [other]) => one - other).map(([team, [count]]) => element("div", {}, swatch(team), `${state.design.teams[team].name}: ${counted(count)}`));
  return byId("region").replaceChildren(list, ...rows);
}

function drawLegend() {
  const map = currentMap();
  byId("legend").hidden = !map;
  if (!map) return;
  const ramp = element("canvas", { width: 100, height: 1 }), pen = ramp.getContext("2d");
  for (let x = 0; x < 100; x += 1) {
    pen.fillStyle = `rgb(${rampColour(x / 99).join(" ")})`;
    pen.fillRect(x, 0, 1, 1);
  }
  const units = { use: (value) => `${(100 * value).toFixed(0)}%`, moves: (value) => `${value.toPrecision(3)} µm`, pins: (value) => `${value.toPrecision(3)} pins/µm²` }[shown.map];
  byId("legend").replaceChildren(element("span", {}, MAPS[shown.map]), element("span", {}, "0"), ramp, element("span", {}, units(map.most)));
}

// The compared places: how many cells are elsewhere, how far, and which ones went farthest.
function drawCompared() {
  const moves = movedCells().sort((one, other) => other[1] - one[1]), row = state.design.site[1], classes = state.design.move_colours;
  const base = basePlaces(), names = { committed: "committed", before: state.design.compare, opened: "when this page was opened" };
  const mean = moves.reduce((sum, [, way]) => sum + way, 0) / (moves.length || 1);
  byId("base-note").textContent = !base ? "" : moves.length
    ? `${counted(moves.length)} cells are elsewhere than ${names[shown.base]}: ${microns(mean)} µm on average, at most ${microns(moves[0][1])} µm.`
    : `Every placed cell is where it was (${names[shown.base]}).`;
  let least = 0;
  const counts = classes.map(([most, colour]) => {
    const count = moves.filter(([, way]) => way > least * row && (most === null || way <= most * row)).length;
    const label = most === null ? `over ${least} rows` : `up to ${most} ${most === 1 ? "row" : "rows"}`;
    least = most;
    return [label, colour, count];
  });
  const largest = Math.max(1, ...counts.map(([, , count]) => count)), bars = element("div", { className: "bars" });
  for (const [label, colour, count] of moves.length ? counts : []) {
    const bar = element("i", {});
    bar.style.background = colour;
    bar.style.width = `${(100 * count) / largest}%`;
    bars.append(element("span", {}, label), bar, element("span", { className: "number", data: { count } }, counted(count)));
  }
  byId("histogram").replaceChildren(bars);
  byId("farthest").replaceChildren(...moves.slice(0, MOST_FAR).map(([cell, way]) => cellRow(cell, placeText(cell), `${microns(way)} µm`)));
}

function drawMaps() {
  byId("bin-size").textContent = `${shown.bin} ${shown.bin === 1 ? "row" : "rows"}, ${microns(shown.bin * state.design.site[1])} µm`;
  byId("map-note").textContent = { none: "", use: "How much of a bin cells and obstacles take.", moves: "How far the cells of a bin are from the compared places, on average.", pins: "Pins of the cells' macros in a bin, without supplies." }[shown.map];
  drawLegend();
  drawCompared();
}

function fillChoices() {
  const option = (value, text) => element("option", { value }, text);
  const kinds = Object.entries(MAPS).filter(([kind]) => kind !== "pins" || state.design.has_pins);
  byId("map").replaceChildren(...kinds.map(([kind, text]) => option(kind, text)));
  if (!kinds.some(([kind]) => kind === shown.map)) shown.map = "none";
  const bases = [["committed", "the committed places"], ["opened", "when this page was opened"], ...(state.before ? [["before", state.design.compare]] : [])];
  if (!bases.some(([base]) => base === shown.base)) shown.base = "committed";
  byId("base").replaceChildren(...bases.map(([base, text]) => option(base, text)));
  [byId("map").value, byId("bin").value, byId("base").value] = [shown.map, shown.bin, shown.base];
}

// Lists are made again at most twice a second, however many changes there are.
function listSoon() {
  if (isListing) return;
  isListing = true;
  setTimeout(() => {
    isListing = false;
    listViolations();
    drawCell();
    showRegion();
    drawMaps();
  }, state.count > 200000 ? 1500 : 150);
}

export function startFind() {
  fillChoices();
  for (const button of document.querySelectorAll("nav button")) button.addEventListener("click", () => showTab(button.dataset.tab));
  byId("next").addEventListener("click", () => stepViolation(1));
  byId("previous").addEventListener("click", () => stepViolation(-1));
  byId("search").addEventListener("change", () => search(byId("search").value));
  const choose = (id, key, kind) => byId(id).addEventListener("input", () => {
    shown[key] = kind(byId(id).value);
    drawMaps();
    viewChanged();
  });
  choose("map", "map", String);
  choose("bin", "bin", Number);
  choose("base", "base", (value) => { layers.moves = true; return value; });
  byId("blink").addEventListener("change", () => { shown.isBlinking = byId("blink").checked; redraw(); });
  byId("changes").addEventListener("click", (event) => {
    const row = event.target.closest("tr[data-cell]"), cell = row ? cellNamed(row.dataset.cell) : -1;
    if (cell >= 0) select(cell, true);
  });
  onChange(listSoon);
  listViolations();
  drawMaps();
  showTab("now");
  if (shown.selected >= 0) { select(shown.selected); showTab("cell"); }
  showRegion();
}
