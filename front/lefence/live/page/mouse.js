// The mouse and the keys: pan, zoom to the pointer, choose, measure, select a region. Keys are those of KLayout where it has one.
"use strict";
import { boxOf, grid, isPlaced, microns, nameOf, reasonOf, state } from "./data.js";
import { drawn, redraw, rulerText } from "./draw.js";
import { select, showRegion, showTab, stepViolation } from "./find.js";
import { LAYERS, fit, fitAll, fitAround, layers, onView, pan, shown, stage, unitsX, unitsY, view, viewChanged, zoom } from "./view.js";

const byId = (id) => document.getElementById(id);
const MODES = ["select", "move", "ruler", "region"];
// Who takes drags of cells: `begin(cell, x, y)`, `drag(x, y)`, `drop(x, y)`, `cancel()`; none while the page only looks.
export const mover = { begin: () => false, drag() {}, drop() {}, cancel() {} };
let mode = "select", action = null, start = null;
const fingers = new Map();

export function setMode(name) {
  if (name === "move" && byId("mode-move").hidden) return;
  mode = name;
  for (const each of MODES) {
    byId(`mode-${each}`).classList.toggle("on", each === name);
    stage.classList.toggle(each, each === name);
  }
}

const pointOf = (event) => {
  const box = stage.getBoundingClientRect();
  return [event.clientX - box.left, event.clientY - box.top];
};
const onGrid = (x, y) => {
  // A ruler keeps to edges of sites and rows if they are near.
  const [left, bottom] = state.design.rows[0] || [0, 0], [wide, high] = state.design.site;
  const near = (value, origin, step) => { const edge = origin + Math.round((value - origin) / step) * step; return Math.abs(edge - value) * view.scale < 8 ? edge : Math.round(value); };
  return [near(x, left, wide), near(y, bottom, high)];
};
const boxBetween = (x0, y0, x1, y1) => [Math.min(x0, x1), Math.min(y0, y1), Math.abs(x1 - x0), Math.abs(y1 - y0)];

function press(event) {
  stage.focus({ preventScroll: true });
  stage.setPointerCapture(event.pointerId);
  const [x, y] = pointOf(event), isSelecting = mode === "region" || (event.shiftKey && mode !== "ruler");
  fingers.set(event.pointerId, [x, y]);
  byId("tip").hidden = true;
  if (fingers.size > 1) { action = "pinch"; return; }
  start = [x, y, unitsX(x), unitsY(y)];
  if (event.button === 2) action = "frame";
  else if (event.button === 1) action = "pan";
  else if (isSelecting) action = "region";
  else if (mode === "ruler") action = "ruler";
  else if (mode === "move" && mover.begin(grid.at(start[2], start[3]), start[2], start[3])) action = "cell";
  else action = "pan";
}

function drag(event) {
  const [x, y] = pointOf(event), before = fingers.get(event.pointerId);
  showPoint(x, y);
  if (!before) return point(event, x, y);
  const other = [...fingers].find(([finger]) => finger !== event.pointerId);
  fingers.set(event.pointerId, [x, y]);
  if (action === "pinch" && other) {
    const far = (one) => Math.hypot(one[0] - other[1][0], one[1] - other[1][1]) || 1;
    zoom(far([x, y]) / far(before), (x + other[1][0]) / 2, (y + other[1][1]) / 2);
  } else if (action === "pan") {
    stage.classList.add("drags");
    pan(x - before[0], y - before[1]);
  } else if (action === "cell") {
    mover.drag(unitsX(x), unitsY(y));
  } else if (action === "ruler") {
    shown.ruler = [...onGrid(start[2], start[3]), ...onGrid(unitsX(x), unitsY(y))];
    byId("measure").textContent = rulerText(shown.ruler);
    redraw();
  } else if (action === "region" || action === "frame") {
    shown.region = boxBetween(start[2], start[3], unitsX(x), unitsY(y));
    redraw();
  }
  return undefined;
}

function release(event) {
  if (!fingers.delete(event.pointerId)) return;
  const [x, y] = pointOf(event), isClick = start && Math.hypot(x - start[0], y - start[1]) < 4, done = action;
  stage.classList.remove("drags");
  if (fingers.size) return;
  action = null;
  if (done === "cell") {
    if (isClick) { mover.cancel(); choose(x, y); } else mover.drop(unitsX(x), unitsY(y));
  } else if (done === "ruler") {
    if (shown.ruler && !isClick) shown.rulers.push(shown.ruler);
    shown.ruler = null;
    redraw();
  } else if (done === "region") {
    if (isClick) shown.region = null;
    showRegion();
    showTab("cell");
    viewChanged();
  } else if (done === "frame") {
    // As in KLayout: a frame drawn upwards zooms out.
    const frame = shown.region;
    shown.region = null;
    if (frame && !isClick) { if (y < start[1]) zoom(0.5, start[0], start[1]); else fit(frame, 1); } else redraw();
  } else if (isClick && event.button === 0) {
    choose(x, y);
  }
}

function choose(x, y) {
  const cell = grid.at(unitsX(x), unitsY(y));
  select(cell);
  if (cell >= 0) showTab("cell");
}

function cancel() {
  if (action === "cell") mover.cancel();
  action = null;
  fingers.clear();
  stage.classList.remove("drags");
  Object.assign(shown, { ruler: null, drag: null, ghost: null });
  redraw();
}

function showPoint(x, y) {
  const [unitX, unitY] = [Math.round(unitsX(x)), Math.round(unitsY(y))];
  byId("where").textContent = `${microns(unitX)}, ${microns(unitY)} µm   (${unitX} ${unitY})`;
}

// What is under the pointer.
function point(event, x, y) {
  const [unitX, unitY] = [unitsX(x), unitsY(y)], holds = (box) => unitX >= box[0] && unitX < box[0] + box[2] && unitY >= box[1] && unitY < box[1] + box[3];
  const fixed = layers.obstacles && state.design.obstacles.find(holds), cell = drawn.isMap || fixed ? -1 : grid.at(unitX, unitY), tip = byId("tip");
  let text = fixed ? (fixed[4] === null ? "placement blockage" : `${fixed[4]} (FIXED)`) : "";
  if (cell >= 0) {
    const macro = state.design.macros[state.macro[cell]][0], team = state.design.teams[state.team[cell]].name;
    text = `${nameOf(cell)}\n${macro} · team ${team}${state.rule[cell] ? `\n${reasonOf(cell)}` : ""}${state.uncommitted.has(cell) ? "\nnot committed" : ""}`;
  }
  tip.hidden = !text;
  tip.textContent = text;
  tip.style.left = x > view.wide / 2 ? "auto" : `${x + 14}px`;
  tip.style.right = x > view.wide / 2 ? `${view.wide - x + 10}px` : "auto";
  tip.style.top = `${Math.min(y + 14, view.high - 80)}px`;
}

const clearRulers = () => { shown.rulers = []; byId("measure").textContent = ""; redraw(); };
const fitSelection = () => { if (shown.selected >= 0 && isPlaced(shown.selected)) fitAround(boxOf(shown.selected)); else if (shown.region) fit(shown.region); };
const KEYS = {
  "+": () => zoom(1.4), "=": () => zoom(1.4), "-": () => zoom(1 / 1.4), 0: fitAll, F2: fitAll, n: () => stepViolation(1), p: () => stepViolation(-1),
  s: () => setMode("select"), m: () => setMode("move"), r: () => setMode("ruler"), b: () => setMode("region"), q: () => showTab("cell"), l: openLayers,
  Escape: cancel, "/": () => byId("search").focus(), ArrowLeft: () => pan(80, 0), ArrowRight: () => pan(-80, 0), ArrowUp: () => pan(0, 80), ArrowDown: () => pan(0, -80),
};

function key(event) {
  const isTyping = event.target.closest?.("input, select, textarea");
  if (isTyping && event.key !== "Escape") return;
  if (isTyping) return event.target.blur();
  let done = KEYS[event.key.length === 1 ? event.key.toLowerCase() : event.key];
  if (event.ctrlKey || event.metaKey) done = event.key.toLowerCase() === "k" ? clearRulers : undefined;
  if (event.key === "F2" && event.shiftKey) done = fitSelection;
  if (event.altKey || !done) return undefined;
  event.preventDefault();
  return done();
}

function openLayers() {
  const isHidden = !byId("layers").hidden;
  byId("layers").hidden = isHidden;
  byId("layers-open").setAttribute("aria-expanded", !isHidden);
}

function listLayers() {
  byId("layers").replaceChildren(...Object.entries(LAYERS).map(([name, text]) => {
    const box = Object.assign(document.createElement("input"), { type: "checkbox", checked: layers[name], id: `layer-${name}` });
    const label = document.createElement("label");
    box.addEventListener("change", () => { layers[name] = box.checked; viewChanged(); });
    label.append(box, text);
    return label;
  }));
}

function showScale() {
  const width = 110 / view.scale / state.design.units, power = 10 ** Math.floor(Math.log10(width)), step = [5, 2, 1].find((each) => each * power <= width) * power;
  const pixels = step * state.design.units * view.scale;
  byId("scale").textContent = `${step < 1 ? step.toPrecision(1) : step} µm`;
  byId("scale").style.borderBottom = "2px solid currentColor";
  byId("scale").style.minWidth = `${pixels}px`;
  byId("drawn").textContent = drawn.painter;
}

export function startMouse() {
  stage.addEventListener("pointerdown", (event) => { if (!event.target.closest("button, fieldset, .legend")) press(event); });
  stage.addEventListener("pointermove", drag);
  stage.addEventListener("pointerup", release);
  stage.addEventListener("pointercancel", cancel);
  stage.addEventListener("pointerleave", () => { byId("tip").hidden = true; });
  stage.addEventListener("contextmenu", (event) => event.preventDefault());
  stage.addEventListener("wheel", (event) => {
    event.preventDefault();
    const [x, y] = pointOf(event);
    if (event.shiftKey) pan(-(event.deltaY || event.deltaX), 0);
    else if (event.ctrlKey && !event.deltaMode && Math.abs(event.deltaY) >= 50) pan(0, -event.deltaY);
    else zoom(Math.exp(-event.deltaY * (event.deltaMode ? 0.05 : event.ctrlKey ? 0.01 : 0.0016)), x, y);
  }, { passive: false });
  window.addEventListener("keydown", key);
  for (const each of MODES) byId(`mode-${each}`).addEventListener("click", () => setMode(each));
  byId("zoom-in").addEventListener("click", () => zoom(1.6));
  byId("zoom-out").addEventListener("click", () => zoom(1 / 1.6));
  byId("fit").addEventListener("click", fitAll);
  byId("layers-open").addEventListener("click", openLayers);
  listLayers();
  setMode("select");
  onView(showScale);
}
