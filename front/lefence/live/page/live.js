// What happens now: the events of the server, the table of teams, and the list of changes.
"use strict";
import { cellNamed, loadCells, loadDesign, microns, setPlace, state } from "./data.js";
import { cellsChanged, redraw } from "./draw.js";
import { fit, fitAll } from "./view.js";

const MOST_CHANGES = 200, RETRY = 1000;
export const page = Array.from(crypto.getRandomValues(new Uint32Array(4)), (each) => each.toString(16)).join("");
const byId = (id) => document.getElementById(id);
const listeners = [];
let stream = null, isReading = false;

// Calls a function after cells, verdicts or facts of teams have changed.
export const onChange = (listener) => listeners.push(listener);
function changed() {
  cellsChanged();
  drawTeams();
  for (const listener of listeners) listener();
}

export function element(kind, fields = {}, ...children) {
  const { data, ...others } = fields, made = Object.assign(document.createElement(kind), others);
  Object.assign(made.dataset, data || {});
  made.append(...children.filter((child) => child !== null && child !== undefined));
  return made;
}

export function swatch(team) {
  const made = element("i", { className: "swatch" });
  made.style.background = state.design.teams[team].colour;
  return made;
}

export const sumOf = (counts) => Object.values(counts).reduce((sum, count) => sum + count, 0);
const counted = (number) => number.toLocaleString("en");

export function drawTeams() {
  const rows = state.design.teams.map((team, at) => {
    const facts = state.facts[at], illegal = sumOf(facts.broken), share = team.ground ? (100 * team.area) / team.ground : 0;
    const number = (value, kind = "") => element("td", { className: `number ${value ? kind : ""}` }, counted(value));
    const name = element("td", {}, swatch(at), team.name || "", facts.trouble ? element("small", { className: "bad" }, facts.trouble) : null);
    const revision = element("td", { className: "number" }, facts.revision === null ? "–" : counted(facts.revision));
    const cells = [number(team.stop - team.start), number(facts.unplaced, "warn"), number(illegal, "bad"), number(facts.uncommitted)];
    return element("tr", { className: "go", title: "Show the team", data: { team: at }, onclick: () => showTeam(at) }, name, revision, ...cells, element("td", { className: `number ${share > 100 ? "bad" : ""}` }, team.ground ? `${share.toFixed(1)}%` : "–"));
  });
  byId("teams").replaceChildren(...rows);
  const total = (key) => state.facts.reduce((sum, facts) => sum + (key === "broken" ? sumOf(facts.broken) : facts[key]), 0);
  const badge = (count, kind, one, many) => (count ? element("span", { className: `badge ${kind}` }, `${counted(count)} ${count === 1 ? one : many}`) : null);
  const badges = [
    badge(total("broken"), "bad", "breaks a rule", "break a rule"), badge(total("unplaced"), "warn", "without a place", "without a place"),
    badge(total("uncommitted"), "", "not committed", "not committed"),
  ].filter(Boolean);
  byId("badges").replaceChildren(...(badges.length ? badges : [element("span", { className: "badge good" }, "fully legal")]));
}

export function showTeam(team) {
  const rects = state.design.fences[team] || [];
  if (!rects.length) return fitAll();
  const left = Math.min(...rects.map((box) => box[0])), bottom = Math.min(...rects.map((box) => box[1]));
  fit([left, bottom, Math.max(...rects.map((box) => box[0] + box[2])) - left, Math.max(...rects.map((box) => box[1] + box[3])) - bottom], 0.9);
  return undefined;
}

// A line of a change without team and session; who sent it; and how far a cell went.
function addChange(team, change, moved) {
  const [verb, , , ...fields] = change.line.split(" ");
  const time = new Date(1000 * change.time).toLocaleTimeString("en-GB"), cell = fields.length ? cellNamed(fields[0]) : -1;
  const many = verb === "tidy" || verb === "undo" || verb === "revert" || verb === "swap" ? `, ${counted(moved)} moved` : "";
  const glow = cell >= 0 ? state.glows.get(cell) : undefined;
  const way = glow && glow[3] !== 255 && state.now.orient[cell] !== 255 ? Math.abs(state.now.x[cell] - glow[1]) + Math.abs(state.now.y[cell] - glow[2]) : 0;
  const what = element("td", {}, element("span", { className: "name" }, [verb, ...fields].join(" "))), far = way ? ` · by ${microns(way)} µm` : "";
  const socket = change.socket === "operator" ? "operator's socket" : `socket ${change.socket}`;
  what.append(many, element("small", {}, `rev. ${change.revision} · ${change.user}, pid ${change.pid} · ${socket}${far}`));
  const row = element("tr", cell >= 0 ? { className: "go", data: { cell: fields[0] } } : {}, element("td", { className: "time" }, swatch(team), time), what);
  byId("changes").prepend(row);
  while (byId("changes").children.length > MOST_CHANGES) byId("changes").lastChild.remove();
  byId("no-changes").hidden = true;
}

const HANDLERS = {
  moved(event) {
    for (const [cell, x, y, orient] of event.count > event.moved.length ? [] : event.moved) setPlace(cell, x, y, orient);
    if (event.change) addChange(event.team, event.change, event.count);
  },
  committed(event) {
    const { now, committed } = state, { start, stop } = state.design.teams[event.team];
    for (const cell of state.uncommitted) {
      if (cell < start || cell >= stop) continue;
      [committed.x[cell], committed.y[cell], committed.orient[cell]] = [now.x[cell], now.y[cell], now.orient[cell]];
      state.uncommitted.delete(cell);
    }
    if (event.change) addChange(event.team, event.change, 0);
  },
  base(event) {
    const { now, committed } = state;
    for (const [cell, x, y, orient] of event.places) {
      [committed.x[cell], committed.y[cell], committed.orient[cell]] = [x, y, orient];
      if (now.x[cell] !== x || now.y[cell] !== y || now.orient[cell] !== orient) state.uncommitted.add(cell); else state.uncommitted.delete(cell);
    }
  },
  broken(event) {
    for (const [cell, rule, other] of event.cells) {
      state.rule[cell] = rule;
      if (rule) state.others.set(cell, other); else state.others.delete(cell);
    }
  },
  team() {},
};

async function take({ data }) {
  const event = JSON.parse(data);
  if (event.kind === "again") return readAgain();
  if (isReading) return undefined;
  if ("team" in event) {
    const { revision, trouble, unplaced, uncommitted, broken } = event;
    state.facts[event.team] = { revision, trouble, unplaced, uncommitted, broken };
  }
  HANDLERS[event.kind]?.(event);
  changed();
  showState();
  return undefined;
}

async function readAgain() {
  if (isReading) return;
  isReading = true;
  stream?.close();
  try {
    await loadDesign();
    await loadCells();
  } finally {
    isReading = false;
    follow();
  }
  changed();
}

export function showState(isLost = false) {
  const badge = byId("state"), troubled = state.facts.filter((facts) => facts.trouble).length;
  const isGone = troubled === state.facts.length;
  const text = isLost ? "lefence-view is gone" : !state.design.is_live ? "a file" : isGone ? "the hub is gone" : troubled ? "some teams are not live" : "live";
  badge.textContent = text;
  badge.className = `badge ${isLost || isGone ? "bad" : troubled ? "warn" : "good"} ${text === "live" ? "live" : ""}`;
}

// Listens to events. The stream is closed while nobody sees the page: a page that sleeps costs nothing.
export function follow() {
  stream?.close();
  if (document.hidden || !state.design.is_live) return;
  stream = new EventSource(`events?since=${state.sequence}&page=${page}`);
  stream.onopen = () => showState();
  stream.onmessage = (message) => {
    state.sequence = Number(message.lastEventId);
    take(message);
  };
  stream.onerror = () => {
    stream.close();
    showState(true);
    setTimeout(follow, RETRY);
  };
}

export function startLive() {
  document.addEventListener("visibilitychange", () => { if (document.hidden) stream?.close(); else follow(); });
  for (const [team, change, moved] of state.recent) addChange(team, change, moved);
  drawTeams();
  showState();
  follow();
  redraw();
}
