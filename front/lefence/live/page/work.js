// Work for teams whose cells this page may change: everything is a line of the protocol, shown in the console.
"use strict";
import { boxOf, cellNamed, heightOf, isPlaced, microns, nameOf, state, widthOf } from "./data.js";
import { redraw } from "./draw.js";
import { onSelect, select } from "./find.js";
import { element, onChange, page } from "./live.js";
import { mover, setMode } from "./mouse.js";
import { shown } from "./view.js";

const byId = (id) => document.getElementById(id);
const MOST_LINES = 500, NOTICE = 7000;
const BUTTONS = { undo: "Undo", tidy: "Tidy", commit: "Commit", revert: "Revert", unplace: "Unplace", swap: "Swap", nearest: "Legalize here" };
// The revision of each team that this page shows, from its events and its own replies.
const seen = new Map();
// The cell that is dragged, and where in it the pointer is; whether a `find` is under way, and the next target for one.
let dragged = null, isFinding = false, target = null, partner = -1, noticeTimer = 0;

const teamName = (cell) => state.design.teams[state.team[cell]].name;
const isEditable = (name) => state.design.editable.includes(name);
const revisionOf = (name) => {
  const at = state.design.teams.findIndex((team) => team.name === name);
  return Math.max(seen.get(name) || 0, state.facts[at]?.revision || 0);
};

export function notice(text, isBad = false) {
  const box = byId("notice");
  box.textContent = text;
  box.className = isBad ? "bad" : "";
  box.hidden = false;
  clearTimeout(noticeTimer);
  noticeTimer = setTimeout(() => { box.hidden = true; }, NOTICE);
}

// Sends a line without team and session; returns the answer. A refusal is shown, with the other cell.
export async function send(team, line, isQuiet = false) {
  const body = JSON.stringify({ page, team, line, revision: revisionOf(team) });
  let answer;
  try {
    const reply = await fetch("work", { method: "POST", headers: { "Content-Type": "application/json" }, body });
    answer = reply.ok ? await reply.json() : { line, reply: "", refusal: await reply.text(), fields: [] };
  } catch (error) {
    answer = { line, reply: "", refusal: `lefence-view does not answer: ${error.message}`, fields: [] };
  }
  if (!isQuiet) addLine(answer);
  if (answer.refusal && !isQuiet) refuse(team, answer);
  const isNew = answer.reply.startsWith("ok ") && answer.revision !== undefined;
  if (isNew) seen.set(team, answer.revision);
  return answer;
}

function refuse(team, answer) {
  const [, number, ...words] = answer.reply.split(" ");
  if (number === "4") return becomeFresh(team, Number(words.at(-1)));
  notice(answer.refusal, true);
  const other = number === "7" && answer.fields.length > 2 ? cellNamed(answer.fields[2]) : -1;
  if (other >= 0) {
    shown.other = other;
    redraw();
  }
  return undefined;
}

// Another session has changed the team. The page shows that first; then its session syncs, and the user decides again.
async function becomeFresh(team, revision) {
  notice(`Stale: another session has changed team ${team}, now at revision ${revision}. Look at it, then try again.`, true);
  const at = state.design.teams.findIndex((each) => each.name === team);
  while ((state.facts[at]?.revision || 0) < revision) await new Promise((done) => setTimeout(done, 50));
  await send(team, "sync");
}

function addLine({ line, reply, refusal }) {
  const lines = byId("lines");
  lines.append(element("div", { className: "sent" }, line));
  lines.append(element("div", { className: refusal ? "bad" : "faint" }, reply && reply.length > 400 ? `${reply.slice(0, 400)} …` : reply || refusal));
  if (refusal && reply) lines.append(element("div", { className: "bad" }, refusal));
  while (lines.children.length > MOST_LINES) lines.firstChild.remove();
  lines.scrollTop = lines.scrollHeight;
}

// Dragging: the ghost is where `find` says that the cell may go for the pointer.
mover.begin = (cell, x, y) => {
  if (cell < 0 || !isEditable(teamName(cell))) return false;
  const box = boxOf(cell);
  dragged = { cell, x: x - box[0], y: y - box[1] };
  select(cell);
  return true;
};
mover.drag = (x, y) => {
  shown.drag = [x - dragged.x, y - dragged.y, widthOf(dragged.cell), heightOf(dragged.cell)];
  target = [Math.round(shown.drag[0]), Math.round(shown.drag[1])];
  redraw();
  if (!isFinding) find(dragged.cell);
};
mover.cancel = () => {
  dragged = target = null;
  Object.assign(shown, { drag: null, ghost: null });
  byId("measure").textContent = "";
  redraw();
};
mover.drop = async (x, y) => {
  const { cell } = dragged, place = [Math.round(x - dragged.x), Math.round(y - dragged.y)];
  mover.cancel();
  await send(teamName(cell), `legalize ${nameOf(cell)} ${place.join(" ")}`);
};

// Asks for the best place for the last target, one question at a time.
async function find(cell) {
  isFinding = true;
  while (target && dragged?.cell === cell) {
    const [x, y] = target;
    target = null;
    const answer = await send(teamName(cell), `find ${nameOf(cell)} ${x} ${y}`, true), words = answer.reply.split(" ");
    if (dragged?.cell !== cell) break;
    const orient = state.design.orients.indexOf(words[3]);
    shown.ghost = words[0] === "ok" ? [Number(words[1]), Number(words[2]), widthOf(cell, orient), heightOf(cell, orient)] : null;
    const way = words[0] === "ok" ? Math.abs(words[1] - x) + Math.abs(words[2] - y) : 0;
    byId("measure").textContent = shown.ghost ? `legal at ${microns(words[1])}, ${microns(words[2])} µm ${words[3]}, ${microns(way)} µm from the pointer` : answer.refusal || "";
    redraw();
  }
  isFinding = false;
}

// The bar is made once, and then only what its parts say and do: a part that is replaced while the mouse is down gets no click.
function makeWork() {
  const choice = element("select", { id: "work-team", ariaLabel: "Team" }, ...state.design.editable.map((name) => element("option", { value: name }, name)));
  choice.addEventListener("change", () => { shown.selected = -1; drawWork(); });
  const buttons = Object.entries(BUTTONS).map(([id, text]) => element("button", { id: `work-${id}` }, text));
  byId("work").replaceChildren(choice, element("span", { className: "faint", id: "work-revision" }), ...buttons);
  byId("work-swap").title = "Exchanges the places of two cells: choose the other one next";
}

function drawWork() {
  const cell = shown.selected, own = cell >= 0 && isEditable(teamName(cell)) ? teamName(cell) : null;
  const team = own || byId("work-team").value, name = own ? nameOf(cell) : "";
  const other = partner >= 0 && partner !== cell && own && teamName(partner) === own ? partner : -1;
  const set = (id, line, isOff = false, title = line) => Object.assign(byId(`work-${id}`), { title, disabled: isOff, onclick: () => send(team, line) });
  byId("work-team").value = team;
  byId("work-revision").textContent = `revision ${revisionOf(team)}`;
  for (const verb of ["undo", "tidy", "commit", "revert"]) set(verb, verb);
  set("unplace", `unplace ${name}`, !own || !isPlaced(cell));
  set("nearest", own ? `legalize ${name} ${state.now.x[cell]} ${state.now.y[cell]}` : "", !own, "Moves the cell to the nearest legal place");
  const choose = () => { partner = partner >= 0 ? -1 : cell; notice("Choose the cell to swap with."); drawWork(); };
  Object.assign(byId("work-swap"), { textContent: partner >= 0 ? "Swap with .." : BUTTONS.swap, disabled: !own, onclick: choose });
  if (other >= 0) {
    const line = `swap ${nameOf(other)} ${name}`;
    partner = -1;
    send(team, line).then(drawWork);
  }
}

async function ask(event) {
  event.preventDefault();
  const line = byId("ask-line").value.trim(), team = byId("ask-team").value;
  if (!line) return;
  byId("ask-line").value = "";
  await send(team, line);
}

export function startWork() {
  const { editable, teams, is_live: isLive } = state.design;
  byId("ask").addEventListener("submit", ask);
  byId("ask-team").replaceChildren(...teams.map(({ name }) => element("option", { value: name }, name)));
  document.querySelector("nav [data-tab='console']").hidden = !isLive;
  if (!editable.length) return;
  byId("ask-team").value = editable[0];
  byId("work").hidden = byId("mode-move").hidden = false;
  makeWork();
  onSelect(drawWork);
  onChange(drawWork);
  drawWork();
  setMode("move");
}
