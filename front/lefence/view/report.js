// The page of a report: cells and violations, moves, search, the nets of a chosen cell, and the keys.

let chosen = -1, selected = -1, arrowsShown = true, densityShown = false, beforeShown = false;
const lines = [...document.querySelectorAll("tr[data-go^='v']")];
const search = document.getElementById("search"), foundList = document.getElementById("found"), info = document.getElementById("info");
const when = document.getElementById("when");
// All cells that are drawn one by one. Nets have their numbers.
const cells = [...data.broken, ...data.cells];
// The old place and broken rule of each cell that moved.
const olds = new Map(data.since ? cells.filter((cell) => Object.hasOwn(data.since.before, cell[NAME])).map((cell) => [cell, data.since.before[cell[NAME]]]) : []);
const netsOf = new Map();
for (const net of data.nets) {
  for (let end = 3; end < net.length; end += 3) {
    if (net[end] < 0) continue;
    const own = netsOf.get(net[end]) || [];
    if (own[own.length - 1] !== net) own.push(net);
    netsOf.set(net[end], own);
  }
}

// Where a cell is in the placement that is shown; null if it is unplaced there.
const placeOf = (cell) => (beforeShown && olds.has(cell) ? olds.get(cell)[0] : cell);
const isBroken = (cell) => (beforeShown && olds.has(cell) ? olds.get(cell)[1] !== null : Boolean(cell[RULE]));

function drawCells(areBroken) {
  pen.font = "11px system-ui, sans-serif";
  for (const cell of cells) {
    const box = isBroken(cell) === areBroken ? placeOf(cell) : null;
    if (!box) continue;
    const found = fill(box, areBroken ? data.broken_colour : data.teams[cell[TEAM]][1], areBroken ? "#7d0f0f" : colours.edge);
    if (found) write(cell[NAME], found, "#ffffff");
  }
}

// From the middle of each moved cell's old place to that of its new one.
function drawArrows() {
  if (!data.since || !arrowsShown) return;
  pen.lineWidth = 1.3;
  pen.globalAlpha = 0.85;
  data.since.ways.forEach((colour, way) => {
    pen.strokeStyle = colour;
    pen.beginPath();
    for (const [x0, y0, x1, y1, own] of data.since.arrows) {
      if (own !== way) continue;
      const [fromX, fromY, toX, toY] = [across(x0), down(y0), across(x1), down(y1)];
      if (Math.max(fromX, toX) < 0 || Math.min(fromX, toX) > size.wide || Math.max(fromY, toY) < 0 || Math.min(fromY, toY) > size.high) continue;
      const long = Math.hypot(toX - fromX, toY - fromY), head = Math.min(8, long / 2), turn = Math.atan2(fromY - toY, fromX - toX);
      pen.moveTo(fromX, fromY);
      pen.lineTo(toX, toY);
      for (const aside of [0.45, -0.45]) {
        pen.moveTo(toX, toY);
        pen.lineTo(toX + head * Math.cos(turn + aside), toY + head * Math.sin(turn + aside));
      }
    }
    pen.stroke();
  });
  pen.globalAlpha = 1;
  pen.lineWidth = 0.8;
}

// A frame around a box.
function frame(box, colour, gap) {
  const found = box && seen(box);
  if (!found) return;
  const [x, y, wide, high] = found;
  pen.lineWidth = 2.5;
  pen.strokeStyle = colour;
  pen.strokeRect(x - gap, y - gap, wide + 2 * gap, high + 2 * gap);
  pen.lineWidth = 0.8;
}

// The chosen violation has a frame, and the cell that it meets another.
function drawChosen() {
  if (chosen < 0) return;
  const cell = data.broken[chosen], other = cell[OTHER] === null ? undefined : boxOf(cell[OTHER]);
  frame(other && placeOf(other), colours.warn, 3);
  frame(placeOf(cell), colours.bad, 7);
}

function boxOf(name) {
  return cells.find((cell) => cell[NAME] === name);
}

// The ends of a net in the placement that is shown, each with its cell's number. A cell's pins move with its corner.
function endsOf(net) {
  const ends = [];
  for (let at = 1; at < net.length; at += 3) {
    const number = net[at + 2], cell = cells[number], place = cell && placeOf(cell);
    if (cell && !place) continue;
    const [x, y] = cell ? [place[LEFT] - cell[LEFT], place[BOTTOM] - cell[BOTTOM]] : [0, 0];
    ends.push([net[at] + x, net[at + 1] + y, number]);
  }
  return ends;
}

// From each pin of the selected cell to the other pins of its net.
function drawNets() {
  if (selected < 0) return;
  frame(placeOf(cells[selected]), colours.link, 4);
  pen.strokeStyle = pen.fillStyle = colours.link;
  pen.lineWidth = 1.4;
  for (const net of netsOf.get(selected) || []) {
    const ends = endsOf(net), own = ends.find(([, , number]) => number === selected);
    for (const [x, y] of own ? ends : []) {
      pen.beginPath();
      pen.moveTo(across(own[0]), down(own[1]));
      pen.lineTo(across(x), down(y));
      pen.stroke();
      pen.beginPath();
      pen.arc(across(x), down(y), 2.6, 0, 7);
      pen.fill();
    }
  }
  pen.lineWidth = 0.8;
}

function draw() {
  const ratio = window.devicePixelRatio || 1;
  pen.setTransform(ratio, 0, 0, ratio, 0, 0);
  pen.fillStyle = colours.chip;
  pen.fillRect(0, 0, size.wide, size.high);
  pen.lineWidth = 0.8;
  pen.textAlign = "center";
  pen.textBaseline = "middle";
  drawRows();
  pen.globalAlpha = 0.14;
  data.fences.forEach((rects, team) => rects.forEach((rect) => fill(rect, data.teams[team][1])));
  pen.globalAlpha = 1;
  if (densityShown) drawDensity();
  else if (data.map) drawMap();
  if (!densityShown) drawCells(false);
  drawObstacles();
  if (data.map) drawIllBins();
  drawCells(true);
  drawFences();
  drawNames();
  drawArrows();
  drawNets();
  drawChosen();
  showScale();
}

let waits = false;
function redraw() {
  if (waits) return;
  waits = true;
  requestAnimationFrame(() => { waits = false; draw(); });
}

// Shows a box with some rows around it.
function showBox([left, bottom, wide, high], rows) {
  const around = rows * data.site[1];
  touched = true;
  fit([left - around, bottom - around, wide + 2 * around, high + 2 * around], 1);
  redraw();
}

function show(index) {
  chosen = index;
  select(index);
  lines.forEach((line, number) => line.classList.toggle("here", number === index));
  lines[index].scrollIntoView({ block: "nearest" });
  showBox(placeOf(data.broken[index]) || data.broken[index], data.map ? 4 : 7);
}

// The way of a cell that moved: both its places, with as much around them.
function showMove([, x0, y0, x1, y1]) {
  showBox([Math.min(x0, x1), Math.min(y0, y1), Math.abs(x1 - x0), Math.abs(y1 - y0)], 4);
}

function showTeam(team) {
  const rects = team < data.fences.length ? data.fences[team] : [];
  const box = rects.length ? boxAround(rects) : data.view;
  touched = true;
  fit(box, 0.9);
  redraw();
}

// Writes what is known of a cell into the panel, by its number; hides the panel without one.
function select(number) {
  selected = number;
  info.hidden = number < 0;
  if (number >= 0) {
    const cell = cells[number], old = olds.get(cell), nets = netsOf.get(number) || [];
    const texts = [cell[NAME], `${data.macros[cell[MACRO]]} · team ${data.teams[cell[TEAM]][0]} · ${microns(cell[LEFT])}, ${microns(cell[BOTTOM])} µm`];
    if (cell[RULE]) texts.push(cell[WORDS]);
    if (old) texts.push(old[0] ? `before at ${microns(old[0][LEFT])}, ${microns(old[0][BOTTOM])} µm` : "before without a place");
    if (nets.length) texts.push(`${nets.length} ${nets.length === 1 ? "net" : "nets"}: ${nets.slice(0, 8).map((net) => net[0]).join(", ")}${nets.length > 8 ? ", …" : ""}`);
    info.replaceChildren(...texts.map((text, at) => Object.assign(document.createElement(at ? "p" : "b"), { textContent: text })));
  }
  redraw();
}

function hideOrShow() {
  arrowsShown = !arrowsShown;
  redraw();
}

function switchDensity() {
  densityShown = !densityShown;
  document.getElementById("shares").hidden = !densityShown;
  document.getElementById("density").setAttribute("aria-pressed", densityShown);
  redraw();
}

function resizeBins(by) {
  const wanted = joinedBins * by;
  if (densityShown && wanted >= 1 && wanted < 2 * mostJoined()) joinedBins = wanted;
  redraw();
}

function switchBefore() {
  if (!data.since) return;
  beforeShown = !beforeShown;
  when.textContent = beforeShown ? `before: ${data.since.file}` : `after: ${data.file}`;
  document.getElementById("before").setAttribute("aria-pressed", beforeShown);
  redraw();
}

function showAll() {
  touched = false;
  fitAll();
  redraw();
}

function step(by) {
  const count = data.broken.length;
  if (count) go("v=" + encodeURIComponent(data.broken[chosen < 0 ? (by > 0 ? 0 : count - 1) : (chosen + by + count) % count][NAME]));
}

// A place to show is in the page's address behind #: v=CELL, a violation, m=CELL, a way, c=CELL, a cell, or t=TEAM.
function go(word) {
  try { history.replaceState(null, "", "#" + word); } catch { /* as in a frame without an address */ }
  follow(word);
}

function follow(word) {
  let name;
  try { name = decodeURIComponent(word.slice(2)); } catch { return; }
  if (word.startsWith("v=")) {
    const index = data.broken.findIndex((cell) => cell[NAME] === name);
    if (index >= 0) show(index);
  } else if (word.startsWith("t=")) {
    const index = data.teams.findIndex((team) => team[0] === name);
    if (index >= 0) showTeam(index);
  } else if (word.startsWith("c=")) {
    const index = cells.findIndex((cell) => cell[NAME] === name);
    if (index < 0) return;
    select(index);
    showBox(placeOf(cells[index]) || cells[index], 7);
  } else if (word.startsWith("m=") && data.since) {
    const found = data.since.far.find((far) => far[0] === name);
    if (found) showMove(found);
  }
}

// What the search finds: names with what is done when one is picked.
const names = [
  ...data.teams.map(([name], team) => [name, "team", () => go("t=" + encodeURIComponent(data.teams[team][0]))]),
  ...cells.map((cell) => [cell[NAME], data.macros[cell[MACRO]], () => go("c=" + encodeURIComponent(cell[NAME]))]),
  ...data.obstacles.filter((box) => box[4] !== null).map((box) => [box[4], "FIXED", () => showBox(box, 7)]),
  ...data.unplaced.map((name) => [name, "unplaced", null]),
];
const MOST_FOUND = 12;

// The names that a text is a part of, in any case, or that a pattern with stars matches; equal ones first, then those
// that begin with it.
function matches(text) {
  const wanted = text.toLowerCase(), rank = (name) => (name === wanted ? 0 : name.startsWith(wanted) ? 1 : 2);
  if (text.includes("*")) {
    const pattern = new RegExp("^" + text.split("*").map((part) => part.replace(/[.+?^${}()|[\]\\]/g, "\\$&")).join(".*") + "$", "i");
    return names.filter(([name]) => pattern.test(name));
  }
  const found = names.filter(([name]) => name.toLowerCase().includes(wanted)), order = new Intl.Collator("en", { numeric: true });
  return found.sort(([one], [two]) => rank(one.toLowerCase()) - rank(two.toLowerCase()) || order.compare(one, two));
}

function find() {
  const text = search.value.trim(), found = text ? matches(text) : [];
  const entries = found.slice(0, MOST_FOUND).map(([name, kind, pick]) => {
    const entry = document.createElement("button");
    entry.append(name, Object.assign(document.createElement("small"), { textContent: kind }));
    entry.disabled = !pick;
    entry.addEventListener("click", () => { pick(); endSearch(); });
    return entry;
  });
  const more = found.length > MOST_FOUND ? `and ${(found.length - MOST_FOUND).toLocaleString("en")} more` : "";
  const none = text && !found.length ? (data.map ? "no drawn cell has this name" : "nothing has this name") : "";
  foundList.replaceChildren(...entries, ...[more, none].filter(Boolean).map((words) => Object.assign(document.createElement("p"), { textContent: words })));
  foundList.hidden = !text;
}

function endSearch() {
  foundList.hidden = true;
  canvas.focus({ preventScroll: true });
}

function measure() {
  const box = canvas.parentElement.getBoundingClientRect(), ratio = window.devicePixelRatio || 1;
  const style = getComputedStyle(document.documentElement);
  size = { wide: Math.max(1, canvas.parentElement.clientWidth), high: Math.max(1, box.height - 2) };
  canvas.width = Math.round(size.wide * ratio);
  canvas.height = Math.round(size.high * ratio);
  for (const name of ["chip", "row", "rowline", "fixed", "blocked", "soft", "label", "edge", "ink", "card", "bad", "warn", "link"]) {
    colours[name] = style.getPropertyValue("--" + name).trim();
  }
  if (!touched) fitAll();
  redraw();
}

// Whether a box has the point under the pointer.
function holder(x, y) {
  const unitsX = at.x + (x - size.wide / 2) / at.scale, unitsY = at.y - (y - size.high / 2) / at.scale;
  return (box) => box && unitsX >= box[LEFT] && unitsX < box[LEFT] + box[WIDE] && unitsY >= box[BOTTOM] && unitsY < box[BOTTOM] + box[HIGH];
}

// What is under the pointer; with the density map also its bin.
function under(x, y) {
  const holds = holder(x, y), bin = densityShown ? densityBins().find((each) => holds(each.box)) : undefined;
  const size = bin && `${microns(bin.box[WIDE])} × ${microns(bin.box[HIGH])} µm`;
  return [thingUnder(holds), bin && `${shareText(bin)} of the rows taken in ${size}`].filter(Boolean).join("\n");
}

function thingUnder(holds) {
  const place = (box) => `${microns(box[LEFT])}, ${microns(box[BOTTOM])} µm`;
  const ill = data.broken.find((cell) => !beforeShown && holds(cell));
  if (ill) return `${ill[WORDS]}\n${data.macros[ill[MACRO]]} · team ${data.teams[ill[TEAM]][0]} · ${place(ill)}`;
  const fixed = data.obstacles.find(holds);
  if (fixed) return `${fixed[4] === null ? "blockage" : fixed[4] + " (FIXED)"}\n${place(fixed)}`;
  const cell = cells.find((each) => holds(placeOf(each)));
  return cell ? `${cell[NAME]}\n${data.macros[cell[MACRO]]} · team ${data.teams[cell[TEAM]][0]} · ${place(placeOf(cell))}` : "";
}

function point(event) {
  const text = under(event.offsetX, event.offsetY);
  tip.hidden = !text;
  tip.textContent = text;
  const right = event.offsetX > size.wide / 2;
  tip.style.left = right ? "auto" : `${event.offsetX + 14}px`;
  tip.style.right = right ? `${size.wide - event.offsetX + 10}px` : "auto";
  tip.style.top = `${Math.min(event.offsetY + 14, size.high - 60)}px`;
}

// A click selects the cell under it, or none.
function pick(x, y) {
  const holds = holder(x, y), number = cells.findIndex((cell) => holds(placeOf(cell)));
  select(number);
  if (number >= 0) {
    try { history.replaceState(null, "", "#c=" + encodeURIComponent(cells[number][NAME])); } catch { /* as in `go` */ }
  }
}

const fingers = new Map();
let pressed = null;
canvas.addEventListener("pointerdown", (event) => {
  canvas.setPointerCapture(event.pointerId);
  fingers.set(event.pointerId, event);
  pressed = fingers.size === 1 ? [event.offsetX, event.offsetY] : null;
  canvas.classList.add("drags");
  tip.hidden = true;
});
canvas.addEventListener("pointermove", (event) => {
  const before = fingers.get(event.pointerId);
  if (!before) return point(event);
  if (pressed && Math.hypot(event.offsetX - pressed[0], event.offsetY - pressed[1]) > 4) pressed = null;
  touched = true;
  const other = [...fingers.values()].find((finger) => finger.pointerId !== event.pointerId);
  fingers.set(event.pointerId, event);
  if (!other) return move(event.offsetX - before.offsetX, event.offsetY - before.offsetY);
  const far = (one) => Math.hypot(one.offsetX - other.offsetX, one.offsetY - other.offsetY) || 1;
  zoom(far(event) / far(before), (event.offsetX + other.offsetX) / 2, (event.offsetY + other.offsetY) / 2);
});
for (const kind of ["pointerup", "pointercancel"]) {
  canvas.addEventListener(kind, (event) => {
    fingers.delete(event.pointerId);
    canvas.classList.remove("drags");
    if (kind === "pointerup" && pressed) pick(...pressed);
    pressed = null;
  });
}
canvas.addEventListener("pointerleave", () => { tip.hidden = true; });
canvas.addEventListener("wheel", (event) => {
  event.preventDefault();
  touched = true;
  zoom(Math.exp(-event.deltaY * (event.deltaMode ? 0.05 : 0.0016)), event.offsetX, event.offsetY);
}, { passive: false });
canvas.addEventListener("keydown", (event) => {
  const far = 60, ways = { ArrowLeft: [far, 0], ArrowRight: [-far, 0], ArrowUp: [0, far], ArrowDown: [0, -far] };
  const keys = {
    "+": () => zoom(1.4), "=": () => zoom(1.4), "-": () => zoom(1 / 1.4), 0: showAll, n: () => step(1), p: () => step(-1),
    m: hideOrShow, d: switchDensity, "[": () => resizeBins(0.5), "]": () => resizeBins(2), b: switchBefore, Escape: () => select(-1),
  };
  if (event.ctrlKey || event.metaKey || event.altKey || !(event.key in ways || event.key in keys)) return;
  event.preventDefault();
  if (event.key in ways) { touched = true; move(...ways[event.key]); } else keys[event.key]();
});
document.addEventListener("keydown", (event) => {
  if (event.key !== "/" || event.target === search || event.ctrlKey || event.metaKey || event.altKey) return;
  event.preventDefault();
  search.focus();
  search.select();
});
search.addEventListener("input", find);
search.addEventListener("focus", find);
search.addEventListener("keydown", (event) => {
  const entry = foundList.querySelector("button:not(:disabled)");
  if (event.key === "Enter" && entry) entry.click();
  if (event.key === "Escape") endSearch();
});
document.addEventListener("pointerdown", (event) => { if (!event.target.closest(".find")) foundList.hidden = true; });
document.getElementById("in").addEventListener("click", () => { touched = true; zoom(1.6); });
document.getElementById("out").addEventListener("click", () => { touched = true; zoom(1 / 1.6); });
document.getElementById("all").addEventListener("click", showAll);
document.getElementById("density").addEventListener("click", switchDensity);
document.getElementById("ways").addEventListener("click", hideOrShow);
document.getElementById("before").addEventListener("click", switchBefore);
for (const id of ["ways", "before", "when"]) document.getElementById(id).hidden = !data.since;
if (data.since) when.textContent = `after: ${data.file}`;
document.addEventListener("click", (event) => {
  const line = event.target.closest("tr[data-go]");
  if (!line) return;
  event.preventDefault();
  go(line.dataset.go);
});
window.addEventListener("hashchange", () => follow(location.hash.slice(1)));
matchMedia("(prefers-color-scheme: dark)").addEventListener("change", measure);
new ResizeObserver(measure).observe(canvas.parentElement);
measure();
follow(location.hash.slice(1));
