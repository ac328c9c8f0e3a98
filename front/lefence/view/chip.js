"use strict";
// The picture of a design: where it is on the canvas, and what is drawn of the floorplan. The page has the design in the
// element `data`, and puts the colours of its style into `colours`; what else it shows, it draws itself.
const data = JSON.parse(document.getElementById("data").textContent);
const canvas = document.getElementById("view"), tip = document.getElementById("tip"), pen = canvas.getContext("2d");
const scaleBar = document.getElementById("scale");
// Where the picture is: the database units at its middle, and pixels in a unit.
const at = { x: 0, y: 0, scale: 1 };
let size = { wide: 1, high: 1 }, colours = {}, touched = false;
const [LEFT, BOTTOM, WIDE, HIGH, TEAM, MACRO, NAME, RULE, OTHER, WORDS] = [0, 1, 2, 3, 4, 5, 6, 7, 8, 9];
// Boxes less high than this many pixels have no names in them. Fences have theirs while rows are less high, or while they
// are in the picture as a whole.
const LABELLED = 30;
const bins = data.map && data.map.paths.map(([team, shade, path]) => [team, shade, new Path2D(path)]);
const illBins = data.map && data.map.broken.map(([, shade, path]) => [shade, new Path2D(path)]);

const across = (x) => size.wide / 2 + (x - at.x) * at.scale;
const down = (y) => size.high / 2 - (y - at.y) * at.scale;
const least = () => 0.6 * Math.min(size.wide / data.view[WIDE], size.high / data.view[HIGH]);

function fit([left, bottom, wide, high], share) {
  at.x = left + wide / 2;
  at.y = bottom + high / 2;
  at.scale = share * Math.min(size.wide / Math.max(wide, 1), size.high / Math.max(high, 1));
}

// All of the design, above the legend where there is too little room beside it.
function fitAll() {
  const room = document.querySelector(".legend").offsetHeight + 14;
  at.scale = Math.min(size.wide / data.view[WIDE], Math.max(size.high - room, 80) / data.view[HIGH]);
  const beside = (size.high - data.view[HIGH] * at.scale) / 2;
  at.x = data.view[LEFT] + data.view[WIDE] / 2;
  at.y = data.view[BOTTOM] + data.view[HIGH] / 2 - Math.max(0, Math.min(room, size.high - 80) - beside) / at.scale;
}

function zoom(by, x = size.wide / 2, y = size.high / 2) {
  const before = at.scale;
  at.scale = Math.min(Math.max(at.scale * by, least()), 60 / data.site[0] * 8);
  at.x += (x - size.wide / 2) * (1 / before - 1 / at.scale);
  at.y -= (y - size.high / 2) * (1 / before - 1 / at.scale);
  redraw();
}

function move(x, y) {
  at.x -= x / at.scale;
  at.y += y / at.scale;
  redraw();
}

// A box in pixels; null where it is out of sight.
function seen(box) {
  const x = across(box[LEFT]), y = down(box[BOTTOM] + box[HIGH]), wide = box[WIDE] * at.scale, high = box[HIGH] * at.scale;
  return x > size.wide || y > size.high || x + wide < 0 || y + high < 0 ? null : [x, y, wide, high];
}

function fill(box, colour, edge) {
  const found = seen(box);
  if (!found) return null;
  const [x, y, wide, high] = found;
  pen.fillStyle = colour;
  pen.fillRect(x, y, Math.max(wide, 0.7), Math.max(high, 0.7));
  if (edge && wide > 3 && high > 3) {
    pen.strokeStyle = edge;
    pen.strokeRect(x, y, wide, high);
  }
  return found;
}

// A name where it has room; a long one by its last part.
function write(text, [x, y, wide, high], colour) {
  const room = Math.floor((wide - 6) / 6.4), slash = text.lastIndexOf("/");
  const short = text.length > room && slash > 0 ? "…" + text.slice(slash) : text;
  if (high < LABELLED || short.length > room) return;
  pen.fillStyle = colour;
  pen.fillText(short, x + wide / 2, y + high / 2);
}

function drawRows() {
  for (const block of data.rows) {
    const found = fill(block, colours.row);
    const step = data.site[1] * at.scale;
    if (!found || step < 4) continue;
    const [x, , wide] = found;
    pen.strokeStyle = colours.rowline;
    pen.beginPath();
    const first = Math.max(0, Math.ceil((at.y - size.high / 2 / at.scale - block[BOTTOM]) / data.site[1]));
    const last = Math.min(block[HIGH] / data.site[1], (at.y + size.high / 2 / at.scale - block[BOTTOM]) / data.site[1]);
    for (let row = first; row <= last; row += 1) {
      const y = down(block[BOTTOM] + row * data.site[1]);
      pen.moveTo(Math.max(x, -2), y);
      pen.lineTo(Math.min(x + wide, size.wide + 2), y);
    }
    pen.stroke();
  }
}

function drawMap() {
  const { side, left, bottom } = data.map, step = side * at.scale, fade = data.cells.length && step > 40 ? 0.35 : 1;
  pen.save();
  pen.transform(step, 0, 0, -step, across(left), down(bottom));
  for (const [team, shade, path] of bins) {
    pen.globalAlpha = (0.1 + 0.85 * shade / data.shades) * fade;
    pen.fillStyle = team < 0 ? colours.fixed : data.teams[team][1];
    pen.fill(path);
  }
  pen.restore();
}

// The bins in which rules are broken, until the cells themselves can be seen.
function drawIllBins() {
  const { side, left, bottom } = data.map, step = side * at.scale;
  if (step > 40) return;
  pen.save();
  pen.transform(step, 0, 0, -step, across(left), down(bottom));
  pen.fillStyle = data.broken_colour;
  for (const [shade, path] of illBins) {
    pen.globalAlpha = 0.6 + 0.4 * shade / data.shades;
    pen.fill(path);
  }
  pen.restore();
}

function drawFences() {
  pen.lineWidth = 1.6;
  data.fences.forEach((rects, team) => {
    pen.strokeStyle = data.teams[team][1];
    for (const rect of rects) {
      const found = seen(rect);
      if (found) pen.strokeRect(...found);
    }
  });
  pen.lineWidth = 0.8;
}

function drawNames() {
  pen.font = "600 13px system-ui, sans-serif";
  data.fences.forEach((rects, team) => {
    const found = rects.length && seen(rects.reduce((a, b) => (b[WIDE] * b[HIGH] > a[WIDE] * a[HIGH] ? b : a)));
    if (!found) return;
    const [x, y, wide, high] = found, name = data.teams[team][0], long = pen.measureText(name).width + 14;
    const isWhole = wide <= size.wide && high <= size.high;
    if (long > wide || high < 40 || (data.site[1] * at.scale >= LABELLED && !isWhole)) return;
    pen.fillStyle = colours.label;
    pen.beginPath();
    pen.roundRect(x + wide / 2 - long / 2, y + high / 2 - 11, long, 22, 6);
    pen.fill();
    pen.fillStyle = colours.ink;
    pen.fillText(name, x + wide / 2, y + high / 2);
  });
}

function drawObstacles() {
  for (const box of data.obstacles) {
    const found = fill(box, box[4] === null ? colours.blocked : colours.fixed, colours.edge);
    if (!found || box[4] === null) continue;
    const [x, y, wide, high] = found;
    if (Math.min(wide, high) < 12) continue;
    pen.strokeStyle = colours.edge;
    pen.beginPath();
    pen.moveTo(x, y);
    pen.lineTo(x + wide, y + high);
    pen.moveTo(x, y + high);
    pen.lineTo(x + wide, y);
    pen.stroke();
    write(box[4], found, colours.card);
  }
  pen.setLineDash([4, 3]);
  for (const box of data.soft) {
    const found = seen(box);
    pen.strokeStyle = colours.soft;
    if (found) pen.strokeRect(...found);
  }
  pen.setLineDash([]);
}

function boxAround(rects) {
  const left = Math.min(...rects.map((box) => box[LEFT])), bottom = Math.min(...rects.map((box) => box[BOTTOM]));
  const right = Math.max(...rects.map((box) => box[LEFT] + box[WIDE])), top = Math.max(...rects.map((box) => box[BOTTOM] + box[HIGH]));
  return [left, bottom, right - left, top - bottom];
}

// Lengths and places in microns, without zeros at their end.
function microns(units) {
  return (units / data.units).toFixed(3).replace(/\.?0+$/, "");
}

// A bar of a round length, at most 120 pixels long.
function showScale() {
  const wanted = 120 / at.scale / data.units, power = 10 ** Math.floor(Math.log10(wanted));
  const length = [5, 2, 1].find((step) => step * power <= wanted) * power;
  scaleBar.style.width = `${length * data.units * at.scale}px`;
  scaleBar.textContent = length >= 1000 ? `${length / 1000} mm` : `${Number(length.toPrecision(1))} µm`;
}

// The density map has bins of `data.density.side`, joined to squares of `joinedBins` times as many along each side. The
// first ones are of four rows at least.
let joinedBins = 1;
while (joinedBins * data.density.side < 4 * data.site[1]) joinedBins *= 2;
const mostJoined = () => Math.max(data.density.columns, data.density.used.length / data.density.columns);
const joinedMaps = new Map();

// The bins of the density map: for each its box, and the area of cells in it by the free area of rows; null without both.
function densityBins() {
  if (!joinedMaps.has(joinedBins)) {
    const { side, left, bottom, wide, high, columns, used, room } = data.density, found = new Map(), step = joinedBins * side;
    for (let place = 0; place < used.length; place += 1) {
      const column = Math.floor(place % columns / joinedBins), row = Math.floor(Math.floor(place / columns) / joinedBins);
      const key = `${column} ${row}`, [x, y] = [column * step, row * step];
      const bin = found.get(key) || { box: [left + x, bottom + y, Math.min(step, wide - x), Math.min(step, high - y)], used: 0, room: 0 };
      bin.used += used[place];
      bin.room += room[place];
      found.set(key, bin);
    }
    joinedMaps.set(joinedBins, [...found.values()].filter((bin) => bin.used > 0 || bin.room > 0));
  }
  return joinedMaps.get(joinedBins);
}

const shareOf = (bin) => (bin.room > 0 ? bin.used / bin.room : Infinity);
const shareText = (bin) => (bin.room > 0 ? `${Math.round(100 * bin.used / bin.room)} %` : "no room");

// The colours of shares, with those between them in between; above the last one all are alike.
const SHARES = [
  [0, [247, 251, 253]], [0.4, [191, 211, 230]], [0.7, [140, 150, 198]], [0.85, [140, 107, 177]], [0.95, [129, 60, 150]],
  [1, [95, 10, 100]], [1.02, [255, 150, 20]],
];

function shareColour(share) {
  const last = SHARES.findIndex(([most]) => share <= most);
  if (last <= 0) return `rgb(${(last < 0 ? SHARES[SHARES.length - 1] : SHARES[0])[1]})`;
  const [[low, dark], [high, light]] = [SHARES[last - 1], SHARES[last]], part = (share - low) / (high - low);
  return `rgb(${dark.map((value, at) => Math.round(value + part * (light[at] - value)))})`;
}

function drawDensity() {
  pen.font = "11px system-ui, sans-serif";
  for (const bin of densityBins()) {
    const found = fill(bin.box, shareColour(shareOf(bin)), colours.edge);
    if (found && found[2] > 38 && found[3] > 14) {
      pen.fillStyle = shareOf(bin) > 0.75 && shareOf(bin) < 1.01 ? "#ffffff" : "#1d232b";
      pen.fillText(shareText(bin), found[0] + found[2] / 2, found[1] + found[3] / 2);
    }
  }
}
