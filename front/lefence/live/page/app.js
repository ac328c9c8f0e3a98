// Starts the page: reads the design and its cells, follows the address, then listens to what happens.
"use strict";
import * as data from "./data.js";
import * as draw from "./draw.js";
import * as find from "./find.js";
import * as live from "./live.js";
import * as mouse from "./mouse.js";
import * as views from "./view.js";
import * as work from "./work.js";

let saving = 0;

// Keeps the address as the view is. A browser allows few such changes a second.
function saveAddress() {
  clearTimeout(saving);
  saving = setTimeout(() => history.replaceState(null, "", views.addressOf(data.nameOf)), 200);
}

async function start() {
  const begin = performance.now();
  await data.loadDesign();
  const { name, source } = data.state.design;
  document.title = `${name} – lefence`;
  document.getElementById("name").textContent = name;
  document.getElementById("source").textContent = source;
  await data.loadCells();
  draw.measure();
  if (!views.followAddress(location.hash, data.cellNamed)) views.fitAll();
  mouse.startMouse();
  find.startFind();
  work.startWork();
  live.startLive();
  new ResizeObserver(draw.measure).observe(views.stage);
  matchMedia("(prefers-color-scheme: dark)").addEventListener("change", draw.measure);
  window.addEventListener("hashchange", () => { views.followAddress(location.hash, data.cellNamed); find.select(views.shown.selected); });
  views.onView(saveAddress);
  views.viewChanged();
  draw.draw();
  // Tests and curious people may look inside.
  window.lefence = { ...data, ...draw, ...find, ...live, ...mouse, ...views, ...work, seconds: (performance.now() - begin) / 1000 };
}

start().catch((error) => {
  const badge = document.getElementById("state");
  badge.textContent = `the page cannot be shown: ${error.message}`;
  badge.className = "badge bad";
  throw error;
});
