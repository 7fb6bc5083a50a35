"use strict";
const main = document.querySelector("main");
const tip = document.getElementById("view-tip");
const pinned = document.getElementById("view-pinned");
const chooser = document.getElementById("view-place"); // there where the document has several pages
const pages = [...document.querySelectorAll("template.view-page")];
const switched = new Map(); // by layer: whether it is shown, where its switch was used
let place = -1; // of the page that is shown
let overlay, width, height;
let scale = 1, fit = fitWidth; // fit keeps a page at the size of the window, where it was asked for

// The zoom.

function zoom(wanted, x, y) {
  const box = overlay.getBoundingClientRect();
  const pane = main.getBoundingClientRect();
  const atX = x ?? pane.left + pane.width / 2, atY = y ?? pane.top + pane.height / 2;
  const pageX = (atX - box.left) / scale, pageY = (atY - box.top) / scale;
  scale = Math.min(Math.max(wanted, 0.02), 64);
  overlay.style.width = width * scale + "px";
  overlay.style.height = height * scale + "px";
  main.classList.toggle("large", scale > 2);
  const now = overlay.getBoundingClientRect();
  main.scrollLeft += now.left + pageX * scale - atX;
  main.scrollTop += now.top + pageY * scale - atY;
  document.getElementById("view-scale").textContent = Math.round(scale * 100) + "%";
}
function room() { return [main.clientWidth - 24, main.clientHeight - 24]; }
function fitWidth() { zoom(room()[0] / width); }
function fitWhole() { zoom(Math.min(room()[0] / width, room()[1] / height)); }
function keep(how) { fit = how; how(); }
function free(wanted, x, y) { fit = null; zoom(wanted, x, y); }

// The layers.

function show(input) { document.getElementById(input.dataset.group).style.display = input.checked ? "" : "none"; }
function followSwitches() {
  for (const input of document.querySelectorAll("#view-layers input")) {
    input.checked = switched.get(input.dataset.layer) ?? input.checked;
    input.addEventListener("change", () => { switched.set(input.dataset.layer, input.checked); show(input); });
    show(input);
  }
}

// The pages.

function turn(wanted) {
  if (wanted === place) return;
  place = wanted;
  const left = main.scrollLeft;
  const page = document.importNode(pages[place].content, true);
  document.getElementById("view-facts").replaceChildren(page.querySelector(".view-facts"));
  document.getElementById("view-layers").replaceChildren(page.querySelector(".view-layers"));
  overlay = page.querySelector("svg");
  main.replaceChildren(overlay);
  [width, height] = [overlay.viewBox.baseVal.width, overlay.viewBox.baseVal.height];
  followSwitches();
  if (fit) fit(); else zoom(scale);
  main.scrollTop = 0;
  main.scrollLeft = left;
  tip.style.display = "none";
  pinned.textContent = "Point at the page.";
  if (!chooser) return;
  chooser.value = place;
  document.getElementById("view-previous").disabled = place === 0;
  document.getElementById("view-next").disabled = place === pages.length - 1;
}
function address(id) { location.replace("#" + encodeURIComponent(id)); } // the way back leads out of the document
function go(wanted) { if (pages[wanted]) address(pages[wanted].dataset.id); }
if (chooser) chooser.addEventListener("change", () => go(Number(chooser.value)));

const actions = {
  "view-less": () => free(scale / 1.25), "view-more": () => free(scale * 1.25),
  "view-width": () => keep(fitWidth), "view-whole": () => keep(fitWhole), "view-one": () => free(1),
  "view-previous": () => go(place - 1), "view-next": () => go(place + 1),
};
for (const [id, action] of Object.entries(actions)) document.getElementById(id)?.addEventListener("click", action);
const keys = { "-": "view-less", "+": "view-more", "=": "view-more", w: "view-width", 0: "view-whole", 1: "view-one" };
Object.assign(keys, { p: "view-previous", n: "view-next", ArrowLeft: "view-previous", ArrowRight: "view-next" });
document.addEventListener("keydown", event => {
  const isWide = main.scrollWidth > main.clientWidth && event.key.startsWith("Arrow"); // then the arrows move the page
  if (event.ctrlKey || event.metaKey || event.altKey || event.target === chooser || isWide) return;
  actions[keys[event.key]]?.();
});
main.addEventListener("wheel", event => {
  if (!event.ctrlKey) return;
  event.preventDefault();
  free(scale * Math.exp(-event.deltaY / 400), event.clientX, event.clientY);
}, { passive: false });

let grip = null, moved = false;
main.addEventListener("pointerdown", event => { if (event.button === 0) { grip = event; moved = false; } });
window.addEventListener("pointermove", event => {
  if (!grip) return;
  moved = moved || Math.hypot(event.clientX - grip.clientX, event.clientY - grip.clientY) > 3;
  if (!moved) return;
  main.classList.add("dragged");
  main.scrollLeft -= event.movementX;
  main.scrollTop -= event.movementY;
});
window.addEventListener("pointerup", () => { grip = null; main.classList.remove("dragged"); });

// The element under the pointer, and the one that the address names.

function entry(rect) {
  const block = document.createElement("div");
  const name = document.createElement("b");
  name.textContent = rect.id;
  block.append(name);
  for (const fact of rect.dataset.facts.split("\n")) {
    const line = document.createElement("div");
    line.textContent = fact;
    block.append(line);
  }
  return block;
}
function under(event) {
  return document.elementsFromPoint(event.clientX, event.clientY).filter(found => found.dataset && found.dataset.facts);
}
main.addEventListener("mousemove", event => {
  const found = under(event);
  overlay.querySelectorAll(".under").forEach(rect => rect.classList.remove("under"));
  if (found.length) found[0].classList.add("under");
  tip.style.display = found.length && !grip ? "block" : "none";
  tip.replaceChildren(...found.map(entry));
  const size = tip.getBoundingClientRect();
  tip.style.left = Math.min(event.clientX + 16, innerWidth - size.width - 4) + "px";
  tip.style.top = Math.max(4, Math.min(event.clientY + 16, innerHeight - size.height - 4)) + "px";
});
main.addEventListener("mouseleave", () => { tip.style.display = "none"; });
main.addEventListener("click", event => {
  const found = under(event);
  if (found.length && !moved) address(found[0].id);
});
function pin(rect) {
  overlay.querySelectorAll(".pinned").forEach(other => other.classList.remove("pinned"));
  rect.classList.add("pinned");
  pinned.replaceChildren(entry(rect));
  const at = rect.getBoundingClientRect(), pane = main.getBoundingClientRect();
  const isSeen = at.right > pane.left && at.left < pane.right && at.bottom > pane.top && at.top < pane.bottom;
  if (!isSeen) rect.scrollIntoView({ block: "center", inline: "center" });
}
function named() {
  try { return decodeURIComponent(location.hash.slice(1)); } catch { return ""; }
}
function followAddress() {
  const id = named();
  const wanted = pages.findIndex(page => page.dataset.id === id || page.content.getElementById(id)?.dataset.facts);
  turn(wanted >= 0 ? wanted : Math.max(place, 0));
  const rect = document.getElementById(id);
  if (rect?.dataset.facts) pin(rect);
}
window.addEventListener("hashchange", followAddress);
followAddress();
