"use strict";
// Without this script the page shows all the same. It filters rows, and tells of the part under the pointer or the keys.
const tip = document.getElementById("tip"), told = document.getElementById("told");
const box = document.getElementById("filter"), found = document.getElementById("found");
const rows = [...document.querySelectorAll(".rows tbody tr")];

function show(target, x, y) {
  tip.hidden = !target;
  if (!target) return;
  tip.textContent = target.dataset.tip;
  const room = tip.getBoundingClientRect();
  tip.style.setProperty("left", Math.max(4, Math.min(x + 14, innerWidth - room.width - 8)) + "px");
  tip.style.setProperty("top", (y + 18 + room.height < innerHeight ? y + 18 : y - room.height - 10) + "px");
}
document.addEventListener("pointermove", (event) => show(event.target.closest("[data-tip]"), event.clientX, event.clientY));
document.addEventListener("pointerleave", () => show(null));

for (const plot of document.querySelectorAll("svg.plot")) {
  const parts = [...plot.querySelectorAll(".part")];
  let at = -1;
  plot.addEventListener("keydown", (event) => {
    const step = { ArrowLeft: -1, ArrowRight: 1, PageUp: -10, PageDown: 10, Home: -parts.length, End: parts.length }[event.key];
    if (!step || !parts.length) return;
    event.preventDefault();
    if (at >= 0) parts[at].classList.remove("on");
    at = Math.max(0, Math.min(parts.length - 1, at + step));
    parts[at].classList.add("on");
    const place = parts[at].getBoundingClientRect();
    show(parts[at], place.left, place.bottom);
    told.textContent = parts[at].dataset.tip;
  });
  plot.addEventListener("blur", () => { if (at >= 0) parts[at].classList.remove("on"); at = -1; show(null); });
}

function filter() {
  const words = box.value.toLowerCase().split(/\s+/).filter(Boolean);
  let count = 0;
  for (const row of rows) {
    const text = row.textContent.toLowerCase();
    row.hidden = !words.every((word) => text.includes(word));
    count += !row.hidden;
  }
  for (const session of document.querySelectorAll(".session")) {
    const title = session.querySelector("summary").textContent.toLowerCase();
    const inside = [...session.querySelectorAll("tbody tr")];
    if (words.length && words.every((word) => title.includes(word))) { for (const row of inside) { count += row.hidden; row.hidden = false; } }
    const some = inside.some((row) => !row.hidden);
    session.hidden = !some;
    if (words.length && some) session.open = true;
  }
  for (const region of document.querySelectorAll("section > .scroll")) region.hidden = !region.querySelector("tbody tr:not([hidden])");
  found.textContent = words.length ? `${count} of ${rows.length} rows` : "";
  history.replaceState(null, "", words.length ? "#q=" + encodeURIComponent(box.value) : location.pathname + location.search);
}
document.getElementById("search").hidden = false;
document.getElementById("search").addEventListener("submit", (event) => event.preventDefault());
box.addEventListener("input", filter);
document.addEventListener("keydown", (event) => {
  if (event.key === "/" && document.activeElement !== box) { event.preventDefault(); box.focus(); }
  if (event.key === "Escape" && document.activeElement === box) { box.value = ""; filter(); }
});
let closed = [];
addEventListener("beforeprint", () => { closed = [...document.querySelectorAll("details:not([open])")]; for (const one of closed) one.open = true; });
addEventListener("afterprint", () => { for (const one of closed) one.open = false; });
if (location.hash.startsWith("#q=")) { box.value = decodeURIComponent(location.hash.slice(3)); filter(); }
