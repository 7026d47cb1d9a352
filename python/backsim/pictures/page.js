"use strict";
// Shows one cell at a time. The way to it from the cell that is explained stands in the page's address, as #0.2.5, so that the
// browser's own keys for going back and forward serve too.
const data = JSON.parse(document.getElementById("data").textContent);
const nodes = data.nodes;
const TRAIL_SHOWN = 9, EFFECTS_SHOWN = 40;
const HEIGHT = 35, LOW = 27, HIGH = 7, MIDDLE = 17;
const part = (id) => document.getElementById(id);

function make(name, attributes, ...children) {
  const element = document.createElement(name);
  for (const [key, value] of Object.entries(attributes)) element.setAttribute(key, value);
  element.append(...children);
  return element;
}

function drawn(name, attributes, text) {
  const element = document.createElementNS("http://www.w3.org/2000/svg", name);
  for (const [key, value] of Object.entries(attributes)) element.setAttribute(key, value);
  if (text !== undefined) element.textContent = text;
  return element;
}

// For each cell those that follow from it, the first of them being nearest to what is explained; and the cells of each signal.
const effects = nodes.map(() => []);
const ofSignal = new Map();
nodes.forEach((node, number) => {
  for (const cause of node.causes) effects[cause.node].push(number);
  if (!ofSignal.has(node.name)) ofSignal.set(node.name, []);
  ofSignal.get(node.name).push(number);
});
for (const cells of ofSignal.values()) cells.sort((a, b) => nodes[a].start - nodes[b].start);

const roots = new Set(data.roots);

function wayTo(number) {
  const way = [number];
  while (!roots.has(way[way.length - 1])) way.push(effects[way[way.length - 1]].reduce((least, effect) => Math.min(least, effect)));
  return way.reverse();
}

function wayOfAddress() {
  const way = location.hash.slice(1).split(".").map(Number);
  const leads = roots.has(way[0]) && way.every((number, place) => place === 0
    || (nodes[way[place - 1]].causes.some((cause) => cause.node === number)));
  return leads ? way : [0];
}

let way = [0];

function go(next) {
  if (next.join(".") === way.join(".")) show();
  else location.hash = next.join(".");
}

// The strips

function strip(number, looked, from, to) {
  const width = 640;
  const x = (time) => 6 + (width - 12) * (time - from) / (to - from);
  const node = nodes[number];
  const label = `${node.name} is ${node.value} at ${node.times}; looked at: ${looked}`;
  const picture = drawn("svg", {viewBox: `0 0 ${width} ${HEIGHT}`, preserveAspectRatio: "none", role: "img", "aria-label": label});
  picture.append(drawn("rect", {class: "own", x: x(Math.max(node.start, from)), y: 2, height: 30,
    width: x(Math.min(node.end, to)) - x(Math.max(node.start, from))}));
  let reached = from, before = null;
  const gap = (until) => picture.append(drawn("line", {class: "unknown", x1: x(reached), x2: x(until), y1: MIDDLE, y2: MIDDLE}));
  for (const other of ofSignal.get(node.name)) {
    const cell = nodes[other], start = Math.max(cell.start, from, reached), end = Math.min(cell.end, to);
    if (end <= start) continue;
    if (start > reached) { gap(start); before = null; }
    piece(picture, cell.value, x(start), x(end), before);
    reached = end; before = cell.value;
  }
  if (reached < to) gap(to);
  if (looked >= from) picture.append(drawn("line", {class: "looked", x1: x(looked), x2: x(looked), y1: 1, y2: 33}));
  return picture;
}

function piece(picture, value, left, right, before) {
  if (value === "x") {
    picture.append(drawn("rect", {class: "band", x: left, y: HIGH, width: right - left, height: LOW - HIGH}));
  } else if (value === "z") {
    picture.append(drawn("line", {class: "middle", x1: left, x2: right, y1: MIDDLE, y2: MIDDLE}));
  } else {
    const y = value === "1" ? HIGH : LOW;
    if (value === "1") picture.append(drawn("rect", {class: "high", x: left, y: HIGH, width: right - left, height: LOW - HIGH}));
    const rise = before === "0" || before === "1" ? `M${left} ${before === "1" ? HIGH : LOW}V${y}` : `M${left} ${y}`;
    picture.append(drawn("path", {class: "level", d: `${rise}H${right}`}));
  }
}

// The times stand under the strip in text of the page, so that they keep their form at each width.
function withTimes(picture, looked, from, to) {
  const times = make("div", {class: "ticks", "aria-hidden": "true"});
  const ticks = [...new Set([from, looked, to])].filter((time) => time >= from).sort((a, b) => a - b);
  for (const time of ticks) {
    const share = 100 * (time - from) / (to - from);
    if (time !== looked && Math.abs(time - looked) * 100 / (to - from) < 9 && looked >= from) continue;
    const tick = make("span", time === looked ? {class: "at"} : {}, String(time));
    tick.style.left = `${share}%`;
    tick.style.transform = `translateX(-${share}%)`;
    times.append(tick);
  }
  return [picture, times];
}

// One cell

function heading(node, numeral) {
  const parts = [make("span", {class: "name"}, `${node.name} = ${node.value}`), " ", make("span", {class: "times"}, node.times)];
  return numeral ? [make("span", {class: "number"}, `${numeral}.`), ...parts] : parts;
}

function row(cause, numeral, from, to) {
  const node = nodes[cause.node];
  const seen = cause.time < 0 ? "before its delay" : `looked at ${cause.time}`;
  const button = make("button", {type: "button", class: `row v${node.value}`, "data-node": cause.node},
    make("span", {class: "text"}, ...heading(node, numeral), make("small", {}, `pin ${cause.pin}, ${seen}: ${node.what}`)),
    make("span", {class: "strip"}, ...withTimes(strip(cause.node, cause.time, from, to), cause.time, from, to)));
  button.addEventListener("click", () => go([...way, cause.node]));
  return make("li", {}, button);
}

function fill(id, items) {
  part(id).replaceChildren(...items);
  const section = part(`part-${id}`);
  if (section) section.hidden = items.length === 0;
}

function show() {
  way = wayOfAddress();
  const number = way[way.length - 1], node = nodes[number];
  const looked = timesOnTheWay().pop();
  const seen = node.causes.map((cause) => ({...cause, time: seenAt(node, cause, looked)}));
  const [from, to] = frameOf(node, seen.map((cause) => cause.time), looked);
  part("cell").replaceChildren(...heading(node));
  part("sentence").textContent = node.sentence;
  document.querySelector(".now").className = `row now v${node.value}`;
  document.querySelector(".now .strip").replaceChildren(...withTimes(strip(number, looked, from, to), looked, from, to));
  const reasons = seen.filter((cause) => cause.matters), others = seen.filter((cause) => !cause.matters);
  fill("causes", reasons.map((cause, place) => row(cause, place + 1, from, to)));
  fill("others", others.map((cause, place) => row(cause, reasons.length + place + 1, from, to)));
  part("leaf").hidden = node.causes.length > 0;
  const following = [...new Set(effects[number])];
  fill("effects", following.slice(0, EFFECTS_SHOWN).map((effect) => {
    const button = make("button", {type: "button", "data-node": effect}, `${nodes[effect].name} = ${nodes[effect].value}, ${nodes[effect].times}`);
    button.addEventListener("click", () => go(wayTo(effect)));
    return make("li", {}, button);
  }));
  if (following.length > EFFECTS_SHOWN) part("effects").append(make("li", {}, `and ${following.length - EFFECTS_SHOWN} more`));
  showTrail();
  document.title = `${node.name} = ${node.value}, ${node.times}`;
}

// The times at which the cells on the way are looked at, from the time that was asked for on. Throughout a gate's cell its pins see the
// same cells, so what a gate shows later it saw later; a flip-flop took its pin at its edge.
function timesOnTheWay() {
  const times = [data.time];
  for (let place = 1; place < way.length; place++) {
    const before = nodes[way[place - 1]];
    times.push(seenAt(before, before.causes.find((cause) => cause.node === way[place]), times[place - 1]));
  }
  return times;
}

function seenAt(node, cause, time) {
  return cause.time + (node.moves ? time - node.start : 0);
}

// The times that the strips show: the current cell, what it looked at, and half as much again on both sides.
function frameOf(node, seen, looked) {
  const first = Math.max(0, Math.min(node.start, looked, ...seen)), last = Math.max(node.end, looked + 1);
  const margin = Math.ceil((last - first) / 2);
  return [Math.max(0, first - margin), Math.min(data.horizon + 1, last + margin)];
}

function showTrail() {
  const first = Math.max(0, way.length - TRAIL_SHOWN);
  const steps = way.slice(first).map((number, offset) => {
    const text = `${nodes[number].name} = ${nodes[number].value}`;
    const place = first + offset;
    if (place === way.length - 1) return make("li", {}, make("span", {"aria-current": "step"}, text));
    const button = make("button", {type: "button"}, text);
    button.addEventListener("click", () => go(way.slice(0, place + 1)));
    return make("li", {}, button);
  });
  if (first > 0) steps.unshift(make("li", {}, `${first} more`));
  part("trail").replaceChildren(...steps);
}

// Keys

function choices() { return [...document.querySelectorAll("#causes button, #others button")]; }

function step(by) {
  const all = choices(), place = all.indexOf(document.activeElement);
  if (all.length) all[place < 0 ? (by > 0 ? 0 : all.length - 1) : (place + by + all.length) % all.length].focus();
}

function follow(button) { if (button) button.click(); }

document.addEventListener("keydown", (event) => {
  if (event.altKey || event.ctrlKey || event.metaKey || event.target.id === "signal") return;
  const all = choices();
  const acts = {
    ArrowDown: () => step(1), ArrowUp: () => step(-1),
    ArrowRight: () => follow(all.includes(document.activeElement) ? document.activeElement : all[0]),
    ArrowLeft: () => go(way.slice(0, Math.max(1, way.length - 1))), Home: () => go([0]),
  };
  const act = acts[event.key] || (/^[1-9]$/.test(event.key) ? () => follow(all[Number(event.key) - 1]) : null);
  if (act) { event.preventDefault(); act(); }
});

for (const button of document.querySelectorAll("[data-cell]")) {
  button.addEventListener("click", () => go(wayTo(Number(button.dataset.cell))));
}

part("find").addEventListener("submit", (event) => {
  event.preventDefault();
  const cells = ofSignal.get(part("signal").value.trim());
  part("found").textContent = cells ? "" : "The explanation has no such signal.";
  if (cells) go(wayTo(cells[cells.length - 1]));
});

part("signals").append(...[...ofSignal.keys()].sort().map((name) => make("option", {value: name})));
window.addEventListener("hashchange", () => { show(); part("cell").focus(); });
show();
