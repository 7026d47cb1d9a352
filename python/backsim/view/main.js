// The page: it draws the model, and does what keys, buttons and the pointer say.
import {Causes} from "./causes.js";
import {COMMANDS, commandOf, labelOf, spelled} from "./commands.js";
import {Finder} from "./finder.js";
import {Link, Newest, isGivenUp, reason} from "./link.js";
import {Model, bitsOf, grouped, inSeconds, unitsOf, written} from "./model.js";
import {CanvasPainter, HEAD, Scene, layout, theme} from "./paint.js";
import {Rows, make} from "./rows.js";
import {pngOf, save, svgOf} from "./saving.js";

const part = (id) => document.getElementById(id);
const model = new Model(), link = new Link(), rows = new Rows(model, link, part("list"));
const causes = new Causes(model, link, say, (id) => rows.reveal(id)), finder = new Finder(link, add);
const canvas = part("canvas"), stage = part("stage"), context = canvas.getContext("2d");
const ZOOM = 1.5, WHEEL_ZOOM = 1.15, SNAP = 6, POLL = 2000, MORE = 4;
let colours = theme(), isDue = false, isAsked = false, limits = 1, resume = null, lastValue = "", drag = null, valuesTimer = 0, refused = null;
let valuesAsked = "", isRefreshing = false;
const newestValues = new Newest(), newestSearch = new Newest();

const app = {
  model, link, rows, causes,
  get frame() { return {width: stage.clientWidth, height: Math.max(0, stage.clientHeight - HEAD), top: rows.top}; },
  // the signals that are in view
  get inView() {
    const {height, top} = this.frame;
    return layout(model).filter((place) => !place.item.isGroup && place.y < top + height && place.y + place.height > top).map((place) => place.item);
  },
  svg: () => svgOf(app),
  png: () => pngOf(app),
};
window.backsim = app;

function say(text) { part("said").textContent = text; part("said").title = text; }

function notice(text, isMild = false) {
  part("notice").hidden = !text;
  part("notice").textContent = text;
  part("notice").className = isMild ? "mild" : "";
}

// drawing: once a frame at most

function due() {
  if (isDue) return;
  isDue = true;
  requestAnimationFrame(() => { isDue = false; draw(); });
}

function draw() {
  const frame = app.frame, ratio = window.devicePixelRatio || 1;
  const width = Math.round(frame.width * ratio), height = Math.round((frame.height + HEAD) * ratio);
  if (canvas.width !== width || canvas.height !== height) { canvas.width = width; canvas.height = height; }
  context.setTransform(ratio, 0, 0, ratio, 0, 0);
  const scene = new Scene(model, link, new CanvasPainter(context, colours), colours, frame);
  scene.draw();
  buttons(scene.spent);
  if (drag && drag.kind === "zoom") {
    context.fillStyle = colours.accent;
    context.globalAlpha = .18;
    context.fillRect(Math.min(drag.x, drag.now), HEAD, Math.abs(drag.now - drag.x), frame.height);
    context.globalAlpha = 1;
  }
  rows.values();
  status();
  if (!isAsked) ask();
}

// Where evaluations were spent: a button to ask for more.
function buttons(spent) {
  part("over").replaceChildren(...spent.filter((one) => one.width > 30).map((one) => {
    const item = model.item(one.number >> 1);
    const button = make("button", {type: "button", "aria-label": `Ask for more of ${item ? item.name : ""}: ${grouped(one.spent)} evaluations were spent`,
      title: `${grouped(one.spent)} evaluations were spent`}, one.width > 110 ? "Ask for more" : "…");
    button.style.left = `${one.x}px`;
    button.style.top = `${one.y}px`;
    button.addEventListener("click", () => more(one.number));
    return button;
  }));
}

function more(number = null) {
  for (const [one, track] of link.tracks) if (number === null || one === number) track.forgetSpent();
  if (number === null) limits *= MORE;
  else { const item = model.item(number >> 1); if (item) item.limit = Math.max(item.limit, limits) * MORE; }
  ask();
  due();
}

function status() {
  const {cursor, marker, fault} = model, unit = link.state?.unit, difference = cursor === null || marker === null ? null : cursor - marker;
  const signed = (write, time) => `${time < 0 ? "−" : ""}${write(Math.abs(time), unit)}`;
  for (const [id, name, time] of [["at-cursor", "cursor", cursor], ["at-marker", "marker", marker], ["difference", "difference", difference]]) {
    part(id).textContent = time === null ? "–" : signed(grouped, time);
    part(`${name}-seconds`).textContent = time === null || !unit ? "" : signed(inSeconds, time);
  }
  part("unit").textContent = unit ? `units of ${unit}` : "";
  part("in-view").textContent = `${grouped(Math.floor(model.start))} – ${grouped(Math.ceil(model.stop) - 1)}`;
  part("fault-item").hidden = !fault;
  part("the-fault").textContent = fault ? `${fault[0]} stuck at ${fault[1]}` : "";
  const share = 100 * model.span / model.end, thumb = part("thumb"), bar = part("overview");
  thumb.style.width = `${Math.max(share, .5)}%`;
  thumb.style.left = `${Math.min(100 * model.start / model.end, 99.5)}%`;
  bar.setAttribute("aria-valuenow", String(Math.round(model.start)));
  bar.setAttribute("aria-valuemax", String(Math.max(0, Math.round(model.end - model.span))));
  bar.setAttribute("aria-valuetext", `from ${grouped(Math.floor(model.start))} to ${grouped(Math.ceil(model.stop) - 1)} of ${grouped(model.horizon)}`);
}

// asking

function ask() {
  isAsked = true;
  const start = Math.max(0, Math.floor(model.start)), stop = Math.min(Math.ceil(model.stop), model.end);
  const limit = (item) => Math.round(link.state.limit * Math.max(limits, item.limit || 1));
  const wanted = app.inView.flatMap((item) => [{row: 2 * item.id, name: item.name, limit: limit(item)},
    ...(model.fault ? [{row: 2 * item.id + 1, name: item.name, fault: model.fault, limit: limit(item)}] : [])]);
  if (stop > start && app.frame.width > 0) link.want({start, stop, step: model.span / app.frame.width, rows: wanted});
  clearTimeout(valuesTimer);
  valuesTimer = setTimeout(values, 30);
}

// The values at the cursor that the waves in view do not tell.
async function values() {
  const time = model.cursor;
  if (time === null) return;
  const lacking = app.inView.filter((item) => { const [good, faulty] = rows.valueOf(item); return good === undefined || (model.fault && faulty === undefined); });
  const wanted = lacking.flatMap((item) => [{row: 2 * item.id, name: item.name}, ...(model.fault ? [{row: 2 * item.id + 1, name: item.name, fault: model.fault}] : [])]);
  const key = wanted.length ? JSON.stringify([link.state.loaded, time, wanted]) : "";
  if (key === valuesAsked) return;
  valuesAsked = key;
  const {signal} = newestValues;
  if (!key) return;
  try {
    const told = await link.post("values", {time, rows: wanted}, signal);
    for (const item of lacking) model.values.set(item.id, {time, good: told.values[2 * item.id], faulty: told.values[2 * item.id + 1]});
    due();
  } catch (error) { if (!isGivenUp(error)) notice(reason(error)); }
  if (valuesAsked === key) valuesAsked = "";
}

function settle() {
  document.body.dataset.state = link.isAsking ? "asking" : "idle";
  part("busy").hidden = !link.isAsking;
}

model.addEventListener("change", (event) => {
  if (event.detail === "rows") rows.draw();
  isAsked = false;
  due();
});
link.addEventListener("waves", due);
link.addEventListener("asking", () => { settle(); if (!link.isAsking) refresh(); });
link.addEventListener("failed", (event) => notice(event.detail));
part("list").addEventListener("scroll", () => { isAsked = false; due(); });
new ResizeObserver(() => { isAsked = false; due(); }).observe(stage);
matchMedia("(prefers-color-scheme: dark)").addEventListener("change", () => dress(null));

async function refresh(isPoll = false) {
  if (isRefreshing) return;
  isRefreshing = true;
  try {
    const before = link.state, state = await link.get("state");
    // where the files were loaded anew meanwhile, this may be told of those before
    if (link.state !== before) { isRefreshing = false; return; }
    link.state = state;
    if (link.isLost && isPoll) { link.isLost = false; notice(""); isAsked = false; due(); }
    part("fills").textContent = grouped(state.fills);
    if (before && before.loaded !== state.loaded) loaded();
    if (state.changed.length && state.stamps !== refused) notice(`${state.changed.join(", ")} changed on disk. Press r to load it anew.`, true);
    else if (!state.changed.length && before && before.changed.length) notice("");
  } catch (error) { link.isLost = true; notice(reason(error)); }
  isRefreshing = false;
}

function loaded() {
  link.forget();
  model.values.clear();
  model.horizon = link.state.horizon;
  causes.clear();
  model.show(model.start, model.span);
  model.changed("rows");
}

function add(names) {
  model.add(names);
  rows.reveal(model.focus);
  say(names.length === 1 ? `${names[0]} was added` : `${grouped(names.length)} signals were added`);
}

// searches along a signal

function row() {
  const item = model.item(model.focus), first = model.shown.find((one) => !one.isGroup);
  return item && !item.isGroup ? item : first || null;
}

async function search(forward, value = null) {
  const item = row();
  if (!item) { say("there is no signal to search"); return; }
  const from = model.cursor ?? Math.floor(model.start), key = JSON.stringify([item.name, forward, value, from]);
  const time = resume && resume.key === key ? resume.at : from;
  const what = value === null ? "change" : value;
  say(`searching ${item.name} for ${what} …`);
  try {
    const told = await link.post("search", {name: item.name, time, forward, value}, newestSearch.signal);
    resume = null;
    if (told.time !== undefined && told.time !== null) {
      model.setCursor(told.time);
      model.reveal(told.time);
      say(`${item.name} is ${written(told.value, item.radix)} from ${grouped(told.time)} on`);
    } else if (told.reached !== undefined) {
      resume = {key, at: forward ? Math.max(told.reached - 1, 0) : told.reached};
      say(`no ${what} of ${item.name} up to ${grouped(told.reached)}, in ${grouped(told.spent)} evaluations; once more goes on`);
    } else say(`no ${what} of ${item.name} ${forward ? "after" : "before"} ${grouped(from)}`);
  } catch (error) { if (!isGivenUp(error)) say(reason(error)); }
}

async function why(item = row(), time = model.cursor) {
  if (!item || time === null) { causes.open(); say("choose a signal and a time: click a value"); return; }
  const bits = bitsOf(item.name);
  await causes.ask(bits.length === 1 ? item.name : bitOf(item, bits, time), time);
}

// Of a bus the bit to explain: the first that is unknown, else the one that changed last, else the first.
function bitOf(item, bits, time) {
  const track = link.track(2 * item.id), word = rows.valueOf(item)[0];
  const unknown = typeof word === "string" ? word.search(/[xz]/) : -1;
  if (unknown >= 0) return bits[unknown];
  const edges = track.edges(model.start, time), before = edges.length ? track.valueAt(edges[edges.length - 1] - 1) : undefined;
  const place = before && word ? bits.findIndex((_, at) => before[at] !== word[at]) : -1;
  return bits[Math.max(place, 0)];
}

// dialogs

function dialog(id, act) {
  const box = part(id);
  box.returnValue = "";
  box.onclose = () => { stage.focus(); if (box.returnValue && box.returnValue !== "cancel") act(box.returnValue); };
  box.showModal();
}

for (const box of document.querySelectorAll("dialog")) {
  // Enter is what the main button says
  box.addEventListener("keydown", (event) => {
    const main = box.querySelector("button.main");
    if (event.key === "Enter" && main && event.target.tagName === "INPUT") { event.preventDefault(); box.close(main.value); }
  });
}

function askFault() {
  const item = row(), {fault} = model;
  part("site").value = fault ? fault[0] : item ? bitsOf(item.name)[0] : "";
  document.querySelector(`#fault-dialog input[value="${fault ? fault[1] : 0}"]`).checked = true;
  dialog("fault-dialog", (choice) => {
    const site = part("site").value.trim();
    setFault(choice === "none" || !site ? null : [site, document.querySelector("#fault-dialog input:checked").value]);
  });
}

function setFault(fault) {
  link.forget([...link.tracks.keys()].filter((number) => number % 2));
  model.values.clear();
  model.setFault(fault);
  say(fault ? `${fault[0]} is stuck at ${fault[1]}: below each signal as it would be` : "no fault");
}

async function reload() {
  say("loading the files anew …");
  try {
    link.state = await link.post("reload", {});
    loaded();
    refused = null;
    notice("");
    say("the files were loaded anew");
  } catch (error) {
    // what was refused stays told until the files change again
    refused = await link.get("state").then((state) => state.stamps, () => null);
    notice(`The files were not loaded: ${reason(error)}`);
    say("");
  }
}

function openDocument(file) {
  file.text().then((text) => {
    const document = JSON.parse(text);
    if (document === null || document.format !== link.state.format) throw new Error(`${file.name} is no saved view`);
    model.load(document);
    say(`${file.name} was opened`);
  }).catch((error) => notice(error instanceof SyntaxError ? `${file.name} is no saved view` : error.message));
}

part("file").addEventListener("change", () => { const [file] = part("file").files; if (file) openDocument(file); part("file").value = ""; });

// commands

function dress(name) {
  const dark = matchMedia("(prefers-color-scheme: dark)").matches;
  document.documentElement.dataset.theme = name || (dark ? "dark" : "light");
  colours = theme();
  due();
}

const acts = {
  find: () => { showFinder(true); finder.focus(); },
  finder: () => showFinder(part("finder").hidden),
  up: () => rows.step(-1), down: () => rows.step(1), extendUp: () => rows.step(-1, true), extendDown: () => rows.step(1, true),
  selectAll: () => { model.selected = new Set(model.shown.map((item) => item.id)); model.changed("rows"); },
  moveUp: () => model.shift(-1), moveDown: () => model.shift(1), remove: () => model.remove(),
  radix: () => { const radix = model.radix(); if (radix) say({hex: "hexadecimal", dec: "decimal", signed: "decimal with a sign", bin: "binary"}[radix]); },
  colour: () => model.colour(), ungroup: () => model.ungroup(),
  group: () => { part("group-name").value = "Group"; dialog("group-dialog", () => model.group(part("group-name").value.trim() || "Group")); part("group-name").select(); },
  toggle: () => { if (model.focus !== null) model.toggle(model.focus); },
  undo: () => model.undo(), redo: () => model.redo(),
  zoomIn: () => model.zoom(1 / ZOOM, centre()), zoomOut: () => model.zoom(ZOOM, centre()), fit: () => model.show(0, model.end),
  zoomRange: () => {
    if (model.cursor === null || model.marker === null) { say("set a cursor and a marker first"); return; }
    const a = Math.min(model.cursor, model.marker), b = Math.max(model.cursor, model.marker), margin = (b - a) * .05 + 1;
    model.show(a - margin, b - a + 2 * margin);
  },
  left: () => model.scroll(-.1), right: () => model.scroll(.1), pageLeft: () => model.scroll(-.9), pageRight: () => model.scroll(.9),
  first: () => model.show(0, model.span), last: () => model.show(model.end - model.span, model.span),
  time: () => { part("time").focus(); part("time").select(); },
  back: () => step(-1), on: () => step(1),
  centre: () => { if (model.cursor !== null) model.show(model.cursor - model.span / 2, model.span); },
  marker: () => { if (model.cursor !== null) model.setMarker(model.cursor); }, noMarker: () => model.setMarker(null),
  nextChange: () => search(true), previousChange: () => search(false), nextX: () => search(true, "x"), previousX: () => search(false, "x"),
  nextValue: () => {
    const item = row();
    if (!item) return;
    part("value-name").textContent = item.name;
    part("value").value = lastValue;
    dialog("value-dialog", (choice) => { lastValue = part("value").value.trim(); if (lastValue) search(choice === "on", lastValue); });
    part("value").select();
  },
  againValue: () => lastValue ? search(true, lastValue) : acts.nextValue(),
  why: () => why(), toCause: () => causes.walk(1), toEffect: () => causes.walk(-1), closeWhy: () => causes.close(),
  fault: askFault, noFault: () => setFault(null), more: () => more(), reload,
  save: () => dialog("save-dialog", (form) => save(app, form).catch((error) => notice(reason(error)))),
  open: () => part("file").click(),
  theme: () => dress(document.documentElement.dataset.theme === "dark" ? "light" : "dark"),
  help: () => { dialog("help-dialog", () => {}); part("help-head").focus(); },
};
app.acts = acts;

function centre() { return model.cursor !== null && model.cursor >= model.start && model.cursor < model.stop ? model.cursor : model.start + model.span / 2; }

function step(by) {
  model.setCursor((model.cursor ?? Math.floor(model.start)) + by);
  model.reveal(model.cursor);
}

function showFinder(isShown) {
  part("finder").hidden = !isShown;
  part("main").classList.toggle("narrow", !isShown);
  document.querySelector('[data-command="finder"]').setAttribute("aria-expanded", String(isShown));
  if (!isShown) stage.focus();
}

for (const button of document.querySelectorAll("[data-command]")) {
  const id = button.dataset.command;
  button.title = labelOf(id);
  if (button.classList.contains("icon")) button.setAttribute("aria-label", labelOf(id));
  button.addEventListener("click", () => acts[id]());
}

document.addEventListener("keydown", (event) => {
  const target = event.target;
  if (document.querySelector("dialog[open]")) return;
  if (/^(INPUT|SELECT|TEXTAREA)$/.test(target.tagName)) {
    if (event.key === "Escape" && target.id !== "find") { stage.focus(); event.preventDefault(); }
    return;
  }
  if (target.closest("#tree, #overview, #widen") && /^Arrow|^(Home|End|Enter|PageUp|PageDown)$/.test(event.key)) return;
  if (target.tagName === "BUTTON" && ["Enter", " "].includes(event.key)) return;
  const id = commandOf(event);
  if (id) { event.preventDefault(); acts[id](); }
});

part("goto").addEventListener("submit", (event) => {
  event.preventDefault();
  const {unit} = link.state, time = unitsOf(part("time").value.replace(/[\s,_]/g, ""), unit);
  if (!Number.isInteger(time) || time < 0 || time > model.horizon) {
    say(`times are from 0 to ${grouped(model.horizon)}${unit ? `, in units of ${unit}, or such as ${inSeconds(1, unit).replace(" ", "")}` : ""}`);
    return;
  }
  model.setCursor(time);
  model.reveal(time);
  stage.focus();
});

// the pointer on the waves

function timeAt(x) { return Math.floor(model.start + x * model.span / app.frame.width); }

function itemAt(y) {
  const at = y - HEAD + rows.top;
  const place = layout(model).find((one) => at >= one.y && at < one.y + one.height);
  return y >= HEAD && place ? place.item : null;
}

// The time of the change near the pointer, or the time under it.
function snapped(x, item, isFree) {
  const time = timeAt(x);
  if (isFree || !item || item.isGroup) return time;
  const reach = SNAP * model.span / app.frame.width, exact = model.start + x * model.span / app.frame.width;
  const edges = link.track(2 * item.id).edges(exact - reach, exact + reach);
  return edges.reduce((best, edge) => Math.abs(edge - exact) < Math.abs(best - exact) ? edge : best, edges[0] ?? time);
}

function place(event) { const box = stage.getBoundingClientRect(); return [event.clientX - box.left, event.clientY - box.top]; }

stage.addEventListener("pointerdown", (event) => {
  if (event.target.closest("button")) return;
  const [x, y] = place(event), item = itemAt(y), kind = event.button === 2 ? "zoom" : event.button === 1 || event.shiftKey ? "marker" : "cursor";
  event.preventDefault();
  stage.focus();
  stage.setPointerCapture(event.pointerId);
  drag = {kind, x, now: x, item, moved: false, from: snapped(x, item, event.altKey)};
  if (kind === "marker") model.setMarker(drag.from);
});

// What stands at a time of a row, in words, where the picture may have no room for it.
function pointed(item, time) {
  if (!item || item.isGroup || time < 0 || time >= model.end) return "";
  const told = (number) => {
    const [run] = link.track(number).within(time, time + 1);
    return run.value !== undefined ? written(run.value, item.radix) : run.count !== undefined ? `${grouped(run.count)} changes`
      : run.spent !== undefined ? `not known, ${grouped(run.spent)} evaluations were spent` : run.error ?? "not known yet";
  };
  return `${item.name} at ${grouped(time)}: ${told(2 * item.id)}${model.fault ? `; with the fault: ${told(2 * item.id + 1)}` : ""}`;
}

stage.addEventListener("pointermove", (event) => {
  if (!drag) { const [x, y] = place(event); stage.title = pointed(itemAt(y), timeAt(x)); return; }
  const [x] = place(event);
  drag.now = x;
  if (Math.abs(x - drag.x) > 3) drag.moved = true;
  if (!drag.moved) return;
  const time = snapped(x, drag.item, event.altKey);
  if (drag.kind === "zoom") due();
  else if (drag.kind === "marker") model.setMarker(time);
  else { model.setMarker(drag.from); model.setCursor(time); }
});

stage.addEventListener("pointerup", () => {
  if (!drag) return;
  const {kind, x, now, item, moved, from} = drag;
  drag = null;
  if (kind === "zoom" && moved && Math.abs(now - x) > 3) {
    const a = model.start + Math.min(x, now) * model.span / app.frame.width, b = model.start + Math.max(x, now) * model.span / app.frame.width;
    model.show(a, b - a);
  } else if (kind === "cursor" && !moved) {
    model.setCursor(from);
    if (item) rows.select(item.id);
    if (item && !item.isGroup && causes.isOpen) why(item, model.cursor);
  }
  due();
});

stage.addEventListener("pointercancel", () => { drag = null; due(); });
stage.addEventListener("contextmenu", (event) => event.preventDefault());

stage.addEventListener("wheel", (event) => {
  event.preventDefault();
  const lines = event.deltaMode === 1 ? 30 : event.deltaMode === 2 ? 400 : 1, [x] = place(event);
  if (event.ctrlKey || event.metaKey) model.zoom(WHEEL_ZOOM ** (event.deltaY * lines / 50), model.start + x * model.span / app.frame.width);
  else if (event.shiftKey) rows.scroll((event.deltaY || event.deltaX) * lines);
  else model.scroll((event.deltaY + event.deltaX) * lines / 1000);
}, {passive: false});

// the bar of all times, and the width of the names

function pull(element, move) {
  element.addEventListener("pointerdown", (event) => { element.setPointerCapture(event.pointerId); event.preventDefault(); element.focus(); move(event); });
  element.addEventListener("pointermove", (event) => { if (element.hasPointerCapture(event.pointerId)) move(event); });
}

pull(part("overview"), (event) => {
  const box = part("overview").getBoundingClientRect();
  model.show((event.clientX - box.left) / box.width * model.end - model.span / 2, model.span);
});

part("overview").addEventListener("keydown", (event) => {
  const act = {ArrowLeft: "left", ArrowRight: "right", PageUp: "pageLeft", PageDown: "pageRight", Home: "first", End: "last"}[event.key];
  if (act) { event.preventDefault(); acts[act](); }
});

function widen(width) {
  const kept = Math.round(Math.min(640, Math.max(140, width)));
  document.documentElement.style.setProperty("--names", `${kept}px`);
  part("widen").setAttribute("aria-valuenow", String(kept));
}

pull(part("widen"), (event) => widen(event.clientX - part("names").getBoundingClientRect().left));
part("widen").addEventListener("keydown", (event) => {
  const by = {ArrowLeft: -20, ArrowRight: 20}[event.key];
  if (by) { event.preventDefault(); widen(part("names").clientWidth + by); }
});

// the beginning

function listKeys() {
  part("keys").replaceChildren(...COMMANDS.map(([id, label, keys]) => label === undefined ? make("h3", {}, id)
    : make("div", {}, make("span", {class: "key"}, ...keys.flatMap((key, at) => at ? [" ", make("kbd", {}, spelled(key))] : [make("kbd", {}, spelled(key))])), make("span", {}, label))));
}

async function begin() {
  dress(null);
  listKeys();
  try {
    const state = await link.get("state", {view: 1});
    link.state = state;
    model.horizon = state.horizon;
    const [netlist, , stimulus] = state.files.map((file) => file.split(/[\\/]/).pop());
    part("title").textContent = `${netlist} · ${stimulus}`;
    part("title").title = state.files.join("\n");
    document.title = `${netlist} – waves`;
    // what the tab showed before it was loaded anew; the address has the token of this session
    const kept = sessionStorage.getItem(location.pathname);
    model.load(kept === null ? state.view : JSON.parse(kept));
    addEventListener("pagehide", () => sessionStorage.setItem(location.pathname, JSON.stringify(model.document(state.format, state.files))));
    stage.focus();
    setInterval(() => { if (!document.hidden) refresh(true); }, POLL);
    app.begun = performance.now();
    await finder.begin();
  } catch (error) { notice(reason(error)); }
}

begin();
