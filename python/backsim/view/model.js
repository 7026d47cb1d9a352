// What the page shows: rows and groups in order, the window of time, cursor and marker, the fault. Whoever draws listens for "change".

export const COLOURS = 7;
export const RADIXES = ["hex", "dec", "signed", "bin"];
const MOST_UNDONE = 100;
const LEAST_SPAN = 4;

export function bitsOf(name) {
  const parts = /^(.+)\[(\d{1,6}):(\d{1,6})\]$/.exec(name);
  if (!parts) return [name];
  const left = Number(parts[2]), right = Number(parts[3]), step = right >= left ? 1 : -1, bits = [];
  for (let place = left; place !== right + step && bits.length < 4096; place += step) bits.push(`${parts[1]}[${place}]`);
  return bits;
}

// Powers of a thousandth, and the number and power of a time such as 15ns.
const WORDS = ["s", "ms", "us", "ns", "ps", "fs"];

function timeOf(text) {
  const parts = /^(\d{1,18})(?:\.(\d{1,18}))?\s*(s|ms|us|ns|ps|fs)$/.exec(text), rest = parts && parts[2] || "";
  return parts && {digits: BigInt(parts[1] + rest), tenths: BigInt(rest.length + 3 * WORDS.indexOf(parts[3]))};
}

// A time in units, of a number as it is, and of one such as 15ns where a unit, as `10 ps`, is known; NaN where it is none, or between two units.
export function unitsOf(text, unit) {
  const time = timeOf(text), one = unit && timeOf(unit);
  if (!time || !one) return /^\d+$/.test(text) ? Number(text) : NaN;
  const above = time.digits * 10n ** one.tenths, below = one.digits * 10n ** time.tenths;
  return above % below ? NaN : Number(above / below);
}

// A time in units, in the greatest word that has a whole number of it before the point.
export function inSeconds(time, unit) {
  const [count, word] = unit.split(" ");
  let whole = BigInt(count) * BigInt(time), place = WORDS.indexOf(word), below = 1n;
  while (place > 0 && whole >= 1000n * below) { below *= 1000n; place--; }
  const rest = String(whole % below + below).slice(1).replace(/0+$/, "");
  return `${whole / below}${rest && `.${rest}`} ${WORDS[place]}`;
}

export class Model extends EventTarget {
  horizon = 0;
  start = 0;
  span = 100;
  items = [];          // {id, name, isGroup, radix, colour, group, isClosed, ofWhy, limit}
  selected = new Set();
  focus = null;        // the id of the item that keys speak of
  cursor = null;
  marker = null;
  fault = null;        // [signal, "0" or "1"]
  chain = null;        // {nodes, steps, at}
  values = new Map();  // by id: {time, good, faulty}
  #next = 1;
  #undo = [];
  #redo = [];

  changed(what = "view") { this.dispatchEvent(new CustomEvent("change", {detail: what})); }

  // the window of time

  get stop() { return this.start + this.span; }
  get end() { return this.horizon + 1; }

  show(start, span) {
    this.span = Math.min(Math.max(span, Math.min(LEAST_SPAN, this.end)), this.end);
    this.start = Math.min(Math.max(0, start), this.end - this.span);
    this.changed();
  }

  zoom(factor, around = this.start + this.span / 2) {
    const span = Math.min(Math.max(this.span * factor, Math.min(LEAST_SPAN, this.end)), this.end);
    this.show(around - (around - this.start) * span / this.span, span);
  }

  scroll(share) { this.show(this.start + this.span * share, this.span); }

  reveal(time) {
    if (time < this.start || time >= this.stop) this.show(time - this.span / 2, this.span);
  }

  setCursor(time) {
    this.cursor = time === null ? null : Math.min(Math.max(0, Math.round(time)), this.horizon);
    this.changed("cursor");
  }

  setMarker(time) {
    this.marker = time === null ? null : Math.min(Math.max(0, Math.round(time)), this.horizon);
    this.changed("cursor");
  }

  // rows

  item(id) { return this.items.find((item) => item.id === id) || null; }

  get shown() {
    const closed = new Set(this.items.filter((item) => item.isGroup && item.isClosed).map((item) => item.id));
    return this.items.filter((item) => !closed.has(item.group));
  }

  make(fields) {
    return {id: this.#next++, name: "", isGroup: false, radix: "hex", colour: 0, group: null, isClosed: false, ofWhy: false, limit: 0, ...fields};
  }

  // Keeps what stands now, to be brought back by undo; called before a change of the rows.
  remember() {
    this.#undo.push(this.#kept());
    if (this.#undo.length > MOST_UNDONE) this.#undo.shift();
    this.#redo = [];
  }

  #kept() { return JSON.stringify(this.items.filter((item) => !item.ofWhy)); }

  undo(from = this.#undo, to = this.#redo) {
    if (!from.length) return false;
    to.push(this.#kept());
    this.items = JSON.parse(from.pop());
    this.chain = null;
    this.#tidy();
    return true;
  }

  redo() { return this.undo(this.#redo, this.#undo); }

  #tidy() {
    const ids = new Set(this.items.map((item) => item.id));
    for (const id of this.selected) if (!ids.has(id)) this.selected.delete(id);
    if (!ids.has(this.focus)) this.focus = null;
    this.changed("rows");
  }

  // Adds signals behind the item with the focus, or at the end.
  add(names) {
    this.remember();
    const place = this.focus === null ? this.items.length : this.items.findIndex((item) => item.id === this.focus) + 1;
    const before = this.items[place - 1];
    const group = before && !before.ofWhy ? (before.isGroup ? (before.isClosed ? null : before.id) : before.group) : null;
    const made = names.map((name) => this.make({name, group}));
    const at = before && before.ofWhy ? this.items.findIndex((item) => item.ofWhy) : place;
    this.items.splice(at, 0, ...made);
    this.selected = new Set(made.map((item) => item.id));
    if (made.length) this.focus = made[made.length - 1].id;
    this.changed("rows");
  }

  // The items that a command speaks of: those that are selected, or the one with the focus.
  get chosen() {
    const ids = this.selected.size ? this.selected : new Set(this.focus === null ? [] : [this.focus]);
    return this.items.filter((item) => ids.has(item.id));
  }

  remove() {
    const gone = new Set(this.chosen.map((item) => item.id));
    if (!gone.size) return;
    this.remember();
    const shown = this.shown, last = Math.max(...shown.map((item, place) => gone.has(item.id) ? place : -1));
    const next = shown.slice(last + 1).concat(shown.slice(0, last + 1).reverse()).find((item) => !gone.has(item.id));
    for (const item of this.items) if (gone.has(item.group)) gone.add(item.id);
    this.items = this.items.filter((item) => !gone.has(item.id));
    this.selected.clear();
    this.focus = next && !gone.has(next.id) ? next.id : null;
    this.#tidy();
  }

  // Moves items before the item with an id, or to the end; into the group that is there.
  move(ids, before, group = null) {
    const moved = this.items.filter((item) => ids.has(item.id) || (item.group !== null && ids.has(item.group)));
    if (!moved.length || moved.some((item) => item.id === before)) return;
    this.remember();
    const rest = this.items.filter((item) => !moved.includes(item));
    const place = before === null ? rest.length : rest.findIndex((item) => item.id === before);
    for (const item of moved) if (!item.isGroup && !ids.has(item.group)) item.group = group;
    rest.splice(place, 0, ...moved);
    this.items = this.#gathered(rest);
    this.changed("rows");
  }

  // Groups stay whole: members stand behind their heading.
  #gathered(items) {
    const members = new Map();
    for (const item of items) if (item.group !== null) members.set(item.group, [...(members.get(item.group) || []), item]);
    return items.flatMap((item) => item.isGroup ? [item, ...(members.get(item.id) || [])] : item.group === null ? [item] : []);
  }

  // One place up or down, over a group or into it.
  shift(by) {
    const chosen = this.chosen, ids = new Set(chosen.map((item) => item.id));
    if (!chosen.length) return;
    const hasGroup = chosen.some((item) => item.isGroup);
    const line = (hasGroup ? this.items.filter((item) => item.group === null) : this.shown).filter((item) => !item.ofWhy || ids.has(item.id));
    const places = line.map((item, place) => ids.has(item.id) ? place : -1).filter((place) => place >= 0);
    if (by < 0) {
      const other = line[places[0] - 1];
      if (other) this.move(ids, other.id, hasGroup ? null : other.isGroup ? null : other.group);
      else if (chosen[0].group !== null) this.move(ids, chosen[0].group, null);
    } else {
      const other = line[places[places.length - 1] + 1], after = line[places[places.length - 1] + 2];
      if (!other) { if (chosen[0].group !== null) this.move(ids, null, null); return; }
      if (hasGroup) this.move(ids, after ? after.id : null, null);
      else if (other.isGroup && !other.isClosed) this.move(ids, this.items[this.items.indexOf(other) + 1]?.id ?? null, other.id);
      else if (other.group === null && chosen[0].group !== null) this.move(ids, other.id, null);
      else this.move(ids, this.items[this.items.indexOf(other) + 1]?.id ?? null, other.group);
    }
  }

  group(name) {
    const members = this.chosen.filter((item) => !item.isGroup && !item.ofWhy);
    if (!members.length) return;
    this.remember();
    const place = this.items.indexOf(members[0]);
    const heading = this.make({name, isGroup: true});
    const before = this.items.slice(0, place).filter((item) => !members.includes(item));
    const after = this.items.slice(place).filter((item) => !members.includes(item));
    for (const item of members) item.group = heading.id;
    this.items = this.#gathered([...before, heading, ...members, ...after]);
    this.selected = new Set([heading.id]);
    this.focus = heading.id;
    this.changed("rows");
  }

  ungroup() {
    const headings = new Set(this.chosen.flatMap((item) => item.isGroup ? [item.id] : item.group === null ? [] : [item.group]));
    if (!headings.size) return;
    this.remember();
    for (const item of this.items) if (headings.has(item.group)) item.group = null;
    this.items = this.items.filter((item) => !headings.has(item.id));
    this.#tidy();
  }

  toggle(id) {
    const item = this.item(id);
    if (item && item.isGroup) { item.isClosed = !item.isClosed; this.changed("rows"); }
  }

  colour() {
    const chosen = this.chosen;
    if (!chosen.length) return;
    this.remember();
    const colour = (chosen[0].colour + 1) % COLOURS;
    for (const item of chosen) {
      item.colour = colour;
      if (item.isGroup) for (const member of this.items) if (member.group === item.id) member.colour = colour;
    }
    this.changed("rows");
  }

  radix() {
    const chosen = this.chosen.filter((item) => !item.isGroup);
    if (!chosen.length) return null;
    this.remember();
    const radix = RADIXES[(RADIXES.indexOf(chosen[0].radix) + 1) % RADIXES.length];
    for (const item of chosen) item.radix = radix;
    this.changed("rows");
    return radix;
  }

  setFault(fault) { this.fault = fault; this.changed("rows"); }

  // The chain of causes: its signals that have no row get rows of their own at the end.
  setChain(chain, heading = "", names = []) {
    this.items = this.items.filter((item) => !item.ofWhy);
    if (chain && names.length) {
      const top = this.make({name: heading, isGroup: true, ofWhy: true});
      this.items.push(top, ...names.map((name) => this.make({name, group: top.id, ofWhy: true, colour: 6})));
    }
    this.chain = chain;
    this.#tidy();
  }

  // The item that shows a signal, itself or in a bus.
  rowOf(name) {
    const rows = this.shown.filter((item) => !item.isGroup);
    return rows.find((item) => item.name === name) || rows.find((item) => name.endsWith("]") && item.name.endsWith("]") && bitsOf(item.name).includes(name)) || null;
  }

  // a saved view

  document(format, files) {
    const rows = this.items.filter((item) => !item.ofWhy).map((item) => item.isGroup
      ? {group: item.name, id: item.id, closed: item.isClosed}
      : {name: item.name, radix: item.radix, colour: item.colour, ...(item.group === null ? {} : {in: item.group})});
    return {format, files, start: this.start, stop: this.stop, cursor: this.cursor, marker: this.marker, fault: this.fault, rows};
  }

  load(document) {
    const time = (given) => typeof given === "number" && given >= 0 && given <= this.horizon ? Math.round(given) : null;
    const headings = new Map();
    this.items = [];
    for (const row of Array.isArray(document.rows) ? document.rows : []) {
      if (typeof row.group === "string") {
        const heading = this.make({name: row.group, isGroup: true, isClosed: row.closed === true});
        headings.set(row.id, heading.id);
        this.items.push(heading);
      } else if (typeof row.name === "string") {
        this.items.push(this.make({name: row.name, radix: RADIXES.includes(row.radix) ? row.radix : "hex",
          colour: Number.isInteger(row.colour) && row.colour >= 0 && row.colour < COLOURS ? row.colour : 0, group: headings.get(row.in) ?? null}));
      }
    }
    this.items = this.#gathered(this.items);
    this.selected.clear();
    this.focus = this.items.length ? this.items[0].id : null;
    this.chain = null;
    this.cursor = time(document.cursor);
    this.marker = time(document.marker);
    const fault = document.fault;
    this.fault = Array.isArray(fault) && typeof fault[0] === "string" && ["0", "1"].includes(fault[1]) ? [fault[0], fault[1]] : null;
    const start = Number(document.start) || 0, stop = Number(document.stop) || this.end;
    this.changed("rows");
    this.show(start, Math.max(1, stop - start));
  }
}

// Values as they are written

export function written(word, radix) {
  if (word.length === 1 || radix === "bin") return word;
  if (radix === "dec" || radix === "signed") {
    if (!/^[01]+$/.test(word)) return /^z+$/.test(word) ? "z" : "x";
    const number = BigInt(`0b${word}`);
    return String(radix === "signed" ? BigInt.asIntN(word.length, number) : number);
  }
  const whole = word.padStart(Math.ceil(word.length / 4) * 4, /^[xz]/.test(word) ? word[0] : "0");
  return whole.replace(/..../g, (digit) => /^[01]+$/.test(digit) ? parseInt(digit, 2).toString(16) : digit === "xxxx" ? "x" : digit === "zzzz" ? "z" : "X");
}

export function grouped(number) { return String(number).replace(/\B(?=(\d{3})+(?!\d))/g, ","); }
