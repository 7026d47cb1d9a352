// The list of signals beside the waves: names, values at the cursor, selection, and dragging into order.
import {layout} from "./paint.js";
import {grouped, written} from "./model.js";

export function make(name, attributes = {}, ...children) {
  const element = document.createElement(name);
  for (const [key, value] of Object.entries(attributes)) if (value !== null && value !== false) element.setAttribute(key, value === true ? "" : value);
  element.append(...children);
  return element;
}

export class Rows {
  #model; #link; #list; #drag = null; #anchor = null;

  constructor(model, link, list) {
    this.#model = model; this.#link = link; this.#list = list;
    list.addEventListener("pointerdown", (event) => this.#press(event));
    list.addEventListener("pointermove", (event) => this.#pull(event));
    list.addEventListener("pointerup", (event) => this.#drop(event));
    list.addEventListener("pointercancel", () => { this.#drag = null; this.#mark(null); });
    list.addEventListener("dblclick", (event) => { const item = this.#itemOf(event.target); if (item && item.isGroup) model.toggle(item.id); });
  }

  get top() { return this.#list.scrollTop; }

  scroll(by) { this.#list.scrollTop += by; }

  draw() {
    const model = this.#model;
    const members = layout(model).map(({item, height}) => this.#row(item, height));
    this.#list.replaceChildren(...members);
    if (!members.length) this.#list.append(make("li", {class: "empty", role: "presentation"}, "No signals yet. Press / and type a name, then Enter."));
    this.#list.setAttribute("aria-activedescendant", model.focus === null ? "" : `row-${model.focus}`);
    this.values();
  }

  #row(item, height) {
    const model = this.#model, isSelected = model.selected.has(item.id);
    const row = make("li", {id: `row-${item.id}`, role: "option", "aria-selected": String(isSelected), "data-id": item.id, title: item.name,
      class: [item.isGroup ? "heading" : "", item.group !== null ? "member" : "", item.ofWhy ? "of-why" : "", model.focus === item.id ? "at-focus" : ""].join(" ")});
    row.style.height = `${height}px`;
    const stripe = make("span", {class: "stripe"});
    stripe.style.background = item.isGroup ? "transparent" : `var(--wave-${item.colour})`;
    row.append(stripe);
    if (item.isGroup) {
      row.setAttribute("aria-expanded", String(!item.isClosed));
      row.append(make("span", {class: "twist", "aria-hidden": "true"}, item.isClosed ? "▸" : "▾"), make("span", {class: "name"}, item.name));
    } else row.append(make("span", {class: "name"}, make("bdi", {}, item.name)), make("span", {class: "value"}));
    return row;
  }

  // The values at the cursor, where they are known.
  values() {
    const model = this.#model;
    document.getElementById("value-head").textContent = model.cursor === null ? "" : `at ${grouped(model.cursor)}`;
    for (const {item} of layout(model)) {
      const row = document.getElementById(`row-${item.id}`);
      if (!row || item.isGroup) continue;
      const [good, faulty] = this.valueOf(item);
      const cell = row.querySelector(".value"), text = good === undefined ? "" : good === null ? "?" : written(good, item.radix);
      cell.replaceChildren(make("span", {class: /[xzX?]/.test(text) ? "unknown" : ""}, text));
      if (faulty !== undefined) cell.append(make("span", {class: "faulty"}, faulty === null ? "?" : written(faulty, item.radix)));
      const said = text === "" ? item.name : `${item.name} is ${text}` + (faulty ? `, with the fault ${written(faulty, item.radix)}` : "");
      row.setAttribute("aria-label", item.group === null ? said : `${said}, in a group`);
    }
  }

  valueOf(item) {
    const model = this.#model, time = model.cursor;
    if (time === null) return [undefined, undefined];
    const fetched = model.values.get(item.id), has = fetched && fetched.time === time;
    const good = this.#link.track(2 * item.id).valueAt(time) ?? (has ? fetched.good : undefined);
    const faulty = model.fault ? this.#link.track(2 * item.id + 1).valueAt(time) ?? (has ? fetched.faulty : undefined) : undefined;
    return [good, faulty];
  }

  // selection

  #itemOf(target) {
    const row = target.closest("li[data-id]");
    return row ? this.#model.item(Number(row.dataset.id)) : null;
  }

  select(id, {extends_: isRange = false, adds = false} = {}) {
    const model = this.#model, shown = model.shown.map((item) => item.id);
    if (!model.selected.has(this.#anchor)) this.#anchor = model.focus;
    if (isRange && this.#anchor !== null && shown.includes(this.#anchor)) {
      const [a, b] = [shown.indexOf(this.#anchor), shown.indexOf(id)].sort((one, other) => one - other);
      model.selected = new Set(shown.slice(a, b + 1));
    } else if (adds) {
      if (!model.selected.delete(id)) model.selected.add(id);
      this.#anchor = id;
    } else {
      model.selected = new Set([id]);
      this.#anchor = id;
    }
    model.focus = id;
    model.changed("rows");
    this.reveal(id);
  }

  step(by, isRange = false) {
    const model = this.#model, shown = model.shown.map((item) => item.id);
    if (!shown.length) return;
    const place = shown.indexOf(model.focus);
    this.select(shown[place < 0 ? 0 : Math.min(shown.length - 1, Math.max(0, place + by))], {extends_: isRange});
  }

  reveal(id) {
    const place = layout(this.#model).find(({item}) => item.id === id), list = this.#list;
    if (!place) return;
    if (place.y < list.scrollTop) list.scrollTop = place.y;
    else if (place.y + place.height > list.scrollTop + list.clientHeight) list.scrollTop = place.y + place.height - list.clientHeight;
  }

  // dragging

  #press(event) {
    const item = this.#itemOf(event.target);
    if (!item || event.button !== 0) return;
    if (event.target.closest(".twist")) { this.#model.toggle(item.id); return; }
    const isChosen = this.#model.selected.has(item.id);
    if (!isChosen || event.shiftKey || event.ctrlKey || event.metaKey) {
      this.select(item.id, {extends_: event.shiftKey, adds: event.ctrlKey || event.metaKey});
    }
    this.#list.focus({preventScroll: true});
    this.#drag = {id: item.id, y: event.clientY, moved: false, wasChosen: isChosen};
    this.#list.setPointerCapture(event.pointerId);
    event.preventDefault();
  }

  #pull(event) {
    if (!this.#drag) return;
    if (Math.abs(event.clientY - this.#drag.y) > 4) this.#drag.moved = true;
    if (!this.#drag.moved) return;
    const box = this.#list.getBoundingClientRect();
    if (event.clientY < box.top + 16) this.scroll(-10);
    if (event.clientY > box.bottom - 16) this.scroll(10);
    this.#mark(this.#target(event.clientY));
  }

  #drop(event) {
    const drag = this.#drag, model = this.#model;
    this.#drag = null;
    this.#mark(null);
    if (!drag) return;
    if (!drag.moved) {
      if (drag.wasChosen && !event.shiftKey && !event.ctrlKey && !event.metaKey) this.select(drag.id);
      return;
    }
    const target = this.#target(event.clientY);
    if (target) model.move(new Set(model.chosen.filter((item) => !item.ofWhy).map((item) => item.id)), target.before, target.group);
  }

  // Where the items would go: before which item, into which group, and the row at whose edge that is.
  #target(y) {
    const model = this.#model, places = layout(model), list = this.#list;
    if (!places.length) return null;
    const at = y - list.getBoundingClientRect().top + list.scrollTop;
    const place = places.find((one) => at < one.y + one.height) || places[places.length - 1];
    const isAfter = at >= place.y + place.height / 2, {item} = place;
    if (item.ofWhy) { const first = model.items.find((one) => one.ofWhy); return {before: first.id, group: null, row: item.id, isAfter: false}; }
    if (!isAfter) return {before: item.id, group: item.group, row: item.id, isAfter};
    const next = model.items[model.items.indexOf(item) + 1];
    const behind = item.isGroup && item.isClosed ? model.items.slice(model.items.indexOf(item) + 1).find((one) => one.group !== item.id) : next;
    return {before: behind ? behind.id : null, group: item.isGroup && !item.isClosed ? item.id : item.group, row: item.id, isAfter};
  }

  #mark(target) {
    for (const row of this.#list.querySelectorAll(".drop-before, .drop-after")) row.classList.remove("drop-before", "drop-after");
    const row = target && document.getElementById(`row-${target.row}`);
    if (row) row.classList.add(target.isAfter ? "drop-after" : "drop-before");
  }
}
