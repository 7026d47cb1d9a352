// Finds signals: as one types, or in the tree of the hierarchy. What is chosen is added to the waves.
import {make} from "./rows.js";
import {grouped} from "./model.js";
import {Newest, isGivenUp, reason} from "./link.js";

const WAIT = 60;
const KINDS = {input: "i", output: "o", register: "r", gate: "g"};

export class Finder {
  #link; #add; #field; #found; #tree; #state; #button; #note;
  #newest = new Newest(); #timer = 0; #at = -1; #chosen = new Set(); #anchor = 0;

  constructor(link, add) {
    this.#link = link; this.#add = add;
    [this.#field, this.#found, this.#tree, this.#state, this.#button, this.#note] =
      ["find", "found", "tree", "find-state", "add", "add-note"].map((id) => document.getElementById(id));
    this.#field.addEventListener("input", () => { clearTimeout(this.#timer); this.#timer = setTimeout(() => this.search(), WAIT); });
    this.#field.addEventListener("keydown", (event) => this.#key(event));
    this.#found.addEventListener("click", (event) => this.#click(event));
    this.#found.addEventListener("dblclick", () => this.addChosen());
    this.#button.addEventListener("click", () => this.addChosen());
    this.#tree.addEventListener("click", (event) => this.#clickTree(event));
    this.#tree.addEventListener("dblclick", (event) => { const item = event.target.closest("[data-name]"); if (item) this.addChosen(); });
    this.#tree.addEventListener("keydown", (event) => this.#keyTree(event));
  }

  focus() { this.#field.focus(); this.#field.select(); }

  async begin() { await this.#open(this.#tree, ""); this.#show(); }

  #show() {
    const isSearch = this.#field.value.trim() !== "";
    this.#found.hidden = !isSearch;
    this.#tree.hidden = isSearch;
    this.#field.setAttribute("aria-expanded", String(isSearch));
  }

  // Gives whether what was found is shown, where no newer search has begun meanwhile.
  async search() {
    const text = this.#field.value.trim(), {signal} = this.#newest;
    // what was typed before is not looked for any more, which would choose anew
    clearTimeout(this.#timer);
    this.#show();
    if (!text) { this.#state.textContent = ""; this.#choose([]); return true; }
    try {
      const told = await this.#link.get("names", {q: text}, signal);
      if (signal.aborted) return false;
      this.#found.replaceChildren(...told.signals.map((signal, place) => leaf("li", signal, `found-${place}`, "option")));
      this.#state.textContent = told.count === 0 ? "no signal" : told.count > told.signals.length
        ? `${grouped(told.signals.length)} of ${grouped(told.count)}` : `${grouped(told.count)} found`;
      this.#at = told.signals.length ? 0 : -1;
      this.#anchor = 0;
      this.#choose(told.signals.length ? [0] : []);
      return true;
    } catch (error) {
      if (!isGivenUp(error)) this.#state.textContent = reason(error);
      return false;
    }
  }

  // the list of what was found

  #choose(places) {
    const rows = [...this.#found.children];
    this.#chosen = new Set(places.map((place) => rows[place]?.dataset.name).filter(Boolean));
    rows.forEach((row, place) => {
      row.setAttribute("aria-selected", String(places.includes(place)));
      row.classList.toggle("at-focus", place === this.#at);
    });
    const row = rows[this.#at];
    this.#field.setAttribute("aria-activedescendant", row ? row.id : "");
    if (row) row.scrollIntoView({block: "nearest"});
    this.#tell();
  }

  #range(place, isRange) {
    this.#at = place;
    if (!isRange) this.#anchor = place;
    const [a, b] = [this.#anchor, place].sort((one, other) => one - other);
    this.#choose(Array.from({length: b - a + 1}, (_, step) => a + step));
  }

  #key(event) {
    const count = this.#found.children.length;
    if (event.key === "Enter") { event.preventDefault(); this.#enter(); } else if (event.key === "Escape") {
      if (this.#field.value) { this.#field.value = ""; this.search(); } else document.getElementById("stage").focus();
      event.preventDefault();
    } else if (event.key === "ArrowDown" && this.#found.hidden) { this.#tree.focus(); this.#focusTree(this.#items()[0]); event.preventDefault(); }
    else if (count && (event.key === "ArrowDown" || event.key === "ArrowUp")) {
      this.#range(Math.min(count - 1, Math.max(0, this.#at + (event.key === "ArrowDown" ? 1 : -1))), event.shiftKey);
      event.preventDefault();
    } else if (count && event.ctrlKey && event.key === "a") { this.#anchor = 0; this.#range(count - 1, true); event.preventDefault(); }
  }

  async #enter() {
    if (!await this.search()) return;
    const text = this.#field.value.trim();
    // a pattern is meant as a whole
    if (/[*?]/.test(text) && this.#chosen.size === 1 && this.#at === 0) this.#range(this.#found.children.length - 1, true);
    this.addChosen();
  }

  #click(event) {
    const row = event.target.closest("li");
    if (!row) return;
    const place = [...this.#found.children].indexOf(row);
    if (event.ctrlKey || event.metaKey) {
      const places = [...this.#found.children].map((one, at) => one.getAttribute("aria-selected") === "true" ? at : -1).filter((at) => at >= 0);
      this.#at = place;
      this.#choose(places.includes(place) ? places.filter((at) => at !== place) : [...places, place]);
    } else this.#range(place, event.shiftKey);
  }

  #tell() {
    this.#button.disabled = !this.#chosen.size;
    this.#note.textContent = this.#chosen.size > 1 ? `${grouped(this.#chosen.size)} chosen` : "";
  }

  addChosen() {
    const names = [...this.#chosen];
    if (names.length) this.#add(names);
  }

  // the tree

  async #open(parent, scope) {
    const list = parent === this.#tree ? parent : parent.appendChild(make("ul", {role: "group"}));
    list.replaceChildren(make("li", {role: "presentation"}, "…"));
    try {
      const told = await this.#link.get("level", {scope});
      const scopes = told.scopes.map(([name, prefix]) => make("li", {role: "treeitem", "aria-expanded": "false", "data-scope": prefix, "aria-label": name},
        make("span", {class: "label"}, make("span", {class: "twist", "aria-hidden": "true"}, "▸"), make("span", {class: "text"}, name))));
      const signals = told.signals.map((signal) => make("li", {role: "treeitem", "data-name": signal[0], "aria-label": spoken(signal), "aria-selected": "false"},
        leaf("span", signal, null, null)));
      list.replaceChildren(...signals, ...scopes);
      if (told.count > told.signals.length) list.append(make("li", {role: "presentation", class: "more"}, `and ${grouped(told.count - told.signals.length)} more: type to find them`));
    } catch (error) { list.replaceChildren(make("li", {role: "presentation"}, reason(error))); }
  }

  #items() { return [...this.#tree.querySelectorAll('[role="treeitem"]')].filter((item) => item.checkVisibility()); }

  #focusTree(item) {
    for (const one of this.#tree.querySelectorAll(".at-focus, [aria-selected='true']")) {
      one.classList.remove("at-focus");
      if (one.hasAttribute("aria-selected")) one.setAttribute("aria-selected", "false");
    }
    if (!item) return;
    item.id ||= `tree-${Math.random().toString(36).slice(2)}`;
    item.classList.add("at-focus");
    this.#tree.setAttribute("aria-activedescendant", item.id);
    this.#chosen = new Set(item.dataset.name ? [item.dataset.name] : []);
    if (item.dataset.name) item.setAttribute("aria-selected", "true");
    item.querySelector(".label").scrollIntoView({block: "nearest"});
    this.#tell();
  }

  async #toggle(item) {
    const isOpen = item.getAttribute("aria-expanded") === "true";
    item.setAttribute("aria-expanded", String(!isOpen));
    item.querySelector(".twist").textContent = isOpen ? "▸" : "▾";
    if (isOpen) item.querySelector("ul").remove();
    else await this.#open(item, item.dataset.scope);
  }

  #clickTree(event) {
    const item = event.target.closest('[role="treeitem"]');
    if (!item) return;
    this.#focusTree(item);
    if (item.dataset.scope !== undefined) this.#toggle(item);
  }

  #keyTree(event) {
    const items = this.#items(), at = items.findIndex((item) => item.classList.contains("at-focus")), item = items[at];
    const acts = {
      ArrowDown: () => this.#focusTree(items[Math.min(items.length - 1, at + 1)]),
      ArrowUp: () => at > 0 ? this.#focusTree(items[at - 1]) : this.focus(),
      ArrowRight: () => { if (item?.getAttribute("aria-expanded") === "false") this.#toggle(item); },
      ArrowLeft: () => { if (item?.getAttribute("aria-expanded") === "true") this.#toggle(item); else this.#focusTree(item?.parentElement.closest('[role="treeitem"]')); },
      Enter: () => { if (item?.dataset.scope !== undefined) this.#toggle(item); else this.addChosen(); },
      Escape: () => this.focus(),
    };
    if (acts[event.key]) { event.preventDefault(); event.stopPropagation(); acts[event.key](); }
  }
}

function spoken([name, kind, bits]) { return bits > 1 ? `${name}, ${kind}, ${bits} bits` : `${name}, ${kind}`; }

function leaf(tag, signal, id, role) {
  const [name, kind] = signal;
  return make(tag, {class: "label", id, role, "data-name": role ? name : null, "aria-label": role ? spoken(signal) : null, title: name},
    make("span", {class: `kind ${kind}`, "aria-hidden": "true", title: kind}, KINDS[kind] || ""), make("span", {class: "text"}, name));
}
