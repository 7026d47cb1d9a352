// Why a value is what it is: the chain of cells to a root cause, as a list to walk along, and drawn into the waves.
import {make} from "./rows.js";
import {grouped} from "./model.js";
import {Newest, isGivenUp, reason} from "./link.js";

const MOST_ROWS = 16, MOST_CAUSES = 4;

export class Causes {
  #model; #link; #told = null; #root = 0; #newest = new Newest(); #say; #reveal;
  #part = Object.fromEntries(["why", "why-head", "why-state", "why-hint", "causes", "chain", "roots", "roots-label"].map((id) => [id, document.getElementById(id)]));

  constructor(model, link, say, reveal) {
    this.#model = model; this.#link = link; this.#say = say; this.#reveal = reveal;
    this.#part.roots.addEventListener("change", () => { this.#root = this.#part.roots.selectedIndex; this.#choose(0); });
    this.#part.chain.addEventListener("click", (event) => {
      const button = event.target.closest("button");
      if (button) this.go(Number(button.dataset.step));
    });
  }

  get isOpen() { return !this.#part.why.hidden; }

  open() { this.#part.why.hidden = false; }

  close() {
    this.#newest.stop();
    this.#told = null;
    this.#part.why.hidden = true;
    this.#model.setChain(null);
    this.#draw();
  }

  clear() { if (this.#told) { this.#told = null; this.#newest.stop(); this.#model.setChain(null); this.#draw(); } }

  async ask(name, time) {
    const {signal} = this.#newest;
    this.open();
    this.#part["why-state"].textContent = `asking why ${name} has its value at ${grouped(time)} …`;
    try {
      const told = await this.#link.post("why", {name, time}, signal);
      if (signal.aborted) return;
      this.#told = told;
      this.#root = 0;
      this.#choose(0);
    } catch (error) {
      if (isGivenUp(error)) return;
      this.#told = null;
      this.#model.setChain(null);
      this.#draw();
      this.#part["why-state"].textContent = reason(error);
    }
  }

  get steps() { return this.#told && this.#told.chains.length ? this.#told.chains[this.#root].steps : []; }

  #choose(at) {
    const steps = this.steps, told = this.#told, model = this.#model;
    model.setChain(null);
    const names = [...new Set(steps.map((step) => step.name))].filter((name) => !model.rowOf(name)).slice(0, MOST_ROWS);
    model.setChain({steps, at}, `Why ${told.name} is ${told.value} at ${grouped(told.time)}`, names);
    this.#draw();
  }

  // Goes to a step of the chain: the cursor to where its cell begins.
  go(at) {
    const step = this.steps[at], model = this.#model;
    if (!step) return;
    model.chain.at = at;
    model.setCursor(at === 0 ? this.#told.time : step.start);
    model.reveal(model.cursor);
    const row = model.rowOf(step.name);
    if (row) { model.selected = new Set([row.id]); model.focus = row.id; }
    model.changed("rows");
    if (row) this.#reveal(row.id);
    this.#draw();
    this.#say(`${step.name} is ${step.value} from ${grouped(step.start)} on: ${step.what}`);
  }

  walk(by) {
    const {chain} = this.#model;
    if (chain) this.go(Math.min(this.steps.length - 1, Math.max(0, chain.at + by)));
  }

  #draw() {
    const told = this.#told, part = this.#part, {chain} = this.#model, steps = this.steps;
    part["why-hint"].hidden = told !== null;
    part["roots-label"].hidden = steps.length === 0 || told.chains.length < 2;
    part.causes.hidden = !told;
    if (!told || !chain) {
      part["why-head"].textContent = "Why";
      part["why-state"].textContent = "";
      part.chain.replaceChildren();
      return;
    }
    part["why-head"].textContent = `Why ${told.name} is ${told.value} at ${grouped(told.time)}`;
    part["why-head"].title = part["why-head"].textContent;
    part["why-state"].textContent = steps.length ? `${grouped(steps.length)} step${steps.length === 1 ? "" : "s"} back to ${told.chains[this.#root].to}` : "";
    const more = told.causes.length - MOST_CAUSES, shown = more > 1 ? told.causes.slice(0, MOST_CAUSES) : told.causes;
    part.causes.replaceChildren(...shown.map((cause) => make("li", {}, cause)), ...(more > 1 ? [make("li", {title: told.causes.slice(MOST_CAUSES).join("\n")}, `and ${grouped(more)} more`)] : []));
    part.roots.replaceChildren(...told.chains.map((one, place) => make("option", {value: String(place), selected: place === this.#root}, `${one.to}: ${one.kind}`)));
    part.chain.replaceChildren(...steps.map((step, place) => this.#step(step, place)));
    part.chain.querySelector("[aria-current]")?.scrollIntoView({block: "nearest"});
  }

  #step(step, place) {
    const isNow = this.#model.chain.at === place;
    const often = step.times > 1 && !/edges/.test(step.what) ? `, ${grouped(step.times)} times since ${grouped(step.since)}` : "";
    return make("li", {}, make("button", {type: "button", class: `v${step.value}${step.isRoot ? " root" : ""}`, "data-step": place, "aria-current": isNow ? "step" : null},
      make("b", {}, ...breakable(step.name), ` = ${step.value}`), make("span", {class: "since"}, ` from ${grouped(step.start)}`),
      make("small", {}, step.what + often), step.source ? make("small", {class: "source"}, step.source) : ""));
  }
}

// A name that may be broken behind a point or an underscore.
function breakable(name) { return name.split(/(?<=[._])/).flatMap((part, place) => place ? [make("wbr"), part] : [part]); }
