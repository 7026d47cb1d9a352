// Talks to the session: plain questions, and the stream of waves for what is in view.
import {Track} from "./waves.js";

const EVERY = 40;       // milliseconds between two requests while one is answered
const ROUND = 2;        // what is kept, in widths of the view on each side

export class Link extends EventTarget {
  tracks = new Map();   // by the number of a wave: twice the id of its row, and one more for the faulty one
  state = null;
  isAsking = false;
  isLost = false;       // whether an answer did not come, though the session may go on
  asked = 0;
  #page = Math.random().toString(36).slice(2);
  #aborts = null;
  #timer = 0;
  #posts = 0;
  #last = 0;
  #scene = null;

  async get(path, query = {}, signal = null) { return read(await fetch(`${path}?${new URLSearchParams(query)}`, {signal})); }

  async post(path, body, signal = null) {
    // the values at the cursor come with each scene; of all else it is told that it is asked
    const told = path === "values" ? 0 : 1;
    this.#posts += told;
    this.#tell();
    try {
      const answer = await fetch(path, {method: "POST", signal, body: JSON.stringify(body), headers: {"Content-Type": "application/json"}});
      return await (path === "dump" && answer.ok ? answer.text() : read(answer));
    } finally {
      this.#posts -= told;
      this.#tell();
    }
  }

  track(number) {
    if (!this.tracks.has(number)) this.tracks.set(number, new Track());
    return this.tracks.get(number);
  }

  // What is on its way is of before, so it is given up; the caller asks anew.
  forget(numbers = null) {
    if (this.#aborts) this.#aborts.abort();
    this.#aborts = null;
    if (numbers === null) this.tracks.clear();
    else for (const number of numbers) this.tracks.delete(number);
  }

  // Has the waves of a scene asked: {start, stop, step, rows: [{row, name, fault, limit}]}. The newest scene counts.
  want(scene) {
    this.#scene = scene;
    if (this.#timer) return;
    const wait = Math.max(0, this.#last + EVERY - performance.now());
    if (wait === 0) this.#ask();
    else this.#timer = setTimeout(() => { this.#timer = 0; this.#ask(); }, wait);
    this.#tell();
  }

  #tell() {
    const isAsking = this.#aborts !== null || this.#timer !== 0 || this.#posts > 0;
    if (isAsking !== this.isAsking) { this.isAsking = isAsking; this.dispatchEvent(new Event("asking")); }
  }

  async #ask() {
    const scene = this.#scene, rows = [];
    for (const row of scene.rows) {
      const windows = this.track(row.row).missing(scene.start, scene.stop, scene.step);
      if (windows.length) rows.push({...row, windows});
    }
    if (this.#aborts) this.#aborts.abort();
    this.#aborts = null;
    if (!rows.length) { this.#tell(); return; }
    const aborts = this.#aborts = new AbortController();
    this.#last = performance.now();
    this.#tell();
    try {
      this.asked += 1;
      const answer = await fetch("waves", {method: "POST", signal: aborts.signal, headers: {"Content-Type": "application/json"},
        body: JSON.stringify({page: this.#page, number: this.asked, step: scene.step, rows})});
      if (!answer.ok) throw new Error((await answer.json()).error);
      await this.#take(answer.body, scene, rows, aborts);
      this.#tidy();
    } catch (error) {
      if (!aborts.signal.aborted) {
        this.isLost = error instanceof TypeError;
        this.dispatchEvent(new CustomEvent("failed", {detail: reason(error)}));
      }
    }
    if (this.#aborts === aborts) this.#aborts = null;
    this.#tell();
    this.dispatchEvent(new Event("waves"));
  }

  async #take(body, scene, rows, aborts) {
    const known = new Map(rows.map((row) => [row.row, row]));
    const reader = body.pipeThrough(new TextDecoderStream()).getReader();
    let rest = "";
    for (;;) {
      const {value, done} = await reader.read();
      if (done) return;
      if (aborts.signal.aborted) return;
      const lines = (rest + value).split("\n");
      rest = lines.pop();
      for (const line of lines) this.#message(JSON.parse(line), scene, known);
      this.dispatchEvent(new Event("waves"));
    }
  }

  #message(message, scene, known) {
    if (message.row === undefined) {
      if (message.error) throw new Error(message.error);
      return;
    }
    const track = this.track(message.row);
    if (message.error) {
      for (const [start, stop] of known.get(message.row).windows) track.add({start, stop, error: message.error});
    } else if (message.spent !== undefined) track.add({start: message.start, stop: message.stop, spent: message.spent});
    else track.add({start: message.start, stop: message.stop, step: scene.step, runs: message.runs, exact: message.exact});
  }

  // Lets go of what is far from the newest scene, which alone may be in view.
  #tidy() {
    const scene = this.#scene;
    const margin = ROUND * (scene.stop - scene.start), rows = new Set(scene.rows.map((row) => row.row));
    for (const [number, track] of this.tracks) {
      track.keep(scene.start - margin, scene.stop + margin);
      if (!rows.has(number) && this.tracks.size > 400) this.tracks.delete(number);
    }
  }
}

async function read(answer) {
  const told = await answer.json().catch(() => ({error: `the session answers ${answer.status}`}));
  if (!answer.ok) throw new Error(told.error);
  return told;
}

// Gives up what was asked before, where it goes on; the signal for what is asked now.
export class Newest {
  #aborts = new AbortController();

  get signal() {
    this.stop();
    this.#aborts = new AbortController();
    return this.#aborts.signal;
  }

  stop() { this.#aborts.abort(); }
}

export function isGivenUp(error) { return error.name === "AbortError"; }

export function reason(error) {
  return error instanceof TypeError ? "The session does not answer: it was ended where the command runs." : error.message;
}
