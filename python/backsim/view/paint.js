// Draws the scene: rows of waves, ruler, cursor, marker and the chain of causes; on a canvas, or as SVG. Both are given the same shapes.
import {bitsOf, grouped, written} from "./model.js";

export const HEAD = 30, LANE = 28, FAULTY = 26, GAP = 6, HEADING = 26;
// steps of the chain that are drawn in full, before the current one and after it
const BEHIND = 2, AHEAD = 6;
const LETTER = 7.25, MONO = "12px 'JetBrains Mono', 'DejaVu Sans Mono', Menlo, Consolas, monospace";
const SANS = "11px Inter, 'Segoe UI', 'DejaVu Sans', sans-serif";

export function theme() {
  const style = getComputedStyle(document.documentElement), colours = {};
  for (const name of ["ground", "panel", "line", "soft", "text", "quiet", "accent", "accent-ground", "marker", "grid", "x", "x-ground", "z", "unasked",
    "spent", "spent-line", "past", "fault", "fault-ground", "chain", "selected", "bad", ...Array.from({length: 7}, (_, place) => `wave-${place}`)]) {
    colours[name] = style.getPropertyValue(`--${name}`).trim();
  }
  return colours;
}

// Where each shown item stands: y from the top of the list, and its height.
export function layout(model) {
  let y = 0;
  return model.shown.map((item) => {
    const height = item.isGroup ? HEADING : LANE + GAP + (model.fault ? FAULTY : 0), place = {item, y, height};
    y += height;
    return place;
  });
}

// The two painters

export class CanvasPainter {
  #hatches = new Map();

  constructor(context, colours) { this.context = context; this.colours = colours; }

  path(d, {fill, stroke, width = 1, dash, alpha = 1, hatch}) {
    const context = this.context, shape = new Path2D(d);
    context.globalAlpha = alpha;
    if (fill) { context.fillStyle = fill; context.fill(shape); }
    if (hatch) { context.fillStyle = this.#hatch(hatch); context.fill(shape); }
    if (stroke) {
      context.strokeStyle = stroke; context.lineWidth = width; context.setLineDash(dash || []);
      context.stroke(shape);
    }
    context.globalAlpha = 1;
  }

  text(x, y, text, {fill, font = MONO, align = "left", weight = ""}) {
    const context = this.context;
    context.font = `${weight} ${font}`.trim(); context.fillStyle = fill; context.textAlign = align; context.textBaseline = "middle";
    context.fillText(text, x, y);
  }

  clip(x, y, width, height, draw) {
    this.context.save();
    this.context.beginPath(); this.context.rect(x, y, width, height); this.context.clip();
    draw();
    this.context.restore();
  }

  at(x, y, draw) {
    this.context.save();
    this.context.translate(x, y);
    draw();
    this.context.restore();
  }

  #hatch({kind, colour}) {
    const key = kind + colour;
    if (!this.#hatches.has(key)) this.#hatches.set(key, this.#pattern(kind, colour));
    return this.#hatches.get(key);
  }

  #pattern(kind, colour) {
    const ratio = window.devicePixelRatio || 1, size = kind === "busy" ? 3 : 7;
    const tile = new OffscreenCanvas(Math.round(size * ratio), Math.round(size * ratio)), context = tile.getContext("2d");
    context.scale(tile.width / size, tile.height / size);
    context.strokeStyle = colour; context.lineWidth = kind === "busy" ? 1 : 1.2;
    context.stroke(new Path2D(HATCHES[kind]));
    const pattern = this.context.createPattern(tile, "repeat");
    pattern.setTransform(new DOMMatrix().scale(size / tile.width, size / tile.height));
    return pattern;
  }
}

// strokes of one tile, of 7 by 7, and of 3 by 3 for activity
const HATCHES = {slant: "M-2 9L9 -2M-2 2L2 -2M5 9L9 5", busy: "M.5 0V3"};

export class SvgPainter {
  #parts = [];
  #definitions = new Map();
  #clips = 0;

  path(d, {fill = "none", stroke = "none", width = 1, dash, alpha = 1, hatch}) {
    const extra = (dash ? ` stroke-dasharray="${dash.join(" ")}"` : "") + (alpha < 1 ? ` opacity="${alpha}"` : "");
    if (fill !== "none" || stroke !== "none") {
      this.#parts.push(`<path d="${d}" fill="${fill}" stroke="${stroke}"${stroke === "none" ? "" : ` stroke-width="${width}"`}${extra}/>`);
    }
    if (hatch) this.#parts.push(`<path d="${d}" fill="url(#${this.#hatch(hatch)})"${extra}/>`);
  }

  text(x, y, text, {fill, font = MONO, align = "left", weight = ""}) {
    const [size, family] = [font.slice(0, font.indexOf(" ")), font.slice(font.indexOf(" ") + 1)];
    const anchor = {left: "start", center: "middle", right: "end"}[align];
    this.#parts.push(`<text x="${x}" y="${y}" fill="${fill}" font-size="${size}" font-family="${family}" text-anchor="${anchor}"`
      + `${weight ? ` font-weight="${weight}"` : ""} dominant-baseline="central">${escaped(text)}</text>`);
  }

  clip(x, y, width, height, draw) {
    const name = `clip${this.#clips++}`;
    this.#definitions.set(name, `<clipPath id="${name}"><rect x="${x}" y="${y}" width="${width}" height="${height}"/></clipPath>`);
    this.#parts.push(`<g clip-path="url(#${name})">`);
    draw();
    this.#parts.push("</g>");
  }

  at(x, y, draw) {
    this.#parts.push(`<g transform="translate(${x} ${y})">`);
    draw();
    this.#parts.push("</g>");
  }

  #hatch({kind, colour}) {
    const name = `${kind}${colour.replace(/[^0-9a-z]/gi, "")}`, size = kind === "busy" ? 3 : 7;
    this.#definitions.set(name, `<pattern id="${name}" width="${size}" height="${size}" patternUnits="userSpaceOnUse"><path d="${HATCHES[kind]}" stroke="${colour}" fill="none"/></pattern>`);
    return name;
  }

  svg(width, height, title, ground) {
    return `<svg xmlns="http://www.w3.org/2000/svg" width="${width}" height="${height}" viewBox="0 0 ${width} ${height}" role="img">\n<title>${escaped(title)}</title>\n`
      + `<defs>${[...this.#definitions.values()].join("")}</defs>\n<rect width="${width}" height="${height}" fill="${ground}"/>\n${this.#parts.join("\n")}\n</svg>\n`;
  }
}

function escaped(text) { return text.replace(/[&<>"]/g, (mark) => ({"&": "&amp;", "<": "&lt;", ">": "&gt;", '"': "&quot;"})[mark]); }

// The scene. `frame` is {width, height, top} of the waves without the ruler, `top` being how far the list is scrolled.

export class Scene {
  constructor(model, link, painter, colours, frame) {
    Object.assign(this, {model, link, painter, colours, frame});
    this.scale = frame.width / model.span;
    this.spent = [];
  }

  x(time) { return (time - this.model.start) * this.scale; }

  draw() {
    const {painter, frame, colours, model} = this;
    painter.path(box(0, 0, frame.width, HEAD + frame.height), {fill: colours.ground});
    const ticks = this.#ticks();
    const past = this.x(model.end);
    if (past < frame.width) painter.path(box(past, HEAD, frame.width - past, frame.height), {fill: colours.past});
    painter.path(ticks.map(({x}) => `M${x} ${HEAD}V${HEAD + frame.height}`).join(""), {stroke: colours.grid});
    this.#range();
    painter.clip(0, HEAD, frame.width, frame.height, () => {
      for (const place of layout(model)) {
        const y = HEAD + place.y - frame.top;
        if (y < HEAD + frame.height && y + place.height > HEAD) this.#item(place.item, y, place.height);
      }
      this.#chain();
    });
    this.#ruler(ticks);
    this.#cursors();
  }

  #ticks() {
    const {model, frame} = this, room = Math.max(70, grouped(Math.round(model.stop)).length * 7 + 26);
    const wanted = model.span * room / frame.width, power = 10 ** Math.floor(Math.log10(wanted));
    const step = Math.max(1, [1, 2, 5, 10].map((one) => one * power).find((one) => one >= wanted)), ticks = [];
    for (let time = Math.ceil(model.start / step) * step; time <= model.stop; time += step) ticks.push({time, x: Math.round(this.x(time)) + .5});
    return ticks;
  }

  #ruler(ticks) {
    const {painter, frame, colours} = this;
    painter.path(box(0, 0, frame.width, HEAD), {fill: colours.panel});
    painter.path(`M0 ${HEAD - .5}H${frame.width}`, {stroke: colours.line});
    painter.path(ticks.map(({x}) => `M${x} ${HEAD - 6}V${HEAD}`).join(""), {stroke: colours.unasked});
    const flags = [this.model.cursor, this.model.marker].filter((time) => time !== null).map((time) => this.#plate(time));
    for (const {time, x} of ticks) {
      const half = grouped(time).length * 3.3 + 4, middle = x < half ? half : x;
      const isCovered = flags.some(({left, width}) => middle + half > left && middle - half < left + width);
      if (x < frame.width - 14 && !isCovered) painter.text(middle, 12, grouped(time), {fill: colours.quiet, font: SANS, align: "center"});
    }
  }

  #range() {
    const {model, painter, frame, colours} = this;
    if (model.cursor === null || model.marker === null) return;
    const a = this.x(Math.min(model.cursor, model.marker)), b = this.x(Math.max(model.cursor, model.marker));
    painter.path(box(a, HEAD, b - a, frame.height), {fill: colours.accent, alpha: .07});
  }

  #cursors() {
    const {model, colours} = this;
    if (model.marker !== null) this.#flag(model.marker, colours.marker, [5, 3]);
    if (model.cursor !== null) this.#flag(model.cursor, colours.accent);
  }

  // Where the plate with the time of a flag stands in the ruler: at its line, and within the frame.
  #plate(time) {
    const width = grouped(time).length * 6.6 + 10;
    return {left: Math.min(Math.max(1, this.x(time) - width / 2), this.frame.width - width - 1), width};
  }

  #flag(time, colour, dash) {
    const {painter, frame, colours} = this, x = Math.round(this.x(time)) + .5;
    if (x < -40 || x > frame.width + 40) return;
    painter.path(`M${x} ${HEAD - 6}V${HEAD + frame.height}`, {stroke: colour, width: 1.25, dash});
    const text = grouped(time), {left, width} = this.#plate(time);
    painter.path(rounded(left, 3, width, 18, 4), {fill: colour});
    painter.text(left + width / 2, 12.5, text, {fill: colours.ground, font: SANS, align: "center", weight: 600});
  }

  #item(item, y, height) {
    const {painter, frame, colours, model, link} = this;
    if (model.selected.has(item.id)) painter.path(box(0, y, frame.width, height), {fill: colours.selected, alpha: .45});
    painter.path(`M0 ${y + height - .5}H${frame.width}`, {stroke: colours.grid});
    if (item.isGroup) { painter.path(box(0, y, frame.width, height - 1), {fill: colours.soft, alpha: .6}); return; }
    const colour = colours[`wave-${item.colour}`], isBus = bitsOf(item.name).length > 1;
    const good = link.track(2 * item.id);
    if (model.fault) {
      const faulty = link.track(2 * item.id + 1);
      this.#differences(good, faulty, y, height);
      this.#lane(item, faulty, y + GAP / 2 + LANE - 2, FAULTY, colours.fault, isBus, 2 * item.id + 1);
    }
    this.#lane(item, good, y + GAP / 2, LANE, colour, isBus, 2 * item.id);
  }

  #differences(good, faulty, y, height) {
    const {model, painter, colours} = this;
    const a = [...good.within(model.start, Math.min(model.stop, model.end))], b = [...faulty.within(model.start, Math.min(model.stop, model.end))];
    let d = "";
    for (let i = 0, j = 0; i < a.length && j < b.length;) {
      const from = Math.max(a[i].a, b[j].a), to = Math.min(a[i].b, b[j].b);
      if (from < to && a[i].value !== undefined && b[j].value !== undefined && a[i].value !== b[j].value) {
        d += box(this.x(from), y + 1, Math.max(1, (to - from) * this.scale), height - 2);
      }
      if (a[i].b <= b[j].b) i++; else j++;
    }
    if (d) painter.path(d, {fill: colours["fault-ground"]});
  }

  #lane(item, track, y, height, colour, isBus, number) {
    const {model, painter, colours} = this, start = Math.max(0, Math.floor(model.start)), stop = Math.min(Math.ceil(model.stop), model.end);
    const top = Math.round(y) + 4.5, low = top + height - 8, middle = (top + low) / 2, shapes = {line: "", high: "", x: "", z: "", bus: "", part: "", busy: "", ends: "", gap: ""};
    const texts = [];
    let before = null;
    for (const run of track.within(start, stop)) {
      const a = Math.round(this.x(run.a)) + .5, b = Math.round(this.x(run.b)) + .5;
      if (run.count !== undefined) {
        const right = Math.max(b, a + 1);
        shapes.busy += box(a, top, right - a, low - top);
        shapes.ends += `M${a} ${top}H${right}M${a} ${low}H${right}`;
        if (b - a > 74) texts.push([(Math.max(a, 0) + Math.min(b, this.frame.width)) / 2, `${grouped(run.count)} changes`, colours.text, true]);
        before = null;
        continue;
      }
      if (run.value === undefined) {
        if (run.spent !== undefined || run.error !== undefined) this.#unshown(run, a, b, top, low, number);
        else shapes.gap += `M${a} ${middle}H${b}`;
        before = null;
        continue;
      }
      if (isBus) this.#word(item, run, a, b, top, low, middle, shapes, texts);
      else before = level(run.value, a, b, top, low, middle, shapes, before);
    }
    const plain = {stroke: colour, width: 1.5};
    painter.path(shapes.gap, {stroke: colours.unasked, width: 1, dash: [2, 4]});
    if (shapes.high) painter.path(shapes.high, {fill: colour, alpha: .13});
    if (shapes.bus) painter.path(shapes.bus, {fill: colour, alpha: .1});
    if (shapes.bus) painter.path(shapes.bus, {stroke: colour, width: 1.2});
    if (shapes.part) painter.path(shapes.part, {fill: colours["x-ground"], stroke: colours.x, width: 1.2});
    if (shapes.x) painter.path(shapes.x, {fill: colours["x-ground"], stroke: colours.x, width: 1, hatch: {kind: "slant", colour: colours.x}});
    if (shapes.busy) {
      painter.path(shapes.busy, {fill: colour, alpha: .28});
      painter.path(shapes.busy, {hatch: {kind: "busy", colour}, alpha: .75});
      painter.path(shapes.ends, {stroke: colour, width: 1});
    }
    if (shapes.z) painter.path(shapes.z, {stroke: colours.z, width: 2, dash: [6, 3]});
    if (shapes.line) painter.path(shapes.line, plain);
    for (const [x, text, fill, isPlate] of texts) {
      if (isPlate) {
        const width = text.length * 6.4 + 10;
        painter.path(rounded(x - width / 2, middle - 8, width, 16, 4), {fill: colours.ground, alpha: .88});
        painter.text(x, middle + .5, text, {fill, font: SANS, align: "center"});
      } else painter.text(x, middle + .5, text, {fill, align: "center"});
    }
  }

  #word(item, run, a, b, top, low, middle, shapes, texts) {
    const isX = /^x+$/.test(run.value), isZ = /^z+$/.test(run.value), key = isX ? "x" : isZ ? "z" : /[xz]/.test(run.value) ? "part" : "bus";
    if (isZ) { shapes.z += `M${a} ${middle}H${b}`; return; }
    const slant = Math.min(3, (b - a) / 2);
    shapes[key] += `M${a} ${middle}L${a + slant} ${top}H${b - slant}L${b} ${middle}L${b - slant} ${low}H${a + slant}Z`;
    const left = Math.max(a, 0), right = Math.min(b, this.frame.width), room = Math.floor((right - left - 8) / LETTER);
    if (isX || room < 1) return;
    const text = written(run.value, item.radix);
    if (text.length <= room) texts.push([(left + right) / 2, text, key === "part" ? this.colours.x : this.colours.text]);
    else if (room >= 3) texts.push([(left + right) / 2, `${text.slice(0, room - 1)}…`, key === "part" ? this.colours.x : this.colours.text]);
  }

  #unshown(run, a, b, top, low, number) {
    const {painter, colours} = this, left = Math.max(a, 0), right = Math.min(b, this.frame.width);
    painter.path(box(a, top, b - a, low - top), {fill: colours.spent, hatch: {kind: "slant", colour: colours["spent-line"]}});
    if (run.error !== undefined) {
      if (right - left > 60) painter.text((left + right) / 2, (top + low) / 2, run.error, {fill: colours.bad, font: SANS, align: "center"});
    } else this.spent.push({number, x: (left + right) / 2, y: (top + low) / 2 - HEAD, width: right - left, spent: run.spent});
  }

  // The chain of causes: along each row the time in which a cell holds up to where its effect looked at it, and an arrow to the effect.
  #chain() {
    const {model, painter, colours} = this, chain = model.chain;
    if (!chain) return;
    const rows = new Map(layout(model).map(({item, y}) => [item.id, HEAD + y - this.frame.top + GAP / 2 + LANE / 2]));
    const near = {held: "", arrows: "", heads: "", dots: ""}, far = {held: "", arrows: "", heads: "", dots: ""};
    let now = "";
    chain.steps.forEach((step, place) => {
      const row = model.rowOf(step.name), y = row ? rows.get(row.id) : undefined;
      if (y === undefined) return;
      const shapes = place >= chain.at - BEHIND && place <= chain.at + AHEAD ? near : far;
      const x = this.x(step.times > 1 ? step.since : step.start), seen = this.x(step.seen);
      shapes.held += `M${x} ${y}H${Math.max(seen, x)}`;
      if (place === chain.at) now += circle(x, y, 5.5); else shapes.dots += circle(x, y, shapes === near ? 3.5 : 2);
      const cause = chain.steps[place + 1], causeRow = cause && model.rowOf(cause.name), causeY = causeRow ? rows.get(causeRow.id) : undefined;
      if (causeY === undefined) return;
      const from = this.x(cause.seen), bend = Math.max(12, Math.min(60, Math.abs(x - from) / 2));
      const out = causeY === y ? `C${from} ${y - 20} ${x} ${y - 20} ${x} ${y - 4}` : `C${from + bend} ${causeY} ${x - bend} ${y} ${x - 5} ${y}`;
      shapes.arrows += `M${from} ${causeY}${out}`;
      shapes.heads += causeY === y ? `M${x} ${y - 4}l-4 -7h8Z` : `M${x - 4} ${y}l-8 -4v8Z`;
    });
    if (far.arrows) painter.path(far.arrows, {stroke: colours.chain, width: 1, alpha: .22});
    if (far.dots) painter.path(far.dots, {fill: colours.chain, alpha: .4});
    painter.path(near.held, {stroke: colours.chain, width: 4, alpha: .35});
    painter.path(near.arrows, {stroke: colours.chain, width: 1.6});
    painter.path(near.heads + near.dots, {fill: colours.chain});
    if (now) painter.path(now, {fill: colours.ground, stroke: colours.chain, width: 2.5});
  }
}

// 0 and 1 are lines with an edge between them, x is a hatched band, z a middle line
function level(value, a, b, top, low, middle, shapes, before) {
  if (value === "x") { shapes.x += box(a, top, Math.max(b - a, 1), low - top); return null; }
  if (value === "z") { shapes.z += `M${a} ${middle}H${b}`; return null; }
  const y = value === "1" ? top : low;
  if (value === "1") shapes.high += box(a, top, Math.max(b - a, .5), low - top);
  shapes.line += before === null ? `M${a} ${y}H${b}` : `V${y}H${b}`;
  return y;
}

function box(x, y, width, height) { return `M${round(x)} ${round(y)}H${round(x + width)}V${round(y + height)}H${round(x)}Z`; }

function rounded(x, y, width, height, r) {
  return `M${round(x + r)} ${y}H${round(x + width - r)}a${r} ${r} 0 0 1 ${r} ${r}V${y + height - r}a${r} ${r} 0 0 1 ${-r} ${r}H${round(x + r)}a${r} ${r} 0 0 1 ${-r} ${-r}V${y + r}a${r} ${r} 0 0 1 ${r} ${-r}Z`;
}

function circle(x, y, r) { return `M${round(x - r)} ${y}a${r} ${r} 0 1 0 ${2 * r} 0a${r} ${r} 0 1 0 ${-2 * r} 0Z`; }

function round(number) { return Math.round(number * 100) / 100; }
