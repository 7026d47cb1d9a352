// Saves what is in view: as a picture, as a dump, or as a file that opens the same view again.
import {CanvasPainter, HEAD, Scene, SvgPainter, layout, theme} from "./paint.js";
import {grouped, written} from "./model.js";

const NAMES = 240, SHARPNESS = 2;

export function download(name, blob) {
  const link = document.createElement("a");
  link.href = URL.createObjectURL(blob);
  link.download = name;
  link.click();
  setTimeout(() => URL.revokeObjectURL(link.href), 10000);
}

// The names and values beside the waves, and the waves.
function compose(app, painter, colours) {
  const {model, link, rows} = app, frame = app.frame, places = layout(model);
  const height = Math.min(frame.height, Math.max(...places.map((place) => place.y + place.height), 40) - frame.top);
  painter.path(`M0 0H${NAMES + frame.width}V${HEAD + height}H0Z`, {fill: colours.panel});
  if (link.state.unit) painter.text(14, 15, `units of ${link.state.unit}`, {fill: colours.quiet});
  if (model.cursor !== null) painter.text(NAMES - 10, 15, `at ${grouped(model.cursor)}`, {fill: colours.accent, align: "right"});
  painter.clip(0, HEAD, NAMES, height, () => {
    for (const {item, y, height: own} of places) {
      const top = HEAD + y - frame.top, middle = item.isGroup ? top + own / 2 : top + 17;
      if (!item.isGroup) painter.path(`M0 ${top}H4V${top + own}H0Z`, {fill: colours[`wave-${item.colour}`]});
      const [good, faulty] = item.isGroup ? [] : rows.valueOf(item), value = typeof good === "string" ? shortened(written(good, item.radix), 12) : "";
      painter.text(item.group === null ? 14 : 24, middle, shortened(item.name, value ? Math.max(8, 29 - value.length) : 30), {fill: colours.text, weight: item.isGroup ? "600" : ""});
      painter.text(NAMES - 10, middle, value, {fill: /[xXz]/.test(value) ? colours.x : colours.text, align: "right"});
      if (typeof faulty === "string") painter.text(NAMES - 10, middle + 24, shortened(written(faulty, item.radix), 12), {fill: colours.fault, align: "right"});
    }
  });
  painter.at(NAMES, 0, () => painter.clip(0, 0, frame.width, HEAD + height, () => new Scene(model, link, painter, colours, {...frame, height}).draw()));
  painter.path(`M${NAMES - .5} 0V${HEAD + height}`, {stroke: colours.line});
  return [NAMES + frame.width, HEAD + height];
}

function shortened(text, most) {
  if (text.length <= most) return text;
  return `${text.slice(0, Math.floor((most - 1) / 3))}…${text.slice(text.length - Math.ceil((most - 1) * 2 / 3))}`;
}

export function svgOf(app) {
  const painter = new SvgPainter(), colours = theme(), [width, height] = compose(app, painter, colours);
  return painter.svg(width, height, `Waves from ${grouped(Math.round(app.model.start))} to ${grouped(Math.round(app.model.stop))}`, colours.ground);
}

export async function pngOf(app) {
  const colours = theme(), height = HEAD + app.frame.height, canvas = new OffscreenCanvas((NAMES + app.frame.width) * SHARPNESS, height * SHARPNESS);
  const context = canvas.getContext("2d");
  context.scale(SHARPNESS, SHARPNESS);
  const [width, used] = compose(app, new CanvasPainter(context, colours), colours);
  const cut = new OffscreenCanvas(Math.round(width * SHARPNESS), Math.round(used * SHARPNESS));
  cut.getContext("2d").drawImage(canvas, 0, 0);
  return cut.convertToBlob({type: "image/png"});
}

export async function save(app, form) {
  const {model, link} = app, stem = link.state.files[0].split(/[\\/]/).pop().replace(/\.[^.]*$/, "");
  if (form === "svg") download(`${stem}.svg`, new Blob([svgOf(app)], {type: "image/svg+xml"}));
  else if (form === "png") download(`${stem}.png`, await pngOf(app));
  else if (form === "vcd") {
    const rows = app.inView.flatMap((item) => [{name: item.name}, ...(model.fault ? [{name: item.name, fault: model.fault}] : [])]);
    const text = await link.post("dump", {rows, start: Math.floor(model.start), stop: Math.min(Math.ceil(model.stop), model.end)});
    download(`${stem}.vcd`, new Blob([text], {type: "text/plain"}));
  } else if (form === "view") {
    download(`${stem}.view`, new Blob([JSON.stringify(model.document(link.state.format, link.state.files), null, 1) + "\n"], {type: "application/json"}));
  }
}
