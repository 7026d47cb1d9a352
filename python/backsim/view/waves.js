// What is known of one wave: pieces of time that do not overlap. A piece has runs, each [time, value], or [time, "#", count] for changes
// that are too close to be shown apart; or it was not asked further, since its evaluations were spent; or there is an error.

const WIDER = 4;

export class Track {
  pieces = [];

  add(piece) {
    if (piece.start >= piece.stop) return;
    const kept = [];
    for (const old of this.pieces) {
      if (old.stop <= piece.start || old.start >= piece.stop) { kept.push(old); continue; }
      if (old.start < piece.start) kept.push(...part(old, old.start, piece.start));
      if (old.stop > piece.stop) kept.push(...part(old, piece.stop, old.stop));
    }
    kept.push(piece);
    kept.sort((a, b) => a.start - b.start);
    this.pieces = kept;
    this.#join(piece);
  }

  // Neighbours of one kind become one piece.
  #join(piece) {
    let place = this.pieces.indexOf(piece);
    for (const at of [place, place - 1]) {
      const a = this.pieces[at], b = this.pieces[at + 1];
      if (!a || !b || a.stop !== b.start || !a.runs || !b.runs || a.exact !== b.exact || a.step !== b.step) continue;
      this.pieces.splice(at, 2, {...a, stop: b.stop, runs: joined(a.runs, b.runs, a.step)});
    }
  }

  // The windows that have to be asked to show the times at this step (times for a pixel).
  missing(start, stop, step) {
    const found = [];
    for (const piece of this.pieces) {
      if (piece.stop <= start || piece.start >= stop || !serves(piece, step)) continue;
      if (piece.start > start) found.push([start, piece.start]);
      start = piece.stop;
    }
    if (start < stop) found.push([start, stop]);
    return found;
  }

  // What is to be drawn from start to stop: {a, b} with value, count, spent, error, or nothing where it is not known yet.
  *within(start, stop) {
    let before = null;
    for (const run of this.#parts(start, stop)) {
      if (before && run.value !== undefined && run.value === before.value) before.b = run.b;
      else { if (before) yield before; before = run; }
    }
    if (before) yield before;
  }

  *#parts(start, stop) {
    for (const piece of this.pieces) {
      if (piece.stop <= start) continue;
      if (piece.start >= stop) break;
      if (piece.start > start) yield {a: start, b: piece.start};
      if (piece.runs) {
        const runs = piece.runs, first = Math.max(0, after(runs, start) - 1);
        for (let place = first; place < runs.length && runs[place][0] < stop; place++) {
          const b = place + 1 < runs.length ? runs[place + 1][0] : piece.stop;
          if (b <= start) continue;
          if (runs[place][1] === "#") yield {a: runs[place][0], b, count: runs[place][2]};
          else yield {a: runs[place][0], b, value: runs[place][1]};
        }
      } else yield {a: piece.start, b: piece.stop, spent: piece.spent, error: piece.error};
      start = piece.stop;
      if (start >= stop) return;
    }
    if (start < stop) yield {a: start, b: stop};
  }

  // The value at a time, or undefined where it is not known.
  valueAt(time) {
    const piece = this.pieces.find((one) => one.start <= time && time < one.stop);
    if (!piece || !piece.runs) return undefined;
    const run = piece.runs[after(piece.runs, time) - 1];
    return run[1] === "#" ? undefined : run[1];
  }

  // The times between a and b at which a run begins.
  edges(a, b) {
    const found = [];
    for (const piece of this.pieces) {
      if (!piece.runs || piece.stop <= a || piece.start > b) continue;
      for (let place = Math.max(1, after(piece.runs, a - 1)); place < piece.runs.length && piece.runs[place][0] <= b; place++) found.push(piece.runs[place][0]);
    }
    return found;
  }

  // Lets go of what is outside.
  keep(start, stop) {
    this.pieces = this.pieces.filter((piece) => piece.stop > start && piece.start < stop)
      .flatMap((piece) => piece.start < start || piece.stop > stop ? part(piece, Math.max(piece.start, start), Math.min(piece.stop, stop)) : [piece]);
  }

  forgetSpent() { this.pieces = this.pieces.filter((piece) => piece.runs); }

  get size() { return this.pieces.reduce((sum, piece) => sum + (piece.runs ? piece.runs.length : 1), 0); }
}

// The runs of two neighbours: what goes on over their border is one run, and activity with less than a pixel between is one activity.
function joined(a, b, step) {
  const last = a[a.length - 1], busy = a[a.length - 2], goesOn = last[1] === b[0][1] && last[1] !== "#";
  if (busy && busy[1] === "#" && b.length > 1 && b[1][1] === "#" && b[0][1] !== "#" && b[1][0] - last[0] <= step) {
    return [...a.slice(0, -2), [busy[0], "#", busy[2] + b[1][2] + (goesOn ? 0 : 1)], ...b.slice(2)];
  }
  return a.concat(goesOn ? b.slice(1) : b);
}

function serves(piece, step) {
  if (!piece.runs) return true;
  return piece.exact ? step <= Math.max(piece.step, 1) * WIDER : Math.abs(piece.step - step) < 1e-9 * step;
}

// How many runs begin at the time or before it.
function after(runs, time) {
  let low = 0, high = runs.length;
  while (low < high) {
    const middle = (low + high) >> 1;
    if (runs[middle][0] <= time) low = middle + 1; else high = middle;
  }
  return low;
}

// What of a piece is within two times, a piece or none. How many changes a part of an activity has is not known, so one that is cut is left out.
function part(piece, start, stop) {
  if (!piece.runs) return [{...piece, start, stop}];
  const first = Math.max(0, after(piece.runs, start) - 1), last = after(piece.runs, stop - 1);
  const runs = piece.runs.slice(first, last);
  if (runs[0][0] < start) {
    if (runs[0][1] === "#") { runs.shift(); start = runs.length ? runs[0][0] : stop; }
    else runs[0] = [start, runs[0][1]];
  }
  if (runs.length && runs[runs.length - 1][1] === "#") [stop] = runs.pop();
  return start < stop && runs.length ? [{...piece, start, stop, runs}] : [];
}
