// What can be done, each with its keys; buttons, keys and the help are made of this list.
export const COMMANDS = [
  ["Signals"],
  ["find", "Find signals to add", ["/", "a"]],
  ["finder", "Show or hide the finder", ["l"]],
  ["up", "The row above", ["ArrowUp"]],
  ["down", "The row below", ["ArrowDown"]],
  ["extendUp", "Select upward", ["Shift+ArrowUp"]],
  ["extendDown", "Select downward", ["Shift+ArrowDown"]],
  ["selectAll", "Select all rows", ["Ctrl+a"]],
  ["moveUp", "Move the row up", ["Alt+ArrowUp"]],
  ["moveDown", "Move the row down", ["Alt+ArrowDown"]],
  ["remove", "Take the row away", ["Delete", "Backspace"]],
  ["radix", "Hexadecimal, decimal, signed, binary", ["b"]],
  ["colour", "Next colour", ["c"]],
  ["group", "Group the selected rows", ["g"]],
  ["ungroup", "Dissolve the group", ["u"]],
  ["toggle", "Open or close the group", ["Enter"]],
  ["undo", "Undo", ["Ctrl+z"]],
  ["redo", "Redo", ["Ctrl+y", "Ctrl+Z"]],
  ["Time"],
  ["zoomIn", "Zoom in", ["+", "="]],
  ["zoomOut", "Zoom out", ["-"]],
  ["fit", "Show all times", ["f"]],
  ["zoomRange", "Zoom to cursor and marker", ["z"]],
  ["left", "Scroll to the left", ["ArrowLeft"]],
  ["right", "Scroll to the right", ["ArrowRight"]],
  ["pageLeft", "A page to the left", ["PageUp", "Ctrl+ArrowLeft"]],
  ["pageRight", "A page to the right", ["PageDown", "Ctrl+ArrowRight"]],
  ["first", "To the beginning", ["Home"]],
  ["last", "To the end", ["End"]],
  ["time", "Go to a time", ["t"]],
  ["Cursor"],
  ["back", "Cursor one time back", [","]],
  ["on", "Cursor one time on", ["."]],
  ["centre", "Show the cursor, in the middle", ["i"]],
  ["marker", "Marker at the cursor", ["m"]],
  ["noMarker", "No marker", ["M"]],
  ["nextChange", "Next change", ["n", "Shift+ArrowRight"]],
  ["previousChange", "Change before", ["p", "Shift+ArrowLeft"]],
  ["nextX", "Next x", ["x"]],
  ["previousX", "x before", ["X"]],
  ["nextValue", "Next time at a value", ["v"]],
  ["againValue", "The same value once more", ["V"]],
  ["Causes, faults, files"],
  ["why", "Why has it this value?", ["w"]],
  ["toCause", "A step to the cause", ["]"]],
  ["toEffect", "A step back", ["["]],
  ["closeWhy", "Close the causes", ["Escape"]],
  ["fault", "Put a fault on a line", ["s"]],
  ["noFault", "No fault", ["S"]],
  ["more", "Ask for more where it is grey", ["e"]],
  ["reload", "Load changed files anew", ["r"]],
  ["save", "Save", ["Ctrl+s"]],
  ["open", "Open a saved view", ["o", "Ctrl+o"]],
  ["theme", "Light or dark", ["T"]],
  ["help", "Keys", ["?"]],
];

const NAMES = {ArrowUp: "↑", ArrowDown: "↓", ArrowLeft: "←", ArrowRight: "→", PageUp: "Page ↑", PageDown: "Page ↓", Delete: "Del", Escape: "Esc", Backspace: "⌫"};

export function spelled(key) {
  return key.split(/(?<=.)\+/).map((part) => NAMES[part] || (/^[A-Z]$/.test(part) ? `Shift+${part.toLowerCase()}` : part)).join("+");
}

const OF_KEY = new Map(COMMANDS.filter((row) => row.length > 1).flatMap(([id, , keys]) => keys.map((key) => [key, id])));

// The command of a key event, if there is one.
export function commandOf(event) {
  const plain = event.key.length === 1;
  const key = `${event.ctrlKey || event.metaKey ? "Ctrl+" : ""}${event.altKey ? "Alt+" : ""}${event.shiftKey && !plain ? "Shift+" : ""}${event.key}`;
  return OF_KEY.get(key);
}

export function labelOf(id) {
  const [, label, keys] = COMMANDS.find((row) => row[0] === id);
  return `${label} (${keys.map(spelled).join(" or ")})`;
}
