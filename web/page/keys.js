// The keys that work everywhere on the page, and the table of all keys. Letters are those of the keyboard; where it has
// another script, or digits only with Shift, the place of the key counts.

const TOOLS = { v: "select", m: "move", r: "rect", e: "ellipse", p: "polygon", f: "frame" };
const ACTS = {
  "]": "front", "[": "back", h: "hide", t: "turn", x: "flip", delete: "delete", backspace: "delete", s: "respace",
  i: "put", o: "take", g: "group", u: "ungroup",
  "+": "nearer", "=": "nearer", "-": "further", 0: "nearest", 8: "fit-selection", 9: "fit", c: "centre",
  escape: "cancel", "?": "help", "#": "grid", "/": "search",
  l: "past", k: "play", ",": "earlier", ".": "later",
};
const WITH_CONTROL = {
  "]": "forward", "[": "backward", z: "undo", y: "redo", a: "all", d: "duplicate", g: "group", s: "download", o: "open",
};
const WITH_BOTH = { z: "redo", g: "ungroup" };
/** The signs at places of the keyboard, alone and with Shift. */
const PLACES = {
  BracketLeft: ["["], BracketRight: ["]"], Comma: [","], Period: ["."], Slash: ["/", "?"], Minus: ["-"],
  Equal: ["=", "+"], Digit3: ["3", "#"],
};
const TABLE = [
  ["V M", "select and move; move single shapes, however deep they lie"],
  ["R E P F", "draw a rectangle, an ellipse, a polygon, a frame"],
  ["Ctrl+Z Ctrl+Y", "take back what you did last, and make it again (also Ctrl+Shift+Z); what others did stays"],
  ["Shift+click", "select one more shape, or leave one; drag beside all shapes to select several"],
  ["Ctrl+click", "select the shape under the pointer, however deep it lies; double click goes one step deeper"],
  ["Ctrl+A Ctrl+C Ctrl+X Ctrl+V Ctrl+D", "select all; copy, cut, paste; copy beside itself (or drag with Alt)"],
  ["Arrows", "move what is selected, and else pan; while drawing, move the cross "
    + "(Shift: by ten times, or by single pixels)"],
  ["Enter", "while drawing: a corner, or a point, where the cross is; on a polygon: its points"],
  ["Space", "held: drag to pan with any tool, as with the middle button, the wheel or two fingers"],
  ["+ −", "zoom in and out, as Ctrl and the wheel or two fingers do"],
  ["0 8 9 C", "one to one, the selected shapes, the whole document; the selected shapes in the middle"],
  ["# Alt", "the grid of 8 pixels, on or off; Alt, pressed in a drag, lets it go"],
  ["] [ Ctrl+] Ctrl+[", "send to the front, to the back; one step to the front or back"],
  ["H T X", "hide or show, quarter turn, flip"],
  ["I O", "put the selected shape into the frame or group next behind it, take it out of what it lies in"],
  ["G U", "put what is selected into a new group; take all out of a group"],
  ["Del", "delete what is selected, with all that is in it"],
  ["Ctrl+S Ctrl+O", "download the document as a file; draw the shapes of a file into this document"],
  ["S", "give the shapes beside the selected one new places in the order they have"],
  ["Right\u00a0click Long\u00a0press", "a menu; a finger that rests on one more shape selects it too"],
  ["Esc", "give up what is being drawn; go out of a group; select nothing"],
  ["L K , .", "look back at the document as it was, and Esc to now; play the edits, or stop; one edit back, one on"],
  ["Tab", "to the tools, the page, the colours, the layers; in the layers, arrow keys select, open and close"],
  ["/ F2", "search in the layers; in them, name the selected shape. Drag a row to put it elsewhere"],
  ["Alt+Arrows", "in the layers: one step to the front or back, out of what it lies in, into what lies behind it"],
  ["?", "this table"],
];

const TEXTS = "input[type=text], input[type=number], input[type=search]";
const isTyped = (target) => target.matches(TEXTS) || target.closest("dialog") !== null;

/** Whether somebody types. (What is copied may be said to come from a field that was left before.) */
const isTyping = () => isTyped(document.activeElement ?? document.body);

function actOf(event, key) {
  if (!event.ctrlKey && !event.metaKey) return ACTS[key];
  return event.shiftKey ? WITH_BOTH[key] : WITH_CONTROL[key];
}

/** The sign of a key: that of its place, where the keyboard has a letter there that is none of ours. */
export function signOf({ key, code = "", shiftKey }) {
  if (key.length > 1 || key <= "~") return key.toLowerCase();
  const [, digit] = /^Digit(.)$/.exec(code) ?? [], [, letter] = /^Key(.)$/.exec(code) ?? [];
  if (/\p{Script=Latin}/u.test(key)) return digit ?? "";
  return PLACES[code]?.[Number(shiftKey)] ?? letter?.toLowerCase() ?? digit ?? "";
}

/** Calls `choose` with the name of a tool and `act` with that of an act. */
export function listen(choose, act) {
  document.addEventListener("keydown", (event) => {
    if (event.altKey || isTyped(event.target)) return;
    const key = signOf(event), name = actOf(event, key);
    if (name) act(name);
    else if (TOOLS[key] && !event.ctrlKey && !event.metaKey) choose(TOOLS[key]);
    else return;
    event.preventDefault();
  });
}

/** Calls `take` for what is copied or cut, which gives a text or null, and `give` with the text that is pasted. */
export function listenToClipboard(take, give) {
  for (const kind of ["copy", "cut"]) {
    document.addEventListener(kind, (/** @type {any} */ event) => {
      const text = isTyping() ? null : take(kind === "cut");
      if (text === null) return;
      event.clipboardData.setData("text/plain", text);
      event.preventDefault();
    });
  }
  // (on Linux the browser pastes by the middle button, which pans here; any other paste follows something else)
  let isMiddle = false;
  document.addEventListener("pointerup", ({ button }) => { isMiddle = button === 1; }, { capture: true });
  for (const kind of ["keydown", "pointerdown"]) {
    document.addEventListener(kind, () => { isMiddle = false; }, { capture: true });
  }
  window.addEventListener("blur", () => { isMiddle = false; });
  document.addEventListener("paste", (event) => {
    if (isTyping() || isMiddle) return;
    give(event.clipboardData.getData("text/plain"));
    event.preventDefault();
  });
}

/** Fills the table of keys. */
export function fillTable(table) {
  for (const [keys, what] of TABLE) {
    const row = table.insertRow(), cell = row.insertCell();
    keys.split(" ").forEach((key) => {
      const element = document.createElement("kbd");
      element.textContent = key;
      cell.append(element, " ");
    });
    row.insertCell().textContent = what;
  }
}
