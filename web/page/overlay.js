// The marks above the picture: what is selected, what is being drawn, and the cross that the keyboard moves.

const NAMESPACE = "http://www.w3.org/2000/svg";

const pathOf = (points, isClosed) => `M${points.map(([x, y]) => `${x} ${y}`).join("L")}${isClosed ? "Z" : ""}`;

/** A path as a mark. */
export function outline(kind, points, isClosed = true) {
  return { tag: "path", kind, d: pathOf(points, isClosed) };
}

/** A filled shape that is being drawn, between these points of the window. */
export function draft(kind, points, fill) {
  if (kind === "ellipse") {
    const [[x1, y1], , [x2, y2]] = points;
    const size = { rx: Math.abs(x2 - x1) / 2, ry: Math.abs(y2 - y1) / 2 };
    return { tag: "ellipse", kind: "draft", cx: (x1 + x2) / 2, cy: (y1 + y2) / 2, ...size, fill };
  }
  return { tag: "path", kind: "draft", d: pathOf(points, points.length > 2), fill };
}

/** An element with a markup of its own, which a mark may show at another place each time. */
export function copy(kind, markup) {
  const element = document.createElementNS(NAMESPACE, "g");
  element.setAttribute("class", kind);
  element.innerHTML = markup;
  return element;
}

export const dot = ([cx, cy], isChosen = false) => (
  { tag: "circle", kind: isChosen === true ? "dot chosen" : "dot", cx, cy, r: 4.5 }
);

/** A handle in the middle of an edge, by which a point is added. */
export const small = ([cx, cy]) => ({ tag: "circle", kind: "dot", cx, cy, r: 2.5 });

/** @type {(place: number[]) => object} */
export const handle = ([x, y]) => ({ tag: "rect", kind: "handle", x: x - 4, y: y - 4, width: 8, height: 8, rx: 1.5 });

export const cross = ([x, y]) => (
  { tag: "path", kind: "cross", d: `M${x - 12} ${y}H${x + 12}M${x} ${y - 12}V${y + 12}` }
);

/** Puts marks into an SVG element, in place of those that are there. */
export function showMarks(svg, marks) {
  svg.replaceChildren(...marks.map(({ tag, kind, element = document.createElementNS(NAMESPACE, tag), ...rest }) => {
    if (kind) element.setAttribute("class", kind);
    for (const [name, value] of Object.entries(rest)) element.setAttribute(name, value);
    return element;
  }));
}
