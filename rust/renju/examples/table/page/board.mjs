// The board as SVG, one unit a cell, in a view. Where a view sends a point stands in the server's tables: no view's rule is written here.

const SVG = "http://www.w3.org/2000/svg";
const SIDE = 15;
const STARS = [48, 56, 112, 168, 176];
const KINDS = ["", "double three", "double four", "overline"];
const SHORT = ["", "3·3", "4·4", "6+"];

export const columnName = (column) => "ABCDEFGHIJKLMNO"[column];
export const pointName = (code) => columnName(Math.floor(code / SIDE)) + ((code % SIDE) + 1);
export const kindName = (kind) => KINDS[kind] ?? "";

export function make(name, attributes, parent, text) {
  const element = document.createElementNS(SVG, name);
  for (const [key, value] of Object.entries(attributes)) element.setAttribute(key, value);
  if (text !== undefined) element.textContent = text;
  parent?.append(element);
  return element;
}

// Where a place of the picture is: column from the left, row 15 on top.
const spot = (place) => [Math.floor(place / SIDE), SIDE - 1 - (place % SIDE)];

export class Board {
  constructor(svg, views) {
    this.svg = svg;
    this.views = views;
    this.layers = {};
    this.drawWood();
    for (const name of ["labels", "stones", "marks", "crosses", "hints", "ghost"]) {
      this.layers[name] = make("g", { id: name }, svg);
    }
  }

  drawWood() {
    const lines = make("g", { id: "lines" }, this.svg);
    for (let i = 0; i < SIDE; i++) {
      make("path", { d: `M${i} 0V14M0 ${i}H14` }, lines);
    }
    make("rect", { x: 0, y: 0, width: 14, height: 14, class: "rim" }, lines);
    for (const code of STARS) {
      const [x, y] = spot(code);
      make("circle", { cx: x, cy: y, r: 0.09 }, lines);
    }
  }

  // Where a point is drawn in a view.
  at(code, view) {
    return spot(this.views.places[view][code]);
  }

  // The point under a place of the window, none outside the board.
  codeUnder(x, y, view) {
    const { x: column, y: row } = new DOMPoint(x, y).matrixTransform(this.svg.getScreenCTM().inverse());
    const [px, py] = [Math.round(column), SIDE - 1 - Math.round(row)];
    const inside = (place) => place >= 0 && place < SIDE;
    return inside(px) && inside(py) ? this.views.places[this.views.back[view]][SIDE * px + py] : undefined;
  }

  draw({ view, held, crosses, five, hint, turn }) {
    for (const layer of Object.values(this.layers)) layer.replaceChildren();
    this.drawLabels(view);
    held.forEach((code, place) => this.drawStone(code, view, place % 2 === 0 ? "black" : "white"));
    for (const code of five) this.drawMark(code, view, "five");
    if (held.length > 0 && five.length === 0) this.drawMark(held.at(-1), view, "last");
    this.layers.crosses.setAttribute("class", turn === "black" ? "now" : "later");
    for (const [kind, code] of crosses) this.drawCross(kind, code, view);
    hint.forEach((code, place) => this.drawHint(code, view, place));
  }

  // Each letter and number stands at both ends of its own line, outside the board's edge, wherever the view has put that.
  drawLabels(view) {
    for (let i = 0; i < SIDE; i++) {
      const [foot, left] = [SIDE * i, i];
      for (const [edge, inner] of [[foot, foot + 1], [foot + 14, foot + 13]]) this.drawLabel([edge, inner], view, columnName(i));
      for (const [edge, inner] of [[left, left + 15], [left + 210, left + 195]]) this.drawLabel([edge, inner], view, String(i + 1));
    }
  }

  drawLabel([edge, inner], view, text) {
    const [[x, y], [u, v]] = [this.at(edge, view), this.at(inner, view)];
    make("text", { x: x + (x - u) * 0.82, y: y + (y - v) * 0.82 }, this.layers.labels, text);
  }

  drawStone(code, view, colour) {
    const [x, y] = this.at(code, view);
    make("circle", { cx: x + 0.05, cy: y + 0.08, r: 0.45, class: "shadow" }, this.layers.stones);
    make("circle", { cx: x, cy: y, r: 0.46, class: `stone ${colour}`, "data-code": code }, this.layers.stones);
  }

  drawMark(code, view, name) {
    const [x, y] = this.at(code, view);
    make("circle", { cx: x, cy: y, r: name === "five" ? 0.3 : 0.14, class: name, "data-code": code }, this.layers.marks);
  }

  drawCross(kind, code, view) {
    const [x, y] = this.at(code, view);
    const attributes = { transform: `translate(${x} ${y})`, class: "cross", "data-code": code, "data-kind": kind };
    const cross = make("g", attributes, this.layers.crosses);
    make("title", {}, cross, `${pointName(code)}: ${kindName(kind)}`);
    make("path", { d: "M-.25-.25 .25 .25M.25-.25-.25 .25", class: "under" }, cross);
    make("path", { d: "M-.25-.25 .25 .25M.25-.25-.25 .25" }, cross);
    make("text", { y: 0.45 }, cross, SHORT[kind]);
  }

  drawHint(code, view, place) {
    const [x, y] = this.at(code, view);
    const name = place % 2 === 0 ? "attack" : "reply";
    const hint = make("g", { transform: `translate(${x} ${y})`, class: name, "data-code": code }, this.layers.hints);
    make("circle", { r: 0.38 }, hint);
    make("text", { y: 0.02 }, hint, String(place + 1));
  }

  // The stone that a tap would put.
  ghost(code, view, colour) {
    this.layers.ghost.replaceChildren();
    if (code === undefined) return;
    const [x, y] = this.at(code, view);
    make("circle", { cx: x, cy: y, r: 0.46, class: `stone ${colour}` }, this.layers.ghost);
  }

  // A point that was refused lights up for a moment.
  flash(code, view) {
    const [x, y] = this.at(code, view);
    const ring = make("circle", { cx: x, cy: y, r: 0.55, class: "flash" }, this.svg);
    setTimeout(() => ring.remove(), 900);
  }
}
