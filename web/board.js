// The board in SVG: a grid of squares, by pointer and by keyboard.
import { arrowDrawn } from "./arrows.js";
import { follow } from "./drag.js";
import { letterAt, placeOf, squareName } from "./positions.js";
import { drawn, unitDrawn, unitName } from "./units.js";

const SIDE = 100;
const STEPS = { ArrowUp: [-1, 0], ArrowDown: [1, 0], ArrowLeft: [0, -1], ArrowRight: [0, 1] };

export class Board {
  #picture;
  #tells;
  #cells = new Map();
  #arrows = null;
  #shown = { rows: [], dots: [], marks: [], arrows: [], picked: null, isFlipped: false };
  #width = 0;
  #isPressing = false;

  /** Whether a square was gone to by the keyboard: then the arrow keys go from square to square. */
  isByKey = false;

  /** The picture is an `svg`; told are `pressed(square)`, `dropped(from, to)` and `emptied(square)`. */
  constructor(picture, tells) {
    this.#picture = picture;
    this.#tells = tells;
    picture.addEventListener("pointerdown", (event) => this.#down(event));
    picture.addEventListener("keydown", (event) => this.#key(event));
    picture.addEventListener("focusin", () => (this.isByKey = !this.#isPressing));
  }

  /** Draws the rows, with dots where the picked unit may go, marks on the squares of the last move, and arrows. */
  show(shown) {
    const wasFlipped = this.#shown.isFlipped;
    this.#shown = { dots: [], marks: [], arrows: [], picked: null, isFlipped: false, ...shown };
    if (this.#width !== shown.rows.length || wasFlipped !== this.#shown.isFlipped) this.#lay(shown.rows.length);
    for (const [name, cell] of this.#cells) this.#draw(name, cell);
    const arrow = ({ move, kind }) => arrowDrawn(move, this.#middle(move.slice(0, 2)), this.#middle(move.slice(2, 4)), kind);
    this.#arrows.replaceChildren(...this.#shown.arrows.map(arrow));
  }

  get squareSize() {
    return this.#picture.getBoundingClientRect().width / this.#width;
  }

  // Lays the empty squares of a board of this width, as they are seen from the side that is below.
  #lay(width) {
    const reached = this.#picture.querySelector('[tabindex="0"]')?.dataset.square;
    const isFocused = this.#picture.contains(document.activeElement);
    this.#width = width;
    this.#cells.clear();
    this.#picture.setAttribute("viewBox", `0 0 ${width * SIDE} ${width * SIDE}`);
    const rows = Array.from({ length: width }, (_, row) => this.#layRow(row));
    this.#arrows = drawn("g", { class: "arrows", "aria-hidden": "true" });
    this.#picture.replaceChildren(...rows, this.#arrows);
    const cell = this.#cells.get(reached) ?? this.#cells.values().next().value;
    cell.setAttribute("tabindex", "0");
    if (isFocused) cell.focus({ preventScroll: true });
  }

  // Where a row or a column is seen, and which one is seen there.
  #seen(place) {
    return this.#shown.isFlipped ? this.#width - 1 - place : place;
  }

  #middle(name) {
    const { row, column } = placeOf(this.#width, name);
    return [(this.#seen(column) + 0.5) * SIDE, (this.#seen(row) + 0.5) * SIDE];
  }

  #layRow(row) {
    const cells = Array.from({ length: this.#width }, (_, column) => {
      const name = squareName(this.#width, this.#seen(row), this.#seen(column));
      const place = { "data-square": name, transform: `translate(${column * SIDE} ${row * SIDE})` };
      const cell = drawn("g", { role: "gridcell", tabindex: "-1", ...place });
      this.#cells.set(name, cell);
      return cell;
    });
    return drawn("g", { role: "row" }, ...cells);
  }

  #draw(name, cell) {
    const { rows, dots, marks, picked } = this.#shown;
    const { row, column } = placeOf(this.#width, name);
    const letter = letterAt(rows, name);
    const shade = (row + column) % 2 === (this.#width + 1) % 2 ? "dark" : "light";
    const kinds = ["square", shade, marks.includes(name) && "marked", name === picked && "picked"].filter(Boolean);
    const parts = [drawn("rect", { class: kinds.join(" "), width: SIDE, height: SIDE }), ...this.#edges(row, column, shade)];
    if (letter) parts.push(unitDrawn(letter));
    const dot = letter ? { class: "ring", r: 44 } : { class: "dot", r: 14 };
    if (dots.includes(name)) parts.push(drawn("circle", { cx: 50, cy: 50, ...dot }));
    parts.push(drawn("rect", { class: "focus", x: 3, y: 3, width: SIDE - 6, height: SIDE - 6 }));
    cell.replaceChildren(...parts);
    cell.setAttribute("aria-label", this.#said(name, letter));
    cell.setAttribute("aria-selected", String(name === picked));
  }

  #said(name, letter) {
    const { dots, picked, marks } = this.#shown;
    const more = [name === picked && "picked", dots.includes(name) && "can be reached", marks.includes(name) && "last move"].filter(Boolean);
    return [`${name} ${letter ? unitName(letter) : "empty"}`, ...more].join(", ");
  }

  // The rank on the file at the left, and the file on the rank below.
  #edges(row, column, shade) {
    const edges = [];
    const kind = { class: `edge ${shade}`, "aria-hidden": "true" };
    if (this.#seen(column) === 0) edges.push(drawn("text", { ...kind, x: 6, y: 21 }, String(this.#width - row)));
    if (this.#seen(row) === this.#width - 1) edges.push(drawn("text", { ...kind, x: 94, y: 94, "text-anchor": "end" }, "abcdef"[column]));
    return edges;
  }

  #down(event) {
    const name = event.target.closest("[data-square]")?.dataset.square;
    if (!name || event.button !== 0) return;
    event.preventDefault();
    this.#isPressing = true;
    this.#focus(name);
    this.isByKey = this.#isPressing = false;
    follow(event, letterAt(this.#shown.rows, name), this.squareSize, {
      dropped: (to) => to !== name && this.#tells.dropped(name, to),
      pressed: () => this.#tells.pressed(name),
    });
  }

  #key(event) {
    const name = event.target.dataset?.square;
    if (!name || event.ctrlKey || event.altKey || event.metaKey) return;
    const isAcross = event.key === "ArrowLeft" || event.key === "ArrowRight";
    // Behind a press of the mouse these walk the line, as anywhere on the page.
    if (isAcross && !this.isByKey) return;
    if (event.key in STEPS) this.#step(name, STEPS[event.key]);
    else if (event.key === "Enter" || event.key === " ") this.#tells.pressed(name);
    else if (event.key === "Delete" || event.key === "Backspace") this.#tells.emptied(name);
    else return;
    event.preventDefault();
  }

  #step(name, [down, right]) {
    const { row, column } = placeOf(this.#width, name);
    const inside = (place) => this.#seen(Math.min(Math.max(place, 0), this.#width - 1));
    this.#focus(squareName(this.#width, inside(this.#seen(row) + down), inside(this.#seen(column) + right)));
    this.isByKey = true;
  }

  // One square at a time can be reached by the tabulator key.
  #focus(name) {
    for (const cell of this.#cells.values()) cell.setAttribute("tabindex", "-1");
    this.#cells.get(name).setAttribute("tabindex", "0");
    this.#cells.get(name).focus({ preventScroll: true });
  }
}
