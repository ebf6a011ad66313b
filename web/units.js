// How units look: one outline a kind, in a square of 100 by 100. The letters are those of a position's text.

const BASE = "M22 88h56v-7q0-5-6-6H28q-6 1-6 6z";

const OUTLINES = {
  p: ["M50 20a13 13 0 0 1 8 23q8 3 8 7H57q1 14 11 25H32q10-11 11-25H34q0-4 8-7a13 13 0 0 1 8-23z", BASE],
  r: ["M27 18h11v8h7v-8h10v8h7v-8h11v20l-8 7 3 26H32l3-26-8-7z", BASE],
  n: ["M38 15l8 7q26 3 29 34 1 10-3 19H33q0-14 12-24-8 3-13 9-5 4-10 0-4-4 0-10 10-12 11-22 1-8 5-13z", BASE],
  b: ["M50 10a6 6 0 0 1 4 10q17 11 17 27 0 8-7 14l3 14H33l3-14q-7-6-7-14 0-16 17-27a6 6 0 0 1 4-10z", BASE],
  q: ["M18 28a6 6 0 1 1 5 0l13 18-1-24a6 6 0 1 1 6 0l9 22 9-22a6 6 0 1 1 6 0l-1 24 13-18a6 6 0 1 1 5 0l-10 47H28z", BASE],
  k: ["M46 8h8v7h8v8h-8v9q6 1 8 7 20-9 23 8 1 12-14 28H29Q14 59 15 47q3-17 23-8 2-6 8-7v-9h-8v-8h8z", BASE],
};

// What is drawn inside the outline, in the colour of the line.
const DETAILS = {
  p: "M38 70h24",
  r: "M36 45h28M33 70h34",
  n: "M44 34v.01M36 68q2-10 14-20",
  b: "M50 30v16M42 38h16M36 62h28",
  q: "M30 66h40",
  k: "M50 34v32M31 66h38",
};

export const KINDS = { k: "king", q: "queen", r: "rook", b: "bishop", n: "knight", p: "pawn" };

/** The letters of a game's units, White's or Black's. */
export function lettersOf(width, white) {
  const letters = width === 6 ? "kqrnp" : "kqrbnp";
  return [...(white ? letters.toUpperCase() : letters)];
}

export function isWhite(letter) {
  return letter === letter.toUpperCase();
}

/** The unit's name, as `white rook`. */
export function unitName(letter) {
  return `${isWhite(letter) ? "white" : "black"} ${KINDS[letter.toLowerCase()]}`;
}

/** An SVG element with these attributes. */
export function drawn(name, attributes, ...inside) {
  const element = document.createElementNS("http://www.w3.org/2000/svg", name);
  for (const [key, value] of Object.entries(attributes)) element.setAttribute(key, value);
  element.append(...inside);
  return element;
}

/** The unit's outline, and what is drawn inside. */
export function shapeOf(letter) {
  const kind = letter.toLowerCase();
  return [OUTLINES[kind].join(""), DETAILS[kind]];
}

/** The unit as a group, in a square of 100 by 100. */
export function unitDrawn(letter) {
  const kind = letter.toLowerCase();
  const outlines = OUTLINES[kind].map((outline) => drawn("path", { d: outline }));
  return drawn("g", { class: `unit ${isWhite(letter) ? "white" : "black"}` }, ...outlines, drawn("path", { class: "detail", d: DETAILS[kind] }));
}
