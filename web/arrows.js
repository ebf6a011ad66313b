// Arrows on the board, from one square to another.
import { drawn } from "./units.js";

const START = 20;
const END = 14;
const HEAD = 26;
const HALF_HEAD = 19;

/** An arrow of a move between two points, of a kind that the style names. */
export function arrowDrawn(move, [x1, y1], [x2, y2], kind) {
  const length = Math.hypot(x2 - x1, y2 - y1);
  const [dx, dy] = [(x2 - x1) / length, (y2 - y1) / length];
  const at = (along, aside) => `${(x1 + dx * along - dy * aside).toFixed(1)} ${(y1 + dy * along + dx * aside).toFixed(1)}`;
  const neck = length - END - HEAD;
  const shaft = drawn("path", { class: "shaft", d: `M${at(START, 0)}L${at(neck, 0)}` });
  const head = drawn("path", { class: "head", d: `M${at(length - END, 0)}L${at(neck, HALF_HEAD)}L${at(neck, -HALF_HEAD)}z` });
  return drawn("g", { class: `arrow ${kind}`, "data-move": move }, shaft, head);
}
