// Moves as people write them, with the fewest letters: `1.Kc5`, `1...Qxd5`, `c6=Q`, `Rac2+`, `Ra1#`.
import { letterAt, rowsOf, sideOf } from "./positions.js";

/** A move without its number. The end is how the line ends with it, where that is known: `#`, `=` or nothing. */
export function moveWritten(rules, fen, move, end = null) {
  const then = rules.after(fen, move);
  const mark = end ?? rules.ending(then);
  return withoutMark(rules, fen, move) + (mark || (rules.isCheck(then) ? "+" : ""));
}

function withoutMark(rules, fen, move) {
  const rows = rowsOf(fen);
  const [from, to, becomes] = [move.slice(0, 2), move.slice(2, 4), move.slice(4)];
  const kind = letterAt(rows, from).toUpperCase();
  const link = letterAt(rows, to) ? "x" : "";
  const origin = kind === "P" ? (link ? from[0] : "") : kind + apart(rules, fen, rows, move);
  return `${origin}${link}${to}${becomes ? "=" + becomes.toUpperCase() : ""}`;
}

// The file, else the rank, else the square that tells this unit from others of its kind which could go there too.
function apart(rules, fen, rows, move) {
  const [from, to] = [move.slice(0, 2), move.slice(2, 4)];
  const letter = letterAt(rows, from);
  if (rows.flat().filter((other) => other === letter).length === 1) return "";
  const starts = rules.moves(fen).filter((other) => other.slice(2, 4) === to).map((other) => other.slice(0, 2));
  const rivals = starts.filter((start) => start !== from && letterAt(rows, start) === letter);
  if (!rivals.length) return "";
  if (rivals.every((start) => start[0] !== from[0])) return from[0];
  return rivals.every((start) => start[1] !== from[1]) ? from[1] : from;
}

/** The number before a move, so many plies behind the first one: `2.` for White, `2...` for Black, where Black's needs one. */
export function numbered(firstSide, ply, isFirstOfLine) {
  const halves = ply + (firstSide === "b" ? 1 : 0);
  const number = Math.floor(halves / 2) + 1;
  if (halves % 2 === 0) return `${number}.`;
  return isFirstOfLine ? `${number}...` : "";
}

/** The moves of a line, each with its number where it has one: `1.Kc5`, `Ka5`, `2.Ra1#`. */
export function lineWritten(rules, fen, moves) {
  const side = sideOf(fen);
  let here = fen;
  return moves.map((move, ply) => {
    const written = numbered(side, ply, ply === 0) + moveWritten(rules, here, move);
    here = rules.after(here, move);
    return written;
  });
}
