// The text of a position, as a board shows it. Only drawing rests on this: what a text means, and which moves are lawful, the library says.

export const GAMES = { 6: "Los Alamos chess", 5: "Gardner minichess" };

/** The board and the side of a text in FEN's six fields, parted by one blank each: the others change no mate in these games. Another text as it is. */
export function twoFields(text) {
  return text.replace(/^([^ ]*\/[^ ]* [^ ]+)(?: [^ ]+){4}$/, "$1");
}

/** The rows of a text from the last rank down, each a list of letters and nulls; null where it hasn't the shape of a board. */
export function rowsOf(fen) {
  const rows = fen.split(" ")[0].split("/").map(rowOf);
  const width = rows.length;
  return width in GAMES && rows.every((row) => row !== null && row.length === width) ? rows : null;
}

function rowOf(text) {
  if (!/^[1-6KQRBNPkqrbnp]+$/.test(text)) return null;
  return [...text].flatMap((letter) => (/[1-6]/.test(letter) ? Array(Number(letter)).fill(null) : [letter]));
}

export function sideOf(fen) {
  return fen.endsWith(" b") ? "b" : "w";
}

export const SIDES = { w: "White", b: "Black" };

/** The same board with the other side to move. */
export function turned(fen) {
  return fen.slice(0, -1) + (sideOf(fen) === "w" ? "b" : "w");
}

/** The text of a board that was set up. */
export function textOf(rows, side) {
  const text = rows.map((row) => row.map((letter) => letter ?? ".").join("").replace(/\.+/g, (run) => run.length));
  return `${text.join("/")} ${side}`;
}

export function emptyRows(width) {
  return Array.from({ length: width }, () => Array(width).fill(null));
}

/** The rows as a board of this width, with what fits: squares keep their names, Los Alamos has no bishops, and no pawn stands on an end. */
export function fitted(rows, width) {
  const fits = (letter, row) => !(width === 6 && /b/i.test(letter)) && !(/p/i.test(letter) && (row === 0 || row === width - 1));
  const squares = emptyRows(width);
  for (const [row, line] of squares.entries()) {
    for (const column of line.keys()) {
      const letter = rows[row + rows.length - width]?.[column] ?? null;
      line[column] = letter && fits(letter, row) ? letter : null;
    }
  }
  return squares;
}

/** The name of the square in this row and column, as `a1`. */
export function squareName(width, row, column) {
  return `${"abcdef"[column]}${width - row}`;
}

/** Where the square of this name stands. */
export function placeOf(width, name) {
  return { row: width - Number(name[1]), column: name.charCodeAt(0) - 97 };
}

export function letterAt(rows, name) {
  const { row, column } = placeOf(rows.length, name);
  return rows[row][column];
}
