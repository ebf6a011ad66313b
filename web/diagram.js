// The diagram of a position as a file that stands alone: SVG, the drawing of `minimate show --svg`, and PNG drawn of it.
import { SIDES, letterAt, rowsOf, sideOf, squareName } from "./positions.js";
import { isWhite, shapeOf } from "./units.js";

const SIDE = 100;
const EDGE = 44;
const FRAME = 4;
const LINE = "#23251f";
const PNG_SQUARE = 120;

// The signs of files and ranks, in a square of 30 by 30.
const FILES = [
  "M21 11v17M21 20q0 8-6 8t-6-8 6-8 6 8",
  "M9 2v26M9 20q0-8 6-8t6 8-6 8-6-8",
  "M21 15q-2-3-6-3-7 0-7 8t7 8q4 0 6-3",
  "M21 2v26M21 20q0-8-6-8t-6 8 6 8 6-8",
  "M8 20h14q0-8-7-8t-7 8 7 8q4 0 6-3",
  "M20 3q-7-3-7 5v20M8 13h10",
];
const RANKS = [
  "M9 8l7-6v26",
  "M8 8q0-6 7-6t7 6q0 6-14 20h14",
  "M9 3h12l-7 10q8 0 8 7 0 8-7 8-6 0-7-5",
  "M18 28V2L8 19h14",
  "M21 3H10L9 13q3-2 6-2 7 0 7 8 0 9-7 9-6 0-7-5",
  "M20 3Q9 8 9 19q0 9 6 9 7 0 7-8 0-7-7-7-5 0-6 6",
];

function unitOnPaper(letter, x, y) {
  const [outline, detail] = shapeOf(letter);
  const look = isWhite(letter) ? `fill="#fff" stroke="${LINE}"` : 'fill="#2b2d29" stroke="#0c0d0b"';
  const inner = isWhite(letter) ? LINE : "#d9d9cd";
  const round = 'stroke-width="3.2" stroke-linejoin="round" stroke-linecap="round"';
  const shape = `<path d="${outline}"/><path d="${detail}" fill="none" stroke="${inner}"/>`;
  return `<g transform="translate(${x} ${y})" ${look} ${round}>${shape}</g>\n`;
}

function sign(outline, x, y) {
  return `<path transform="translate(${x} ${y})" d="${outline}" fill="none" stroke="${LINE}" stroke-width="3" stroke-linecap="round"/>\n`;
}

// A square at a place as it is seen: its rank and file are others on a flipped board.
function squareOnPaper(rows, isFlipped, row, column) {
  const seen = (place) => (isFlipped ? rows.length - 1 - place : place);
  const [x, y] = [EDGE + column * SIDE, FRAME + row * SIDE];
  const letter = letterAt(rows, squareName(rows.length, seen(row), seen(column)));
  const isDark = (row + column + rows.length) % 2 === 1;
  return (isDark ? `<path d="M${x} ${y}h100v100h-100z" fill="#c9cfbf"/>\n` : "") + (letter ? unitOnPaper(letter, x, y) : "");
}

function signs(width, isFlipped, n) {
  const [rank, file] = isFlipped ? [n, width - 1 - n] : [width - 1 - n, n];
  return sign(RANKS[rank], 6, 39 + n * SIDE) + sign(FILES[file], 79 + n * SIDE, 9 + width * SIDE);
}

/** The diagram as the text of an SVG file. */
export function svgOf(fen, isFlipped) {
  const rows = rowsOf(fen);
  const board = rows.length * SIDE;
  const size = EDGE + board + FRAME;
  const places = rows.flatMap((line, row) => line.map((_, column) => [row, column]));
  return [
    '<?xml version="1.0" encoding="UTF-8"?>\n',
    `<svg xmlns="http://www.w3.org/2000/svg" width="${size}" height="${size}" viewBox="0 0 ${size} ${size}" role="img">\n`,
    `<title>${SIDES[sideOf(fen)]} to move</title>\n`,
    `<path d="M0 0h${size}v${size}H0z" fill="#fff"/>\n`,
    ...places.map(([row, column]) => squareOnPaper(rows, isFlipped, row, column)),
    `<path d="M44 4h${board}v${board}H44z" fill="none" stroke="${LINE}" stroke-width="3"/>\n`,
    ...rows.map((_, n) => signs(rows.length, isFlipped, n)),
    sideOf(fen) === "b" ? `<path d="M11 ${26 + board}a11 11 0 1 0 22 0 11 11 0 1 0-22 0z" fill="${LINE}"/>\n` : "",
    "</svg>\n",
  ].join("");
}

/** The diagram as a PNG file. */
export async function pngOf(fen, isFlipped) {
  const image = new Image();
  image.src = `data:image/svg+xml;charset=utf-8,${encodeURIComponent(svgOf(fen, isFlipped))}`;
  await image.decode();
  const scale = PNG_SQUARE / SIDE;
  const canvas = Object.assign(document.createElement("canvas"), { width: image.width * scale, height: image.height * scale });
  canvas.getContext("2d").drawImage(image, 0, 0, canvas.width, canvas.height);
  return new Promise((made) => canvas.toBlob(made, "image/png"));
}
