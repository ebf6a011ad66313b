// The solution as text, in the form of tools/show_tree: the board, what is forced, and each reply with the move that meets it.
import { moveWritten, numbered } from "./notation.js";
import { SIDES, rowsOf, sideOf } from "./positions.js";
import { count, movesSaid } from "./words.js";

const INDENT = 4;
const MOST_MILLISECONDS = 30;

function boardWritten(fen) {
  const rows = rowsOf(fen);
  const ranks = rows.map((row, index) => ` ${rows.length - index}  ${row.map((letter) => letter ?? ".").join(" ")}`);
  return [...ranks, `    ${[..."abcdef"].slice(0, rows.length).join(" ")}`].join("\n");
}

const endsInStalemate = (node) => node.end === "=" || node.replies.some(({ tree }) => endsInStalemate(tree));

const heightOf = (node) => 1 + Math.max(0, ...node.replies.map(({ tree }) => 1 + heightOf(tree)));

export function titleOf(fen, root) {
  const plies = heightOf(root);
  const goal = endsInStalemate(root) ? "mate or stalemate" : "mate";
  return `${SIDES[sideOf(fen)]} to move: ${goal} in ${movesSaid(plies)} (${count(plies, "ply", "plies")})`;
}

/** The keys in one line, where there are more than one. */
export function keysWritten(rules, fen, keys) {
  const written = keys.map(({ move, plies }) => `${numbered(sideOf(fen), 0, true)}${moveWritten(rules, fen, move)} in ${movesSaid(plies)}`);
  return written.length > 1 ? `Keys: ${written.join(", ")}` : "";
}

// Each line of the tree, from above: what is left to write stands on a heap of its own, so that the page may pause.
function* lines(rules, fen, root) {
  const side = sideOf(fen);
  const left = [{ here: fen, ply: 0, depth: 0, moves: [[root.move, root.end]], node: root }];
  while (left.length) {
    const { here, ply, depth, moves, node } = left.pop();
    let then = here;
    const written = moves.map(([move, end], index) => {
      const words = numbered(side, ply + index, index === 0) + moveWritten(rules, then, move, end);
      then = rules.after(then, move);
      return words;
    });
    yield " ".repeat(INDENT * depth) + written.join(" ");
    const below = node.replies.map(({ move, tree }) => [[move, ""], [tree.move, tree.end], tree]);
    for (const [reply, answer, tree] of below.reverse()) {
      left.push({ here: then, ply: ply + moves.length, depth: depth + 1, moves: [reply, answer], node: tree });
    }
  }
}

/** The whole as text. It is told how many lines are written, and pauses so that the page stays live. */
export async function solutionWritten(rules, { fen, root, keys }, told) {
  const written = [];
  let since = performance.now();
  for (const line of lines(rules, fen, root)) {
    written.push(line);
    if (performance.now() - since < MOST_MILLISECONDS) continue;
    told(written.length);
    await new Promise((go) => setTimeout(go));
    since = performance.now();
  }
  const title = [titleOf(fen, root), keysWritten(rules, fen, keys)].filter(Boolean).join("\n");
  return `${boardWritten(fen)}\n\n${title}\n\n${written.join("\n")}\n`;
}
