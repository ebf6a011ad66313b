// What can be undone: a problem, and the line that is played from it. So many of its moves stand on the board.

/** Whether a line begins with these moves. */
export const begins = (moves, path) => path.every((move, index) => moves[index] === move);

/** The position behind so many moves of the line. */
export function positionOf(rules, { fen, moves, at }, count = at) {
  return moves.slice(0, count).reduce((here, move) => rules.after(here, move), fen);
}

/** The line with this move played at the board: what stood behind it goes, unless it was the next move anyhow. */
export function played({ moves, at }, move) {
  return moves[at] === move ? { at: at + 1 } : { moves: [...moves.slice(0, at), move], at: at + 1 };
}

/** The line with these moves on the board: where it begins so, the rest stays. */
export function playedThrough({ moves }, path) {
  return { moves: begins(moves, path) ? moves : path, at: path.length };
}

/** As many of the moves as are lawful one behind the other. */
export function lawfulPart(rules, fen, moves) {
  let here = fen;
  const wrong = moves.findIndex((move) => (here = rules.after(here, move)) === null);
  return wrong < 0 ? moves : moves.slice(0, wrong);
}
