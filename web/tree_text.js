// The text of a tree, as `minimate tree` writes it, and the tree of a text.

const MOVE = /[a-f][1-6][a-f][1-6][qrbn]?/y;

/** The tree of a text: a move, how its line ends, and each reply with the tree that meets it. */
export function treeOf(text) {
  let at = 0;
  const move = () => {
    MOVE.lastIndex = at;
    const found = MOVE.exec(text);
    if (!found) throw new Error(`no move at offset ${at} of the tree`);
    at = MOVE.lastIndex;
    return found[0];
  };
  const tree = () => {
    const node = { move: move(), end: "", replies: [] };
    if (text[at] !== "{") return { ...node, end: text[at++] };
    while (text[at] !== "}") {
      at += 1;
      const reply = move();
      at += 1;
      node.replies.push({ move: reply, tree: tree() });
    }
    at += 1;
    return node;
  };
  return tree();
}

/** The lines of a tree: its first move, and each reply with the move that meets it. */
export function countLines(node) {
  return node.replies.reduce((sum, { tree }) => sum + countLines(tree), 1);
}

/** The move behind this path: the attacker's, or the first reply to it. Null where the path leaves the tree, or has ended. */
export function nextOf(node, path) {
  let here = node;
  for (let ply = 0; here; ply += 2) {
    if (path.length === ply) return here.move;
    if (path[ply] !== here.move) return null;
    if (path.length === ply + 1) return here.replies[0]?.move ?? null;
    here = here.replies.find(({ move }) => move === path[ply + 1])?.tree;
  }
  return null;
}
