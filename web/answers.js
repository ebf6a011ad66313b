// What the search answered, and where: the sentence, the keys, the tree, and what may be asked next.
import { begins } from "./line.js";
import { lineWritten, moveWritten, numbered } from "./notation.js";
import { sideOf } from "./positions.js";
import { linesOf } from "./rules.js";
import { TreeView } from "./tree.js";
import { countLines, nextOf, treeOf } from "./tree_text.js";
import { answerSaid, count, movesSaid, pliesSaid, readAnswer } from "./words.js";

const $ = (id) => document.getElementById(id);
const MOST_LIMIT = 63;
// More lines at once would make the page slow; the others unfold by hand.
const MOST_LINES = 3000;

function button(words, does) {
  const made = Object.assign(document.createElement("button"), { type: "button", textContent: words });
  made.addEventListener("click", does);
  return made;
}

export class Answers {
  #rules;
  #tells;
  #view;
  /** What was asked with its answer, or null. */
  shown = null;

  /**
   * Told are `played(asked, path)` of a move in the tree or of a key, `key(asked, key)` of a key whose tree isn't there yet, `onward(asked,
   * known, limit)` of a search that goes on, and `met(element)` of what has to be seen.
   */
  constructor(rules, tells) {
    this.#rules = rules;
    this.#tells = tells;
    const played = (path) => tells.played(this.shown, path);
    this.#view = new TreeView($("tree"), rules, { played, folded: () => this.#showFolding(), met: tells.met });
    $("unfold").addEventListener("click", () => this.#view.unfoldAll(MOST_LINES));
    $("fold").addEventListener("click", () => this.#view.foldAll());
    $("there").addEventListener("click", () => tells.played(this.shown, []));
  }

  clear() {
    this.shown = null;
    this.#offer([]);
    for (const name of ["about", "answer"]) $(name).textContent = "";
    $("keylist").replaceChildren();
    this.#clearTree();
    $("there").hidden = true;
  }

  #clearTree() {
    this.#view.clear();
    $("folding").hidden = true;
  }

  /** The answer of a search. Of the same position as before the trees that are known stay. */
  answer(asked, reply) {
    const old = this.shown;
    const isSame = old && old.fen === asked.fen && old.isStale === asked.isStale;
    this.clear();
    this.shown = { ...asked, reply, keys: [], trees: isSame ? old.trees : new Map(), root: null, first: null };
    const found = readAnswer(reply);
    const written = found ? this.#numbered(found.move) : "";
    $("answer").textContent = answerSaid(this.shown, written);
    if (!found && this.#rules.moves(asked.fen).length) this.offerFrom(asked, asked.limit);
  }

  /** Offers to go on behind so many plies, within which there is nothing. */
  offerFrom(asked, known) {
    const next = known + 1 + (known % 2);
    const limits = [...new Set([next, Math.min(next + 4, MOST_LIMIT), MOST_LIMIT])].filter((limit) => limit > known && limit <= MOST_LIMIT);
    this.#offer(limits.map((limit) => button(`Go on: within ${pliesSaid(limit)}`, () => this.#tells.onward(asked, known, limit))));
  }

  #offer(buttons) {
    $("onward").replaceChildren(...buttons);
    $("onward").hidden = !buttons.length;
  }

  /** The keys of a reply, as buttons that show their trees. */
  list(reply) {
    if (!/^[a-f]/.test(reply)) return;
    this.shown.keys = linesOf(reply).map((line) => ({ move: line.split(" ")[0], plies: Number(line.split(" ")[1]) }));
    const made = this.shown.keys.map((key) => {
      const one = button(`${this.#numbered(key.move)} in ${movesSaid(key.plies)}`, () => this.#pressed(key));
      one.dataset.key = key.move;
      one.setAttribute("aria-pressed", "false");
      return one;
    });
    $("keylist").replaceChildren(...made);
    $("answer").textContent += this.shown.keys.length > 1 ? `. ${count(this.shown.keys.length, "key")}` : ". One key";
  }

  #pressed(key) {
    this.#tells.played(this.shown, [key.move]);
    const known = this.shown.trees.get(key.move);
    if (known) this.showTree(known);
    else this.#tells.key(this.shown, key);
  }

  /** Shows the tree of a text, and keeps it. */
  showTree(text) {
    if (!/^[a-f]/.test(text)) return;
    const root = treeOf(text);
    this.shown.trees.set(root.move, text);
    Object.assign(this.shown, { root, first: root.move });
    this.#view.show({ fen: this.shown.fen, ...this.#start() }, root);
    for (const one of $("keylist").children) one.setAttribute("aria-pressed", String(one.dataset.key === root.move));
    $("folding").hidden = !root.replies.length;
    this.#showFolding();
  }

  /** Whether the tree of this first move is the one that is shown. */
  showsTreeOf(move) {
    return this.shown?.first === move;
  }

  #showFolding() {
    if (!this.shown?.root) return;
    const lines = countLines(this.shown.root);
    const part = lines > MOST_LINES ? `${MOST_LINES.toLocaleString("en")} of` : "all";
    $("unfold").textContent = `Unfold ${part} ${count(lines, "line")}`;
    $("unfold").disabled = !this.#view.isFolded;
  }

  // The side that moves first in the problem, and how many plies of its line stand before this answer.
  #start() {
    return { side: sideOf(this.shown.problem.fen), ply: this.shown.problem.moves.length };
  }

  #numbered(move) {
    const { side, ply } = this.#start();
    return numbered(side, ply, true) + moveWritten(this.#rules, this.shown.fen, move);
  }

  /** The part of a state's line that stands behind this answer's position; null where it isn't there. */
  #behind({ fen, moves, at }) {
    const { problem } = this.shown;
    const isHere = fen === problem.fen && at >= problem.moves.length && begins(moves, problem.moves);
    return isHere ? moves.slice(problem.moves.length, at) : null;
  }

  /** Tells of which position the answer is, where the board shows another line, and marks in the tree what is on the board. */
  meet(state) {
    if (!this.shown) return;
    const { problem } = this.shown;
    const path = this.#behind(state);
    const line = lineWritten(this.#rules, problem.fen, problem.moves).join(" ");
    const isOther = problem.fen !== state.fen;
    const words = [isOther && `This is the answer of ${problem.fen}`, line && (isOther ? `after ${line}` : `After ${line}`)];
    const said = words.filter(Boolean).join(", ");
    if ($("about").textContent !== said) $("about").textContent = said;
    $("there").hidden = path !== null && path.length === 0;
    $("told").classList.toggle("old", path === null);
    this.#view.mark(path ?? []);
  }

  /** The move that the tree has next at a state's board, or null. */
  next(state) {
    const path = this.shown?.root ? this.#behind(state) : null;
    return path && nextOf(this.shown.root, path);
  }

  /** The arrows at a state's board: all keys at the answer's position, and the tree's move of the attacker. */
  arrows(state) {
    const path = this.shown ? this.#behind(state) : null;
    if (!path) return [];
    const keys = path.length ? [] : this.shown.keys.map(({ move }) => ({ move, kind: "key" }));
    const found = readAnswer(this.shown.reply)?.move;
    const next = path.length % 2 === 0 ? (this.next(state) ?? (path.length ? null : found)) : null;
    return next ? [...keys.filter(({ move }) => move.slice(0, 4) !== next.slice(0, 4)), { move: next, kind: "hand" }] : keys;
  }
}
