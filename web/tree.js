// The tree of moves as lines that fold. A line is a reply with the move that meets it; lines are made as they are unfolded.
import { moveWritten, numbered } from "./notation.js";
import { SIDES, sideOf } from "./positions.js";
import { countLines } from "./tree_text.js";
import { count } from "./words.js";

// So long lines are made before the page may do something else.
const MOST_MILLISECONDS = 30;

function element(name, attributes, ...inside) {
  const made = document.createElement(name);
  for (const [key, value] of Object.entries(attributes)) made.setAttribute(key, value);
  made.append(...inside);
  return made;
}

const pause = () => new Promise((go) => setTimeout(go));

export class TreeView {
  #place;
  #rules;
  #tells;
  #start = null;
  #count = 0;
  #unfolding = 0;
  #marked = null;

  /** Told are `played(path)`, the moves from the root up to the one that was chosen, `folded()`, and `met(button)` of a move to be seen. */
  constructor(place, rules, tells) {
    this.#place = place;
    this.#rules = rules;
    this.#tells = tells;
    place.addEventListener("keydown", (event) => this.#key(event));
  }

  clear() {
    this.#unfolding += 1;
    this.#place.replaceChildren();
  }

  /** Shows a tree at a position, which stands so many plies behind a problem with that side to move. */
  show({ fen, side, ply }, node) {
    this.#unfolding += 1;
    this.#count = 0;
    this.#start = { side, ply };
    const list = element("ul", { class: "tree" }, this.#line({ fen, path: [] }, null, node));
    this.#place.replaceChildren(list);
    list.querySelector(".move").setAttribute("tabindex", "0");
    const first = list.querySelector(".fold");
    if (first) this.#unfold(first, true);
  }

  /** Marks the move that stands on the board, if the tree has it, and unfolds the lines to it. */
  mark(path) {
    for (const old of this.#place.querySelectorAll(".move[aria-current]")) old.removeAttribute("aria-current");
    for (let length = 1; length < path.length; length += 1) {
      const fold = this.#button(path.slice(0, length))?.closest("li").querySelector(":scope > .line > .fold");
      if (fold) this.#unfold(fold, true);
    }
    const button = this.#button(path);
    button?.setAttribute("aria-current", "true");
    const wasMarked = button === this.#marked;
    this.#marked = button;
    if (!button || wasMarked) return;
    if (this.#place.contains(document.activeElement)) this.#focus(button);
    this.#tells.met(button);
  }

  /** Whether there is a line that is folded. */
  get isFolded() {
    return this.#place.querySelector('.fold[aria-expanded="false"]') !== null;
  }

  /** Unfolds lines from above, until so many are made. The page stays live meanwhile, and another tree or a fold ends it. */
  async unfoldAll(most) {
    const turn = (this.#unfolding += 1);
    const folds = [...this.#place.querySelectorAll(".fold")];
    let lines = this.#place.querySelectorAll("li").length;
    let since = performance.now();
    for (let at = 0; at < folds.length && lines < most && turn === this.#unfolding; at += 1) {
      const list = folds[at].list;
      const had = list.childElementCount;
      this.#unfold(folds[at], true, true);
      if (!had) folds.push(...list.querySelectorAll(".fold"));
      lines += list.childElementCount - had;
      if (performance.now() - since < MOST_MILLISECONDS) continue;
      await pause();
      since = performance.now();
    }
    this.#tells.folded();
  }

  /** Folds all lines but the first replies. */
  foldAll() {
    this.#unfolding += 1;
    const [, ...folds] = this.#place.querySelectorAll(".fold");
    for (const fold of folds) this.#unfold(fold, false, true);
    this.#tells.folded();
  }

  #button(path) {
    return this.#place.querySelector(`.move[data-path="${path.join(" ")}"]`);
  }

  // A line: the reply, if it isn't the first, and the move that meets it.
  #line({ fen, path }, reply, node) {
    const line = element("span", { class: "line" });
    const item = element("li", {}, line);
    let here = { fen, path };
    const said = reply ? [[reply, ""]] : [];
    const moves = [...said, [node.move, node.end]].map(([move, end], index) => {
      const button = this.#move(here, move, end, index === 0);
      here = { fen: this.#rules.after(here.fen, move), path: [...here.path, move] };
      return button;
    });
    const leaf = () => element("span", { class: "leaf", "aria-hidden": "true" });
    line.append(node.replies.length ? this.#fold(item, here, node) : leaf(), ...moves);
    return item;
  }

  #move({ fen, path }, move, end, isFirstOfLine) {
    const isReply = path.length % 2 === 1;
    const written = moveWritten(this.#rules, fen, move, end);
    const ends = { "#": "mate", "=": "stalemate", "+": "check" }[written.slice(-1)];
    const label = [`${SIDES[sideOf(fen)]} ${written.replace(/[+#]$|=$/, "")}`, ends].filter(Boolean).join(", ");
    const words = { type: "button", class: `move ${isReply ? "reply" : "attack"}`, tabindex: "-1", "aria-label": label };
    const number = numbered(this.#start.side, this.#start.ply + path.length, isFirstOfLine);
    const button = element("button", { ...words, "data-path": [...path, move].join(" ") }, `${number}${written}`);
    button.addEventListener("click", () => this.#tells.played([...path, move]));
    return button;
  }

  #fold(item, here, node) {
    const id = `lines${(this.#count += 1)}`;
    const words = { "aria-label": count(node.replies.length, "reply", "replies"), title: `${count(countLines(node) - 1, "line")} below` };
    const said = { "aria-expanded": "false", "aria-controls": id, ...words };
    const fold = element("button", { type: "button", class: "fold", tabindex: "-1", ...said });
    const list = element("ul", { id, hidden: "" });
    item.append(list);
    fold.list = list;
    fold.fill = () => list.append(...node.replies.map((one) => this.#line(here, one.move, one.tree)));
    fold.addEventListener("click", () => this.#unfold(fold, fold.getAttribute("aria-expanded") === "false"));
    return fold;
  }

  #unfold(fold, isOpen, isOneOfMany = false) {
    const list = fold.list;
    if (isOpen && !list.childElementCount) fold.fill();
    list.hidden = !isOpen;
    fold.setAttribute("aria-expanded", String(isOpen));
    if (!isOneOfMany) this.#tells.folded();
  }

  // Up and down go from move to move, plus and minus unfold and fold. Left and right walk the line, as anywhere on the page.
  #key(event) {
    const button = event.target.closest(".move");
    if (!button || event.ctrlKey || event.altKey || event.metaKey) return;
    const fold = button.parentElement.querySelector(".fold");
    const shown = [...this.#place.querySelectorAll(".move")].filter((one) => one.offsetParent !== null);
    const at = shown.indexOf(button);
    if (event.key === "ArrowDown") this.#go(shown[at + 1]);
    else if (event.key === "ArrowUp") this.#go(shown[at - 1]);
    else if (event.key === "+" && fold) this.#unfold(fold, true);
    else if (event.key === "-" && fold) this.#unfold(fold, false);
    else return;
    event.preventDefault();
  }

  #go(button) {
    if (!button) return;
    this.#focus(button);
    this.#tells.met(button);
  }

  #focus(button) {
    for (const one of this.#place.querySelectorAll('.move[tabindex="0"]')) one.setAttribute("tabindex", "-1");
    button.setAttribute("tabindex", "0");
    button.focus({ preventScroll: true });
  }
}
