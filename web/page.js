// The page: what stands on it, and what a press does. Each change of the problem or of its line is a step that can be undone.
import { addressOf, readAddress } from "./address.js";
import { Answers } from "./answers.js";
import { Board } from "./board.js";
import { Certificates } from "./certificates.js";
import { Library, compiled, moduleName } from "./library.js";
import { lawfulPart, played, playedThrough, positionOf } from "./line.js";
import { lineWritten, moveWritten } from "./notation.js";
import { SIDES, emptyRows, fitted, letterAt, placeOf, rowsOf, sideOf, textOf, twoFields } from "./positions.js";
import { PROBLEMS } from "./problems.js";
import { Rules } from "./rules.js";
import { Search } from "./search.js";
import { listenToShares } from "./shares.js";
import { Solver } from "./solver.js";
import { Steps } from "./steps.js";
import { fillTray, pickedInTray } from "./tray.js";
import { KINDS } from "./units.js";
import { goalSaid, movesSaid } from "./words.js";

const $ = (id) => document.getElementById(id);

const view = { state: { fen: "", goal: "mate", limit: "5", moves: [], at: 0 }, picked: null, isFlipped: false, trayWidth: 0, byPointer: false };
const parts = { rules: null, board: null, search: null, answers: null, steps: null, certificates: null };

const isSetting = () => document.querySelector('input[name="mode"]:checked').value === "set";
const here = () => positionOf(parts.rules, view.state);
const isSound = () => !parts.rules.fault(view.state.fen).length;
const lawful = () => parts.rules.moves(here());

// ---- the state

/** Takes what is new as a step that can be undone. Steps of one kind in a row, as letters that are written, are one. */
function change(changes, kind = "") {
  Object.assign(view, { state: { ...view.state, ...changes }, picked: null });
  parts.steps.record(view.state, addressOf(view.state), kind);
  show();
}

/** Goes along the line, which is no step of its own. */
function go(at) {
  Object.assign(view, { state: { ...view.state, at: Math.min(Math.max(at, 0), view.state.moves.length) }, picked: null });
  parts.steps.amend(view.state, addressOf(view.state));
  show();
}

function restored(state) {
  Object.assign(view, { state, picked: null });
  show();
}

/** The text as the problem, with no move played. */
function takeText(fen, kind = "") {
  if (fen !== view.state.fen) change({ fen, moves: [], at: 0 }, kind);
}

function takeAddress() {
  const named = readAddress();
  const first = PROBLEMS[0];
  const fen = named.fen ?? first.fen;
  const limit = String(named.limit ?? (named.fen ? 5 : first.limit));
  const moves = lawfulPart(parts.rules, fen, named.moves);
  view.state = { fen, goal: named.goal, limit, moves, at: Math.min(named.at, moves.length) };
  parts.steps.amend(view.state, addressOf(view.state));
  view.picked = null;
  show();
}

// ---- what is seen

function show() {
  showProblem();
  showBoard();
  showLine();
  parts.answers.meet(view.state);
  parts.certificates.meet({ fen: here() });
}

function setValue(name, value) {
  if ($(name).value !== value) $(name).value = value;
}

function showProblem() {
  const { fen, goal, limit } = view.state;
  const fault = parts.rules.fault(fen);
  const listed = PROBLEMS.findIndex((one) => one.fen === fen && one.goal === goal);
  const values = { goal, limit, problems: listed < 0 ? "" : String(listed), side: sideOf(here()) };
  for (const [name, value] of Object.entries(values)) setValue(name, value);
  // While six fields are written they stay in the field.
  if (twoFields($("fen").value) !== fen) setValue("fen", fen);
  $("fen").setAttribute("aria-invalid", String(fault.length > 0));
  $("fault").textContent = fault.length ? `Refused, ${fault[0].slice("refused: ".length)}: ${fault[1].slice("error: ".length)}.` : "";
  $("paper").textContent = `${fen}, ${goalSaid(goal === "stale")} within ${limit} plies`;
  $("within").textContent = limitOf(limit) ? `= ${movesSaid(limitOf(limit))}` : "";
  $("undo").disabled = !parts.steps.canUndo;
  $("redo").disabled = !parts.steps.canRedo;
}

function showBoard() {
  const rows = rowsOf(here());
  $("board").classList.toggle("unread", !rows);
  if (rows) {
    parts.board.show({ rows, dots: dots(), marks: marks(), arrows: arrows(), picked: view.picked, isFlipped: view.isFlipped });
    if (view.trayWidth !== rows.length) showTray(rows.length);
    setValue("game", String(rows.length));
  }
  $("turn").textContent = isSound() ? turnSaid() : "This board is no position yet";
  $("setting").hidden = !isSetting();
  $("flip").setAttribute("aria-pressed", String(view.isFlipped));
}

function showTray(width) {
  view.trayWidth = width;
  fillTray($("tray"), width, () => parts.board.squareSize, (letter, square) => setSquares([[square, letter]]));
}

function dots() {
  if (isSetting() || !view.picked) return [];
  return lawful().filter((move) => move.startsWith(view.picked)).map((move) => move.slice(2, 4));
}

function marks() {
  const last = view.state.moves[view.state.at - 1];
  return last ? [last.slice(0, 2), last.slice(2, 4)] : [];
}

/** The arrows of the answer, or of the line's next move. */
function arrows() {
  if (isSetting()) return [];
  const found = parts.answers.arrows(view.state);
  const next = view.state.moves[view.state.at];
  if (!next || found.some(({ move }) => move === next)) return found;
  return [...found, { move: next, kind: "next" }];
}

/** Who moves, in check or mated or stalemated. */
function turnSaid() {
  const side = SIDES[sideOf(here())];
  const ending = parts.rules.ending(here());
  if (ending) return `${side} is ${ending === "#" ? "mated" : "stalemated"}`;
  return `${side} to move${parts.rules.isCheck(here()) ? ", in check" : ""}`;
}

function showLine() {
  const { fen, moves, at } = view.state;
  const written = lineWritten(parts.rules, fen, moves);
  const made = written.map((words, index) => {
    const name = { type: "button", className: "ply", textContent: words };
    const button = Object.assign(document.createElement("button"), name);
    if (index === at - 1) button.setAttribute("aria-current", "true");
    button.addEventListener("click", () => go(index + 1));
    return button;
  });
  $("line").replaceChildren(...made);
  if (at) $("line").scrollLeft = made[at - 1].offsetLeft - $("line").offsetLeft - 60;
  $("first").disabled = $("back").disabled = at === 0;
  $("next").disabled = at === moves.length && !parts.answers.next(view.state);
}

// ---- play

/** Goes on by the line's next move, or by the tree's where the line has ended. Moves of the tree that follow each other are one step. */
function goOn() {
  const { moves, at } = view.state;
  if (at < moves.length) return go(at + 1);
  const next = parts.answers.next(view.state);
  if (next) change(played(view.state, next), "walk");
}

function play(move) {
  parts.steps.part();
  if (view.state.moves[view.state.at] === move) go(view.state.at + 1);
  else change(played(view.state, move));
}

/** Plays a path from an answer's position, and brings its problem back where another is on the board. */
function playPath(asked, path) {
  setMode("play");
  parts.steps.part();
  const { fen, goal, moves } = asked.problem;
  const isOther = fen !== view.state.fen;
  const line = playedThrough(isOther ? { moves: [] } : view.state, [...moves, ...path]);
  if (!isOther && line.moves === view.state.moves) go(line.at);
  else change({ fen, ...(isOther ? { goal } : {}), ...line });
}

function tryMove(from, to) {
  const moves = lawful().filter((move) => move.startsWith(from + to));
  if (moves.length > 1) choosePromotion(moves);
  else if (moves.length) play(moves[0]);
  return moves.length > 0;
}

function choosePromotion(moves) {
  const dialog = document.createElement("dialog");
  dialog.setAttribute("aria-label", "What the pawn becomes");
  for (const move of moves) {
    const button = Object.assign(document.createElement("button"), { type: "button", textContent: KINDS[move[4]] });
    button.addEventListener("click", () => (dialog.close(), play(move)));
    dialog.append(button);
  }
  dialog.addEventListener("close", () => dialog.remove());
  document.body.append(dialog);
  dialog.showModal();
}

function pressed(square) {
  if (isSetting()) return setSquares([[square, pickedInTray($("tray"))]]);
  if (view.picked && view.picked !== square && tryMove(view.picked, square)) return;
  pick(view.picked !== square && lawful().some((move) => move.startsWith(square)) ? square : null);
}

function pick(square) {
  view.picked = square;
  showBoard();
}

function dropped(from, to) {
  if (!isSetting()) return to && tryMove(from, to);
  const letter = letterAt(rowsOf(here()), from);
  setSquares(to ? [[from, null], [to, letter]] : [[from, null]]);
}

// ---- setting up

function setMode(mode) {
  for (const choice of document.querySelectorAll('input[name="mode"]')) choice.checked = choice.value === mode;
}

// What stands on the board is the problem from then on.
function setSquares(changes, side = sideOf(here())) {
  const rows = rowsOf(here()) ?? emptyRows(Number($("game").value));
  for (const [square, letter] of changes) {
    const { row, column } = placeOf(rows.length, square);
    rows[row][column] = letter;
  }
  setMode("set");
  takeText(textOf(rows, side));
}

function setGame() {
  const width = Number($("game").value);
  const rows = rowsOf(here());
  takeText(textOf(rows ? fitted(rows, width) : emptyRows(width), $("side").value));
}

// ---- the search

function limitOf(text) {
  const limit = Number(text);
  return Number.isInteger(limit) && limit >= 1 && limit <= 63 ? limit : 0;
}

/** Asks for what the board shows: the line before it stays. */
function ask(wants) {
  setMode("play");
  view.picked = null;
  show();
  if (!isSound()) return reproach("The position is refused: mend it first");
  if (!limitOf(view.state.limit)) return reproach("The plies are a whole number from 1 to 63");
  const { fen, goal, moves, at, limit } = view.state;
  const problem = { fen, goal, moves: moves.slice(0, at) };
  parts.answers.clear();
  begin({ wants, fen: here(), isStale: goal === "stale", limit: limitOf(limit), firsts: lawful().length, problem });
}

function reproach(words) {
  say(words);
  meetAnswer();
}

function begin(asked) {
  parts.search.begin(asked);
  $("stop").disabled = false;
  $("onward").hidden = true;
  if (coveredHeight()) meetAnswer();
  else meet($("state"));
}

function onward(asked, known, limit) {
  if (asked.problem.fen === view.state.fen) change({ limit: String(limit) });
  parts.answers.clear();
  begin({ ...asked, known, limit });
}

function askKey(answer, { move, plies }) {
  if (parts.search.isRunning) return reproach("Another search is under way: stop it first");
  const name = moveWritten(parts.rules, answer.fen, move);
  const replies = parts.rules.moves(parts.rules.after(answer.fen, move)).length;
  begin({ ...answer, wants: "key", known: 0, move, plies, name, replies });
}

function answered(asked, reply) {
  parts.answers.answer(asked, reply);
  show();
  meetAnswer();
}

function built(asked, tree) {
  parts.answers.showTree(tree);
  show();
  meetAnswer();
}

function listed(asked, keys) {
  parts.answers.list(keys);
  show();
  meetAnswer();
}

function ended(asked, words, known) {
  $("stop").disabled = true;
  say(words);
  $("time").textContent = "";
  if (known && asked.wants !== "key") parts.answers.offerFrom(asked, known);
}

function say(words) {
  if ($("state").textContent !== words) $("state").textContent = words;
}

/** Brings the answer into view: on a phone so that the tree is seen too. */
function meetAnswer() {
  keepBelowBoard();
  if (coveredHeight()) $("told").scrollIntoView({ block: "start" });
  else meet($("answer"));
}

/** Brings what is said into view, below the board where that stays at the top of the window. */
function meet(element) {
  const box = element.getBoundingClientRect();
  const isSeen = box.top >= coveredHeight() && box.bottom <= innerHeight;
  if (!isSeen) element.scrollIntoView({ block: "start" });
}

/** Keeps a move of the tree in view, while the tree is what is read. */
function meetMove(button) {
  const box = $("tree").getBoundingClientRect();
  if (box.bottom > coveredHeight() && box.top < innerHeight) button.scrollIntoView({ block: "nearest" });
}

function coveredHeight() {
  const isOver = getComputedStyle($("stage")).position === "sticky" && getComputedStyle($("stage").parentElement).display === "flex";
  return isOver ? $("stage").offsetHeight : 0;
}

// What is scrolled to, by the keyboard too, comes to stand below the board.
function keepBelowBoard() {
  document.documentElement.style.scrollPaddingTop = `${coveredHeight() + 8}px`;
}

// ---- the keyboard

// Fields and lists have a use of their own for the arrow keys.
const takesKeys = (target) => target.closest("input, select, textarea, dialog") !== null;

function key(event) {
  view.byPointer = false;
  if (event.defaultPrevented || document.querySelector("dialog")) return;
  const isPlain = !event.ctrlKey && !event.metaKey && !event.altKey && !event.shiftKey;
  if (event.key === "Escape") return escape();
  if (takesKeys(event.target)) return;
  if (isPlain && event.key === "ArrowLeft") go(view.state.at - 1);
  else if (isPlain && event.key === "ArrowRight") goOn();
  else if ((event.ctrlKey || event.metaKey) && event.key.toLowerCase() === "z") event.shiftKey ? parts.steps.redo() : parts.steps.undo();
  else if (event.ctrlKey && event.key.toLowerCase() === "y") parts.steps.redo();
  else return;
  event.preventDefault();
}

function escape() {
  if (parts.search.isRunning) parts.search.stop();
  else if (view.picked) pick(null);
}

// ---- the parts together

function listen() {
  $("fen").addEventListener("input", () => takeText(twoFields($("fen").value), "text"));
  $("fen").addEventListener("change", () => (setValue("fen", view.state.fen), parts.steps.part()));
  $("problem").addEventListener("submit", (event) => (event.preventDefault(), ask("tree")));
  $("limit").addEventListener("input", () => change({ limit: $("limit").value }, "limit"));
  $("limit").addEventListener("change", () => parts.steps.part());
  $("goal").addEventListener("change", () => change({ goal: $("goal").value }));
  $("game").addEventListener("change", setGame);
  $("side").addEventListener("change", () => setSquares([], $("side").value));
  $("problems").addEventListener("change", takeListed);
  const presses = {
    keys: () => ask("keys"),
    stop: () => parts.search.stop(),
    first: () => go(0),
    back: () => go(view.state.at - 1),
    next: goOn,
    flip: () => ((view.isFlipped = !view.isFlipped), showBoard()),
    undo: () => parts.steps.undo(),
    redo: () => parts.steps.redo(),
    clear: () => takeText(textOf(emptyRows(Number($("game").value)), $("side").value)),
  };
  for (const [name, does] of Object.entries(presses)) $(name).addEventListener("click", does);
  for (const choice of document.querySelectorAll('input[name="mode"]')) choice.addEventListener("change", modeChosen);
  addEventListener("pointerdown", () => (view.byPointer = true), true);
  addEventListener("keydown", key);
  addEventListener("resize", keepBelowBoard);
  new ResizeObserver(keepBelowBoard).observe($("stage"));
}

// A press of the mouse leaves the arrow keys to the line.
function modeChosen(event) {
  if (view.byPointer) event.target.blur();
  view.picked = null;
  show();
}

function takeListed() {
  const listed = PROBLEMS[$("problems").value];
  if (listed) change({ fen: listed.fen, goal: listed.goal, limit: String(listed.limit), moves: [], at: 0 });
}

function listProblems() {
  const option = ({ name, limit }, index) => new Option(`${name} (${movesSaid(limit)})`, index);
  $("problems").append(...PROBLEMS.map(option));
}

function keepForLater() {
  if (location.protocol.startsWith("http")) navigator.serviceWorker?.register("offline.js").catch((error) => console.warn(error.message));
}

async function start() {
  const code = await compiled(moduleName());
  parts.rules = new Rules(new Library(code));
  const said = (words, seconds) => (say(words), ($("time").textContent = seconds));
  parts.search = new Search({ said, answered, listed, built, ended });
  parts.search.solver = new Solver(code, (data) => parts.search.told(data));
  parts.answers = new Answers(parts.rules, { played: playPath, key: askKey, onward, met: meetMove });
  parts.board = new Board($("board"), { pressed, dropped, emptied: (square) => isSetting() && setSquares([[square, null]]) });
  parts.steps = new Steps({ restored, opened: takeAddress });
  parts.certificates = new Certificates(code, () => ({ fen: here(), goal: view.state.goal }));
  listProblems();
  listen();
  listenToShares({ state: () => view.state, here, isFlipped: () => view.isFlipped, answers: parts.answers, rules: parts.rules, say });
  const kept = parts.steps.kept();
  if (kept) restored(kept);
  else takeAddress();
  keepForLater();
  document.documentElement.dataset.ready = "yes";
}

start().catch((error) => say(`The page can't begin: ${error.message}`));
