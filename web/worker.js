// Searches apart from the page, so that the page stays live. A search is ended by ending this worker.
import { Library } from "./library.js";
import { Rules } from "./rules.js";

// Up to so many plies a table of so many slots serves, and is soon made: no answer rests on their number. All are primes, since a table of a
// power of two spreads its entries badly.
const SLOTS = [
  [5, 16381],
  [7, 131071],
  [63, 1048573],
];
// A round of as many milliseconds or more is slow.
const SLOW = 100;

let library = null;
let rules = null;

onmessage = ({ data }) => {
  try {
    if (data.code) return begin(data.code);
    const begun = performance.now();
    const found = done(data);
    postMessage({ ...found, milliseconds: performance.now() - begun });
  } catch (error) {
    postMessage({ failed: String(error.message ?? error) });
  }
};

function done(data) {
  if (data.wants === "verify") return { proved: library.verify(data.fen, data.isStale, data.certificate) };
  return data.wants === "key" ? { tree: keyTree(data) } : searched(data);
}

function begin(code) {
  library = new Library(code);
  rules = new Rules(library);
}

const slotsFor = (plies) => (SLOTS.find(([most]) => plies <= most) ?? SLOTS.at(-1))[1];
const asked = (name, fen, isStale, plies) => library.search(name, fen, isStale, plies, slotsFor(plies));

/** Looks within 1, 3, 5 and so on plies, behind slow ones within four more, and tells of each; then builds the tree, or lists the keys. */
function searched({ fen, isStale, limit, known, wants }) {
  const answer = answered(fen, isStale, limit, known);
  postMessage({ answer });
  const plies = Number(/^(?:mate|goal) (\d+) /.exec(answer)?.[1] ?? 0);
  if (!plies) return {};
  if (wants === "keys") return { keys: asked("keys", fen, isStale, limit) };
  return { tree: asked("tree", fen, isStale, plies) };
}

// The fewest plies within a smaller limit are the fewest within the limit too. Known is within how many plies nothing is forced. A call begins
// with an empty table, and with the first round: behind a slow one two rounds are asked at once, so that all calls take little longer than one.
function answered(fen, isStale, limit, known) {
  let step = 2;
  for (let plies = known + 1 + (known % 2); plies < limit; plies += step) {
    postMessage({ plies });
    const begun = performance.now();
    const answer = asked("solve", fen, isStale, plies);
    if (!answer.startsWith("none")) return answer;
    postMessage({ known: plies });
    step = performance.now() - begun < SLOW ? 2 : 4;
  }
  postMessage({ plies: limit });
  return asked("solve", fen, isStale, limit);
}

/** The tree of a key that wins within so many plies: below each reply the tree of its own answer. The library checks the whole. */
function keyTree({ fen, isStale, move, plies }) {
  const then = rules.after(fen, move);
  const replies = rules.moves(then);
  const parts = replies.map((reply, index) => {
    postMessage({ reply: index, replies: replies.length });
    return `${reply}:${asked("tree", rules.after(then, reply), isStale, plies - 2).trim()}`;
  });
  const tree = replies.length ? `${move}{${parts.join(",")}}` : move + rules.ending(then);
  const verdict = library.check(fen, isStale, tree).trim();
  if (verdict !== `yes ${plies}`) throw new Error(`the tree of ${move} is not one of ${plies} plies: ${verdict}`);
  return tree;
}
