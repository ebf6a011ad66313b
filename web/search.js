// A search that is under way: what was asked, what is known so far, and the words for it.
import { readAnswer, searchSaid, stoppedSaid } from "./words.js";

const NOTHING = { plies: 0, known: 0, found: 0, reply: 0, replies: 0 };

export class Search {
  #solver;
  #tells;
  #asked = null;
  #soFar = NOTHING;
  #since = 0;
  #ticker = 0;

  /**
   * Told are `said(words, seconds)` at each change, `answered(asked, reply)`, `listed(asked, keys)`, `built(asked, tree)`,
   * and `ended(asked, words, known)`, where known is within how many plies there is nothing after a search that was stopped.
   */
  constructor(tells) {
    this.#tells = tells;
  }

  /** The solver, whose worker tells this search what it finds. */
  set solver(solver) {
    this.#solver = solver;
  }

  get isRunning() {
    return this.#asked !== null;
  }

  /** Begins one in the place of another. */
  begin(asked) {
    if (this.isRunning) this.#end("");
    this.#asked = asked;
    this.#soFar = { ...NOTHING, known: asked.known ?? 0, plies: (asked.known ?? 0) + 1, replies: asked.replies ?? 0 };
    this.#since = performance.now();
    this.#ticker = setInterval(() => this.#say(), 250);
    this.#say();
    const { wants, fen, isStale, limit, move, plies } = asked;
    this.#solver.begin({ wants, fen, isStale, limit, move, plies, known: asked.known ?? 0 });
  }

  /** Stops it, and tells what is known. */
  stop() {
    if (!this.isRunning) return;
    const seconds = Math.floor((performance.now() - this.#since) / 1000);
    this.#end(stoppedSaid(this.#soFar, this.#asked.isStale, seconds));
  }

  #end(words) {
    this.#solver.stop();
    this.#done(words);
  }

  #done(words) {
    const [asked, soFar] = [this.#asked, this.#soFar];
    clearInterval(this.#ticker);
    this.#asked = null;
    this.#tells.ended(asked, words, soFar.found ? 0 : soFar.known);
  }

  #say() {
    const seconds = Math.floor((performance.now() - this.#since) / 1000);
    this.#tells.said(searchSaid(this.#asked, this.#soFar), `${seconds} s`);
  }

  /** What the worker tells: the plies that it tries and knows, the answer, and then the tree or the keys. */
  told(data) {
    if (!this.isRunning) return;
    const asked = this.#asked;
    if (data.failed) return this.#done(`The search failed: ${data.failed}`);
    this.#soFar = { ...this.#soFar, ...data };
    if (data.answer) this.#answered(asked, data.answer.trim());
    if (data.milliseconds === undefined) return this.#say();
    if (data.keys) this.#tells.listed(asked, data.keys);
    if (data.tree) this.#tells.built(asked, data.tree.trim());
    this.#soFar.known = 0;
    this.#done("");
    this.#tells.said("", `${(data.milliseconds / 1000).toFixed(2)} s`);
  }

  #answered(asked, reply) {
    this.#soFar.found = readAnswer(reply)?.plies ?? 0;
    this.#tells.answered(asked, reply);
  }
}
