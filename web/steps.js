// Undo and redo are the browser's Back and Forward: each step is an entry of its history.

// No browser keeps fewer entries than fifty.
const MOST = 49;

export class Steps {
  #tells;
  #kind = "";
  #step = 0;
  #top = 0;
  #oldest = 0;

  /** Told are `restored(state)` of a step that was gone to, and `opened()` of an address that was written by hand. */
  constructor(tells) {
    this.#tells = tells;
    addEventListener("popstate", ({ state }) => this.#arrived(state));
  }

  // Where the browser tells its entries, they are asked: it may have let some go.
  get canUndo() {
    if (!globalThis.navigation?.entries) return this.#step > this.#oldest;
    const before = navigation.entries()[navigation.currentEntry.index - 1];
    return before?.url?.split("#")[0] === location.href.split("#")[0];
  }

  get canRedo() {
    return this.#step < this.#top;
  }

  undo() {
    if (this.canUndo) history.back();
  }

  redo() {
    if (this.canRedo) history.forward();
  }

  /** What the entry of this page has kept, where it was left and come back to. */
  kept() {
    this.#step = this.#top = history.state?.step ?? 0;
    return history.state?.state ?? null;
  }

  /** A new step. One of the same kind as the last, where a kind is named, takes its place. */
  record(state, address, kind = "") {
    if (kind && kind === this.#kind) return this.amend(state, address);
    this.#kind = kind;
    this.#step += 1;
    this.#top = this.#step;
    this.#oldest = Math.max(this.#oldest, this.#top - MOST);
    this.#write("pushState", state, address);
  }

  /** The step at hand, a little otherwise. */
  amend(state, address) {
    this.#write("replaceState", state, address);
  }

  /** The next record is a step of its own. */
  part() {
    this.#kind = "";
  }

  // Some browsers refuse too many in a short time; the page goes on without the entry.
  #write(how, state, address) {
    try {
      history[how]({ step: this.#step, state }, "", address);
    } catch (error) {
      console.warn(error.message);
    }
  }

  #arrived(kept) {
    this.#kind = "";
    if (kept?.state) {
      this.#step = kept.step;
      this.#top = Math.max(this.#top, this.#step);
      return this.#tells.restored(kept.state);
    }
    this.#step += 1;
    this.#top = this.#step;
    this.#tells.opened();
  }
}
