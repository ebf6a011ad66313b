// A worker that searches, one search at a time. To stop a search is to end its worker.
export class Solver {
  #code;
  #tells;
  #worker = null;

  /** Told is what the worker posts. */
  constructor(code, tells) {
    this.#code = code;
    this.#tells = tells;
  }

  begin(question) {
    this.#worker ??= this.#hired();
    this.#worker.postMessage(question);
  }

  stop() {
    this.#worker?.terminate();
    this.#worker = null;
  }

  #hired() {
    const worker = new Worker(new URL("worker.js", import.meta.url), { type: "module" });
    const failed = (why) => {
      this.stop();
      this.#tells({ failed: why });
    };
    worker.onmessage = ({ data }) => (data.failed ? failed(data.failed) : this.#tells(data));
    worker.onerror = (event) => failed(event.message || "the worker can't be started");
    worker.postMessage({ code: this.#code });
    return worker;
  }
}
