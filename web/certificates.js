// A certificate that is opened, dropped or pasted: what it proves of the position on the board, as the proved checker says.
import { Solver } from "./solver.js";

const $ = (id) => document.getElementById(id);
const FIRST_LINE = /^(?:(mate|goal) \d+ [a-f1-6qrbn]+|none within \d+)\n/;

/** What is verified: a position, its goal, and the bytes. A mate and a goal say in their first line which goal it is. */
function goalOf(bytes, goal) {
  const kind = FIRST_LINE.exec(new TextDecoder().decode(bytes.subarray(0, 32)))?.[1];
  return kind ? kind === "goal" : goal === "stale";
}

export class Certificates {
  #checker;
  #state;
  #about = "";

  /** State tells the position on the board and the goal. */
  constructor(code, state) {
    this.#state = state;
    this.#checker = new Solver(code, (data) => this.#told(data));
    this.#listen();
  }

  /** Forgets what was said of another position. */
  meet({ fen }) {
    if (this.#about && fen !== this.#about) this.#say("", "");
  }

  #listen() {
    $("verify").addEventListener("click", () => $("certificate").click());
    $("certificate").addEventListener("change", () => this.#open($("certificate").files[0]));
    addEventListener("dragover", (event) => event.dataTransfer?.types.includes("Files") && event.preventDefault());
    addEventListener("drop", (event) => {
      if (!event.dataTransfer?.files.length) return;
      event.preventDefault();
      this.#open(event.dataTransfer.files[0]);
    });
    addEventListener("paste", (event) => {
      const text = event.clipboardData?.getData("text/plain") ?? "";
      if (!FIRST_LINE.test(text)) return;
      event.preventDefault();
      this.#verify(new TextEncoder().encode(text));
    });
  }

  async #open(file) {
    if (!file) return;
    this.#verify(new Uint8Array(await file.arrayBuffer()));
    $("certificate").value = "";
  }

  #verify(certificate) {
    const { fen, goal } = this.#state();
    this.#checker.stop();
    this.#say(fen, "Certificate: it is checked …");
    this.#checker.begin({ wants: "verify", fen, isStale: goalOf(certificate, goal), certificate });
  }

  #told({ proved, failed, milliseconds }) {
    if (failed) return this.#say(this.#about, `The certificate can't be checked: ${failed}`);
    const [line] = proved.split("\n");
    const refused = line.startsWith("refused: ");
    const words = refused ? `Certificate refused: ${line.slice("refused: ".length)}` : `Certificate: ${line}`;
    this.#say(this.#about, refused ? words : `${words}, checked in your browser, in ${Math.max(1, Math.round(milliseconds))} ms, by the proved checker`);
  }

  #say(about, words) {
    this.#about = about;
    $("proved").textContent = words;
  }
}
