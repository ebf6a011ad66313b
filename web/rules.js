// What the library says of positions. Each question is asked once: a call takes an instance of the module.
import { turned } from "./positions.js";

const MOST_KEPT = 20000;

/** The lines of a reply. */
export const linesOf = (reply) => reply.split("\n").filter(Boolean);

export class Rules {
  #library;
  #kept = new Map();

  constructor(library) {
    this.#library = library;
  }

  /** Why the text is refused, in a line and in a sentence; none where it isn't. */
  fault(fen) {
    return this.#asked(`fault ${fen}`, () => linesOf(this.#library.fault(fen)));
  }

  /** The lawful moves; none at a text that is refused. */
  moves(fen) {
    return this.#asked(`moves ${fen}`, () => linesOf(this.#library.moves(fen)).filter((line) => !line.startsWith("refused")));
  }

  /** The position after a move, or null where the move isn't lawful. */
  after(fen, move) {
    const reply = this.#asked(`after ${move} ${fen}`, () => this.#library.after(fen, move).trim());
    return reply.startsWith("refused") ? null : reply;
  }

  /** Whether the side to move is in check: with the other side to move that is a fault. */
  isCheck(fen) {
    return this.fault(turned(fen))[0] === "refused: OtherInCheck";
  }

  /** `#` where the side to move is mated, `=` where it is stalemated, else nothing. */
  ending(fen) {
    if (this.moves(fen).length) return "";
    return this.isCheck(fen) ? "#" : "=";
  }

  #asked(question, ask) {
    if (this.#kept.size > MOST_KEPT) this.#kept.clear();
    if (!this.#kept.has(question)) this.#kept.set(question, ask());
    return this.#kept.get(question);
  }
}
