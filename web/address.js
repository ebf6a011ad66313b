// The problem in the page's address: #fen=k5/6/2K3/6/6/1R4_w&goal=mate&limit=3, and behind it the line that was played.

import { twoFields } from "./positions.js";

const MOVE = /^[a-f][1-6][a-f][1-6][qrbn]?$/;

export function readAddress() {
  const words = new URLSearchParams(location.hash.slice(1));
  const limit = Number(words.get("limit"));
  const moves = (words.get("line") ?? "").split("_").filter((move) => MOVE.test(move));
  const at = Number(words.get("at") ?? moves.length);
  return {
    fen: words.has("fen") ? twoFields(words.get("fen").replaceAll("_", " ")) : undefined,
    goal: words.get("goal") === "stale" ? "stale" : "mate",
    limit: Number.isInteger(limit) && limit >= 1 && limit <= 63 ? limit : undefined,
    moves,
    at: Number.isInteger(at) && at >= 0 ? at : moves.length,
  };
}

export function addressOf({ fen, goal, limit, moves, at }) {
  const text = encodeURIComponent(fen.replaceAll(" ", "_")).replaceAll("%2F", "/");
  const line = moves.length ? `&line=${moves.join("_")}` : "";
  return `#fen=${text}&goal=${goal}&limit=${limit}${line}${at < moves.length ? `&at=${at}` : ""}`;
}
