// What the page says of searches and answers. Moves are counted as moves; plies are named where they are meant.

export function count(number, one, many = `${one}s`) {
  return `${number.toLocaleString("en")} ${number === 1 ? one : many}`;
}

/** The attacker's moves within so many plies. */
export const movesSaid = (plies) => count(Math.ceil(plies / 2), "move");

export const pliesSaid = (plies) => `${count(plies, "ply", "plies")} (${movesSaid(plies)})`;

export const goalSaid = (isStale) => (isStale ? "mate or stalemate" : "mate");

export const asSentence = (words) => words[0].toUpperCase() + words.slice(1);

/** The parts of a reply of `solve`: the fewest plies and the first move, or none of them. */
export function readAnswer(reply) {
  const [, kind, plies, move] = /^(mate|goal) (\d+) (\S+)$/.exec(reply) ?? [];
  return move ? { isStale: kind === "goal", plies: Number(plies), move } : null;
}

/** What was found: the fewest moves and the first one as it is written, or that there is none. */
export function answerSaid({ reply, isStale, limit }, written) {
  const found = readAnswer(reply);
  if (found) return `${asSentence(goalSaid(found.isStale))} in ${movesSaid(found.plies)} (${count(found.plies, "ply", "plies")}): ${written}`;
  return reply.startsWith("none") ? `No ${goalSaid(isStale)} within ${pliesSaid(limit)}` : reply;
}

/** What is searched now, and what is known. So far is: the plies that are tried, those within which there is nothing, and so on. */
export function searchSaid({ wants, isStale, limit, firsts, name }, soFar) {
  const goal = goalSaid(isStale);
  if (wants === "key") return `Building the tree of ${name}: ${count(soFar.replies - soFar.reply, "reply", "replies")} left of ${soFar.replies}`;
  if (soFar.found) return `${asSentence(goal)} in ${movesSaid(soFar.found)} is known. ${wants === "keys" ? "Listing all keys" : "Building the tree"}`;
  const said = [`Searching ${goal} within ${pliesSaid(soFar.plies)}, ${count(firsts, "first move")} to try`];
  if (soFar.known) said.push(`None within ${pliesSaid(soFar.known)}`);
  said.push(soFar.plies < limit ? `The limit is ${pliesSaid(limit)}` : "That is the limit");
  return said.join(". ");
}

/** What a stopped search leaves. */
export function stoppedSaid(soFar, isStale, seconds) {
  const after = `Stopped after ${count(seconds, "second")}`;
  if (soFar.found || !soFar.known) return after;
  return `${after}. It is known that there is no ${goalSaid(isStale)} within ${pliesSaid(soFar.known)}`;
}
