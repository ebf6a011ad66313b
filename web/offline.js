// Keeps the page for when there is no network: what is asked comes from the server where it answers, else from what was kept.
// It is a worker of its own, which the browser starts beside the page.

const KEPT = "minimate";
const FILES = [
  "./",
  "address.js",
  "answers.js",
  "arrows.js",
  "board.js",
  "certificates.js",
  "diagram.js",
  "drag.js",
  "index.html",
  "library.js",
  "line.js",
  "notation.js",
  "out/minimate32.wasm",
  "out/minimate64.wasm",
  "page.js",
  "positions.js",
  "problems.js",
  "rules.js",
  "saving.js",
  "search.js",
  "shares.js",
  "solution.js",
  "solver.js",
  "steps.js",
  "style.css",
  "tray.js",
  "tree.js",
  "tree_text.js",
  "units.js",
  "words.js",
  "worker.js",
];

async function keepAll() {
  const kept = await caches.open(KEPT);
  await kept.addAll(FILES.map((file) => new Request(file, { cache: "reload" })));
  await skipWaiting();
}

async function answered(request) {
  try {
    const answer = await fetch(request);
    if (answer.ok) await (await caches.open(KEPT)).put(request, answer.clone());
    return answer;
  } catch (error) {
    const kept = await caches.match(request, { ignoreSearch: true });
    if (kept) return kept;
    throw error;
  }
}

addEventListener("install", (event) => event.waitUntil(keepAll()));
addEventListener("activate", (event) => event.waitUntil(clients.claim()));
addEventListener("fetch", (event) => {
  const isOurs = event.request.method === "GET" && event.request.url.startsWith(registration.scope);
  if (isOurs) event.respondWith(answered(event.request));
});
