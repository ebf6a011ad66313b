// The buttons by which a problem and its answer go out of the page.
import { pngOf, svgOf } from "./diagram.js";
import { rowsOf } from "./positions.js";
import { copied, fileName, save } from "./saving.js";
import { solutionWritten } from "./solution.js";
import { count } from "./words.js";

const $ = (id) => document.getElementById(id);

async function copyLink({ say }) {
  say((await copied(location.href)) ? "The link is copied" : `The link: ${location.href}`);
}

async function saveDiagram({ here, isFlipped, say }, ending) {
  const fen = here();
  if (!rowsOf(fen)) return say("There is no board to draw: mend the position first");
  const isPng = ending === "png";
  const content = isPng ? await pngOf(fen, isFlipped()) : svgOf(fen, isFlipped());
  save(fileName(fen, ending), isPng ? "image/png" : "image/svg+xml", content);
  say(`The diagram is saved as ${isPng ? "PNG" : "SVG"}`);
}

/** The solution's text, or null where there is no tree. */
async function solution({ answers, rules, say }) {
  const shown = answers.shown;
  if (!shown?.root) return void say("There is no solution yet: solve first");
  return solutionWritten(rules, shown, (lines) => say(`Writing the solution: ${count(lines, "line")}`));
}

async function copySolution(page) {
  const text = await solution(page);
  if (text) page.say((await copied(text)) ? "The solution is copied" : "The browser doesn't let the page copy: save the solution as text");
}

async function saveSolution(page) {
  const text = await solution(page);
  if (!text) return;
  save(fileName(page.answers.shown.fen, "txt"), "text/plain", text);
  page.say("The solution is saved as text");
}

/** Listens to the buttons. The page gives its state, its board's text, its answers and its rules. */
export function listenToShares(page) {
  const presses = {
    link: () => copyLink(page),
    svg: () => saveDiagram(page, "svg"),
    png: () => saveDiagram(page, "png"),
    copytext: () => copySolution(page),
    savetext: () => saveSolution(page),
    print: () => print(),
  };
  for (const [name, does] of Object.entries(presses)) $(name).addEventListener("click", does);
}
