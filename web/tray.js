// The units that a board is set up with: picked, and then a square is pressed, or dragged to a square.
import { follow } from "./drag.js";
import { drawn, lettersOf, unitDrawn, unitName } from "./units.js";

/** Fills the tray for a board of this width; told is `dropped(letter, square)`. */
export function fillTray(place, width, squareSize, dropped) {
  const choices = (isWhite) => lettersOf(width, isWhite).map((letter) => choice(letter, unitName(letter), picture(letter), squareSize, dropped));
  const empty = Object.assign(document.createElement("span"), { className: "empty", textContent: "✕ Empty square" });
  place.style.setProperty("--columns", lettersOf(width, true).length);
  place.replaceChildren(...choices(true), ...choices(false), choice("", "empty square", empty, squareSize, dropped));
  place.querySelector("input").checked = true;
}

/** The letter that is picked in the tray, or null for an empty square. */
export function pickedInTray(place) {
  return place.querySelector("input:checked")?.value || null;
}

function picture(letter) {
  return drawn("svg", { viewBox: "0 0 100 100", "aria-hidden": "true" }, unitDrawn(letter));
}

function choice(letter, name, shown, squareSize, dropped) {
  const label = document.createElement("label");
  const input = Object.assign(document.createElement("input"), { type: "radio", name: "unit", value: letter });
  input.setAttribute("aria-label", name);
  label.title = name;
  label.append(input, shown);
  label.addEventListener("pointerdown", (event) => {
    if (event.button !== 0) return;
    input.checked = true;
    if (!letter) return;
    // Else the browser selects text on the way, and takes the next press for a drag of its own.
    event.preventDefault();
    follow(event, letter, squareSize(), { dropped: (square) => square && dropped(letter, square) });
  });
  return label;
}
