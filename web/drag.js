// Units that are dragged, by mouse, pen or finger.
import { drawn, unitDrawn } from "./units.js";

const FAR_ENOUGH = 5;
// Under a finger the unit is drawn larger, and above the finger, which covers the square.
const FINGER = { size: 1.5, above: 1.1 };
const HAND = { size: 1, above: 0.5 };

/** The square at this point of the window, or null outside the board. */
function squareAt(x, y) {
  return document.elementFromPoint(x, y)?.closest?.("[data-square]") ?? null;
}

function ghost(letter, size) {
  const picture = drawn("svg", { class: "ghost", viewBox: "0 0 100 100", width: size, height: size, "aria-hidden": "true" }, unitDrawn(letter));
  document.body.append(picture);
  return picture;
}

function markTarget(square) {
  for (const old of document.querySelectorAll("[data-square].target")) old.classList.remove("target");
  square?.classList.add("target");
}

/** Follows the pointer until it is let go, and tells of the square there; of a press without a drag it tells by `pressed`. */
export function follow(event, letter, squareSize, { dropped, pressed }) {
  const [x, y, id] = [event.clientX, event.clientY, event.pointerId];
  const held = event.pointerType === "touch" ? FINGER : HAND;
  const size = squareSize * held.size;
  let picture = null;
  const move = (now) => {
    if (now.pointerId !== id) return;
    if (!picture && letter && Math.hypot(now.clientX - x, now.clientY - y) >= FAR_ENOUGH) picture = ghost(letter, size);
    if (!picture) return;
    picture.style.transform = `translate(${now.clientX - size / 2}px, ${now.clientY - size * held.above}px)`;
    markTarget(squareAt(now.clientX, now.clientY));
  };
  const end = (now) => {
    if (now.pointerId !== id) return;
    for (const [name, does] of [["pointermove", move], ["pointerup", end], ["pointercancel", end]]) removeEventListener(name, does);
    picture?.remove();
    markTarget(null);
    if (now.type === "pointercancel") return;
    if (picture) dropped(squareAt(now.clientX, now.clientY)?.dataset.square ?? null);
    else pressed?.();
  };
  for (const [name, does] of [["pointermove", move], ["pointerup", end], ["pointercancel", end]]) addEventListener(name, does);
}
