/** Words on land, which break only between their parts. */

import { make } from "./dom.js";

const FRACTION = /((?:[NS][EW]?|[EW])1\/[24])/;
/** The elements of the fractions so far. There are 18 of them, and a list of tracts has thousands. */
const made = new Map();

/** Returns a text as nodes, so that a line can break between two fractions of an aliquot part, and not within one. */
export function spelled(text) {
  const nodes = [];
  // Every other piece is a fraction. What is after the last one, such as a period, stays on its line.
  text.split(FRACTION).forEach((piece, place, pieces) => {
    if (place % 2 === 1) nodes.push(fraction(piece));
    else if (piece !== "") nodes.push(piece);
    else if (place > 0 && place < pieces.length - 1) nodes.push(document.createElement("wbr"));
  });
  return nodes;
}

function fraction(text) {
  if (!made.has(text)) made.set(text, make("span", { class: "aliquot" }, text));
  return made.get(text).cloneNode(true);
}
