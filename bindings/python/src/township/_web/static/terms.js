/** What the figures are called, and what each means, in a sentence. */

import { make } from "./dom.js";

const MEANINGS = {
  "Exact account": "The area computed from the section lines, without rounding until the total is rounded once.",
  "Plat account": "Each whole lot counts at the acreage printed on the plat, which is rounded for each lot.",
  "Lot table": "Each lot counts at its returned acreage: the acreage that the approved plat gives for it.",
  "Exact area": "The area as a fraction of acres, before it is rounded to hundredths.",
  Canonical: "The same land in one standard spelling: two descriptions of the same land have the same one.",
};

/** Returns the name of a figure, which says what it means when it is opened. */
export function term(name) {
  const meaning = MEANINGS[name];
  if (meaning === undefined) return name;
  return make("details", { class: "term" }, make("summary", {}, name), make("p", {}, meaning));
}

/** Returns all names of figures with what they mean. */
export function terms() {
  return Object.entries(MEANINGS).flatMap(([name, meaning]) => [make("dt", {}, name), make("dd", {}, meaning)]);
}
