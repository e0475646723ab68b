/** The panel in which two descriptions are compared. */

import { ask } from "./api.js";
import { failure, figureCells, figureNames, noteAnswer, refusalAnswer } from "./answer.js";
import { byId, make } from "./dom.js";
import { follow, mark } from "./marks.js";
import * as readings from "./readings.js";
import { basis, kept } from "./store.js";
import { spelled } from "./wording.js";

const NAMES = ["first", "second"];
const WORDS = {
  equal: "Both descriptions are of the same land.",
  contains: "The first contains the second, and more.",
  "is contained": "The second contains the first, and more.",
  overlaps: "The two overlap.",
  disjoint: "The two have no land in common.",
};
const KINDS = [
  ["both", "In both"],
  ["first_only", "Only in the first (the first, less and except the second)"],
  ["second_only", "Only in the second (the second, less and except the first)"],
];

let replace = () => {};

/**
 * Prepares the panel. `onChange(name, text)` is called when a description is typed, and `onReplace(name, text)` when a
 * reading is picked.
 */
export function prepare(onChange, onReplace) {
  replace = onReplace;
  for (const name of NAMES) {
    follow(byId(name));
    byId(name).addEventListener("input", () => onChange(name, byId(name).value));
  }
}

/** Shows both descriptions. */
export function fill() {
  for (const name of NAMES) if (byId(name).value !== kept[name]) byId(name).value = kept[name];
}

/** Asks for the comparison, and shows it. Returns the answer, or null if it is outdated. */
export async function refresh(request) {
  const place = byId("compare-answer");
  const [first, second] = NAMES.map((name) => kept[name]);
  if (first.trim() === "" || second.trim() === "") return showNone("Write two descriptions to compare their land.");
  try {
    const answer = await ask("compare", { ...basis(), first, second, ...request });
    if (answer === null) return null;
    const { refused } = answer;
    for (const name of NAMES) {
      const found = refused?.[name];
      const notes = (answer.notes?.[name] ?? []).map((note) => ({ ...note, kind: "note" }));
      mark(byId(name), found === undefined ? notes : [{ ...found, kind: "wrong" }]);
    }
    readings.clear(byId("compare-readings"));
    place.replaceChildren(...(refused === undefined ? [...comparison(answer), ...notesOf(answer)] : refusals(refused)));
    return answer;
  } catch (error) {
    return showNone(failure(error));
  }
}

/** Shows why there is no answer, and nothing of one that was shown before. */
export function showNone(reason) {
  byId("compare-answer").replaceChildren(reason);
  readings.clear(byId("compare-readings"));
  NAMES.forEach((name) => mark(byId(name), []));
}

function refusals(refused) {
  if (refused.number !== undefined) return [refusalAnswer(refused)];
  return Object.entries(refused).map(([name, each]) => {
    return refusalAnswer(each, `The ${name} description: `, () => showReadings(name));
  });
}

/** Shows the readings of one of the descriptions, of which one can be picked. */
function showReadings(name, added) {
  readings.suggest(byId("compare-readings"), kept[name], {
    pick: (text) => pick(name, text),
    again: (phrase) => showReadings(name, phrase),
    of: `The ${name} description. `,
    added,
  });
}

/** Returns the notes on both descriptions, from each of which its readings can be shown and picked. */
function notesOf({ notes }) {
  return NAMES.flatMap((name) => {
    return notes[name].map((note) => noteAnswer(note, `The ${name} description. `, () => showReadings(name)));
  });
}

/** Takes a reading as one of the descriptions. */
function pick(name, text) {
  replace(name, text);
  byId(name).focus();
}

function comparison(answer) {
  let hatching = 0;
  const rows = KINDS.map(([name, words]) => {
    const { acres, canonical } = answer[name];
    const shown = canonical !== "";
    const key = make("span", { class: shown ? `key key-${hatching}` : "key" });
    if (shown) hatching += 1;
    const land = shown ? canonical.trim().replace(/^.*\n/, "") : "none";
    return make(
      "tr",
      {},
      make("th", { scope: "row" }, key, ` ${words}`),
      ...figureCells(acres),
      make("td", {}, ...spelled(land)),
    );
  });
  const figures = figureNames(answer.both.acres);
  const head = (words, attributes = {}) => make("th", { scope: "col", ...attributes }, words);
  const heads = [head("Land"), ...figures.map((each) => head(each, { class: "figure" })), head("Canonical")];
  const table = make("table", {}, make("thead", {}, make("tr", {}, ...heads)), make("tbody", {}, ...rows));
  const region = { class: "scroll", role: "region", "aria-label": "Comparison", tabindex: "0" };
  return [make("p", { class: "comparison" }, WORDS[answer.comparison]), make("div", region, table)];
}
