/** Answers as elements: acreage, words, refusals, and notes. */

import { make } from "./dom.js";
import { explained } from "./explained.js";
import { term } from "./terms.js";
import { spelled } from "./wording.js";

/** Returns an acreage with commas. */
export function grouped(acres) {
  const [whole, decimals] = acres.split(".");
  return `${whole.replace(/\B(?=(\d{3})+$)/g, ",")}.${decimals}`;
}

/** The kinds of acreage, with their names. The first that there is is the figure. */
const KINDS = [
  ["lots", "Lot table"],
  ["exact", "Exact account"],
  ["plat", "Plat account"],
];

/** What is said of an acreage by a lot table that does not tell it. */
const LACKING = "lacks a lot";

/** Returns the kinds of an acreage, each as its name and its text. The first one is the figure. */
function kindsOf(acres) {
  return KINDS.filter(([kind]) => kind in acres).map(([kind, name]) => [name, shownAcres(acres[kind])]);
}

/** Returns an acreage with commas, or that the lot table does not tell it. */
function shownAcres(acres) {
  return acres === null ? LACKING : grouped(acres);
}

/** Returns the figure of an acreage, such as `160.00 acres`. */
export function figureOf(acres) {
  const [, text] = kindsOf(acres)[0];
  return text === LACKING ? "no acreage, since the lot table lacks a lot of this land" : `${text} acres`;
}

/** Returns the acreage of land, of which one kind is the figure, and its canonical description. */
export function landAnswer({ acres, canonical, area }) {
  const [[name], ...others] = kindsOf(acres);
  const exact = area?.lots === undefined ? area?.exact : area.lots;
  const list = make(
    "dl",
    {},
    ...others.flatMap(([other, text]) => row(other, `${text} acres`)),
    ...(area === undefined || exact === null ? [] : row("Exact area", `${exact} acres`)),
    ...row("Canonical", canonical.trim()),
  );
  const figure = figureOf(acres);
  const words = make("p", { class: "acres" }, `${figure[0].toUpperCase()}${figure.slice(1)}`);
  return [make("div", { class: "figure-of" }, words, term(name)), list];
}

/** Returns the texts of an acreage, of which the first is the figure. */
export function figuresOf(acres) {
  return kindsOf(acres).map(([, text]) => text);
}

/** Returns the names of the columns for an acreage. */
export function figureNames(acres) {
  const [[first], ...others] = kindsOf(acres).map(([name]) => [name]);
  return [first === "Lot table" ? "Acres by the lot table" : "Acres, exact account", ...others.map(([name]) => name)];
}

/** Returns cells with these figures. */
export function figureCells(acres) {
  return figuresOf(acres).map((each) => make("td", { class: "figure" }, each));
}

/** Returns a refusal with its explanation, and with a button that calls `readings()`, if it is given. */
export function refusalAnswer(refused, what = "", readings = undefined) {
  const explanation = refused.explanation.replace(/^township: /, "").trimEnd();
  return make(
    "div",
    { class: "refused" },
    make("strong", {}, `${what}Refused ${refused.number}: `),
    ...spelled(refused.sentence),
    explained(explanation),
    readings && readingsButton(readings),
  );
}

/**
 * Returns a note on a place that can be read in two ways. `of` names the text that it is about, such as a tract;
 * `readings()`, if it is given, is called by a button of the note.
 */
export function noteAnswer(note, of = "", readings = undefined) {
  const button = readings && readingsButton(readings);
  return make("p", { class: "note" }, make("strong", {}, `${of}Note: `), ...spelled(note.sentence), button && " ", button);
}

/** Returns a button that calls a function, which shows the readings of a text. */
export function readingsButton(call = () => {}) {
  const button = make("button", { type: "button", class: "to-readings" }, "Show the readings");
  button.addEventListener("click", call);
  return button;
}

/** Returns a text in which places are marked. Their `start` and `end` are in Unicode code points. */
export function markedText(text, places) {
  const points = [...text];
  const parts = [];
  let from = 0;
  for (const { start, end } of places) {
    if (start < from) continue;
    parts.push(points.slice(from, start).join(""), make("mark", {}, points.slice(start, end).join("")));
    from = end;
  }
  return make("span", { class: "doubtful" }, ...parts, points.slice(from).join(""));
}

/** Returns what is said if there is no answer at all. */
export function failure(error) {
  return make("p", { class: "refused" }, `No answer: ${error.message}`);
}

function row(name, value) {
  return [make("dt", {}, term(name)), make("dd", {}, ...spelled(value))];
}
