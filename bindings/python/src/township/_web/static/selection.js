/** What is selected in the drawing: a line, a lot, an aliquot part, land, or a tract. It is shown above the drawing. */

import { figureOf, grouped } from "./answer.js";
import { post } from "./api.js";
import { byId, make } from "./dom.js";
import { where } from "./lines.js";
import { aliquotName, SECTION } from "./parts.js";
import { visible } from "./shown.js";
import { basis } from "./store.js";
import { spelled } from "./wording.js";

/** The most things at a place that can be picked. */
const HERE_MOST = 6;
let acts = {};
let here = [];
let current = null;
/** How often something was selected, so that a late answer is not shown for something else. */
let picks = 0;

/**
 * Prepares the place of the selection. `use(words)` adds land to the description, `section(number)` shows a section
 * alone, and `line(index)` opens the figures of a section line. `picked(thing)` is called for what is selected.
 */
export function prepare(given) {
  acts = given;
  byId("selected").addEventListener("keydown", (event) => {
    if (event.key !== "Escape") return;
    clear();
    document.querySelector('#drawing [tabindex="0"]')?.focus();
  });
}

/** Selects the first of the things at a place, of which the others can be picked instead. */
export function select(things) {
  here = things.slice(0, HERE_MOST);
  pick(here[0]);
}

/** Selects nothing. */
export function clear() {
  here = [];
  current = null;
  picks += 1;
  byId("selected").replaceChildren();
  byId("drawing-help").hidden = false;
  unmark();
}

/** Marks what is selected in a drawing that has just replaced another one. */
export function keepUp() {
  if (current === null) return;
  if (["tract", "shade"].includes(current.kind)) {
    const again = elementOf(current);
    const same = again?.dataset.name === current.name && again?.dataset.label === current.label;
    if (!same) return clear();
  }
  mark();
}

/** Returns the name of a thing. */
export function nameOf(thing) {
  if (thing.kind === "line") return `Line ${thing.value}: ${where(thing.value)}`;
  if (thing.kind === "tract") return `Tract ${visible(thing.name)}`;
  if (thing.kind === "shade") return visible(thing.label);
  if (thing.kind === "lot") return `Section ${thing.value.replace(".", ", lot ")}`;
  return thing.size === SECTION ? `Section ${thing.section}` : `${aliquotName(thing)} of section ${thing.section}`;
}

/** Returns the name of a thing with its acreage, if it is known. */
export function labelOf(thing) {
  return thing.acres === undefined ? nameOf(thing) : `${nameOf(thing)}: ${grouped(thing.acres)} acres`;
}

function pick(thing) {
  current = thing;
  picks += 1;
  byId("drawing-help").hidden = true;
  show();
  mark();
  acts.picked(thing);
  if (thing.kind === "part") learn(thing, picks);
}

/** Shows what is selected, what can be done with it, and what else is at its place. */
function show() {
  const words = [make("strong", {}, ...spelled(labelOf(current)))];
  const land = current.words ?? current.canonical;
  if (land) words.push(" ", make("span", {}, ...spelled(land)));
  const others = here.filter((each) => each !== current).map((each) => {
    return button(each.kind === "line" ? `Line ${each.value}` : nameOf(each), () => pick(each));
  });
  const at = others.length === 0 ? [] : [make("div", { class: "row" }, "Also here: ", ...others)];
  byId("selected").replaceChildren(make("p", {}, ...words), make("div", { class: "row" }, ...actions()), ...at);
}

function actions() {
  const section = current.section ?? current.value?.split?.(".")[0];
  const found = [];
  if (current.description !== undefined) {
    found.push(button("Add to the description", () => acts.use(current.description)));
    found.push(button(`Section ${section} alone`, () => acts.section(String(section))));
  }
  if (current.kind === "line") found.push(button("Edit its distances", () => acts.line(current.value)));
  return [...found, button("Clear", clear)];
}

function button(words, act) {
  const made = make("button", { type: "button" }, ...spelled(words));
  made.addEventListener("click", act);
  return made;
}

/** Asks for the acreage of a part, and shows it. */
async function learn(part, pickedAs) {
  try {
    const answer = await post("land", { ...basis(), description: part.description });
    if (pickedAs !== picks || answer.acres === undefined) return;
    part.canonical = answer.canonical.trim().replace(/^.*\n/, "");
    byId("selected").querySelector("p").replaceChildren(
      make("strong", {}, ...spelled(`${nameOf(part)}: ${figureOf(answer.acres)}`)),
      " ",
      make("span", {}, ...spelled(part.canonical)),
    );
  } catch {
    // The page says elsewhere that the server does not answer.
  }
}

/** Returns the element of a thing in the drawing. */
function elementOf(thing) {
  const selectors = {
    line: `.targets [data-line="${thing.value}"]`,
    lot: `.targets [data-lot="${thing.value}"]`,
    tract: `.outlines [data-tract="${thing.value}"]`,
    shade: `.land[data-shade="${thing.value}"]`,
    part: `.targets [data-section="${thing.section}"]`,
  };
  return document.querySelector(`#drawing ${selectors[thing.kind]}`);
}

function unmark() {
  for (const each of document.querySelectorAll("#drawing .selection")) each.remove();
  for (const each of document.querySelectorAll("#drawing .chosen")) each.classList.remove("chosen");
}

/** Marks what is selected. */
function mark() {
  unmark();
  const element = elementOf(current);
  if (element === null) return;
  if (current.kind === "line" || current.kind === "shade") return element.classList.add("chosen");
  const copy = element.cloneNode();
  for (const name of [...copy.getAttributeNames()]) if (!["x", "y", "width", "height", "d"].includes(name)) copy.removeAttribute(name);
  copy.setAttribute("class", "selection");
  if (current.kind === "part") {
    copy.setAttribute("x", String(element.x.baseVal.value + current.x));
    copy.setAttribute("y", String(element.y.baseVal.value + current.y));
    copy.setAttribute("width", String(current.size));
    copy.setAttribute("height", String(current.size));
  }
  element.parentElement.append(copy);
}
