/** The choice with which an empty case starts: what its acreage is based on, or an example. No plat is made up. */

import { post } from "./api.js";
import { openNew } from "./cases.js";
import { byId, make, say } from "./dom.js";
import { EXAMPLES } from "./examples.js";
import { onOpen } from "./files.js";

/**
 * Prepares the choice. `onChoose(name, text)` is called with field notes (`notes`) or a lot table (`lots`),
 * `onPaste(name)` if they are to be pasted, and `onBegin(designation)` if a lot table of a township is to be begun.
 */
export function prepare(onChoose, onPaste, onBegin) {
  for (const name of ["notes", "lots"]) {
    onOpen(`start-${name}`, (text) => onChoose(name, text));
    byId(`paste-${name}`).addEventListener("click", () => onPaste(name));
  }
  byId("start-sample").addEventListener("click", () => attempt(async () => onChoose("notes", await sample())));
  byId("start-nominal").addEventListener("submit", (event) => {
    event.preventDefault();
    attempt(async () => onChoose("notes", await nominal(byId("start-township").value)));
  });
  byId("start-table").addEventListener("submit", (event) => {
    event.preventDefault();
    attempt(async () => onBegin(designationIn(await nominal(byId("table-township").value))));
  });
  byId("examples").replaceChildren(...EXAMPLES.map(item));
}

/** Shows the choice instead of the drawing, or hides it. */
export function show(isShown) {
  byId("start").hidden = !isShown;
  byId("sheet").hidden = isShown;
}

/** Returns an example as a button, and what it shows. */
function item({ title, shows, values }) {
  const button = make("button", { type: "button" }, title);
  const begin = async () => {
    const notes = values.notes ?? (await sample());
    openNew({ ...values, notes, name: `Example: ${title.toLowerCase()}` }, "");
  };
  button.addEventListener("click", () => attempt(begin));
  return make("li", {}, button, ` ${shows}`);
}

/** Returns the field notes of the sample. */
async function sample() {
  const response = await fetch("static/sample.csv");
  if (!response.ok) throw new Error(response.statusText);
  return response.text();
}

/** Returns the field notes of a township whose section lines are all regular. */
async function nominal(township) {
  const { notes } = await post("plat", { township: township.trim() });
  return notes;
}

/** Returns the designation in field notes, as in `["2", "N", "3", "W"]`. */
function designationIn(notes) {
  return notes.split("\n")[1].trim().split(",").slice(1);
}

async function attempt(call) {
  try {
    await call();
  } catch (error) {
    say(`This did not work: ${error.message}`);
  }
}
