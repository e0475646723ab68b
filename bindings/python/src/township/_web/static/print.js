/** The printed sheet: the drawing as the server made it, its date and basis, the tracts, and the notes. */

import { byId, make } from "./dom.js";
import { sheet } from "./drawing.js";

const SAID = ".answer .note, .answer .refused, td .note, tr.wrong";

/** Fills the sheet whenever the page is printed. `panel()` returns the name of the open panel. */
export function prepare(panel) {
  addEventListener("beforeprint", () => fill(panel()));
}

function fill(panel) {
  const drawn = sheet();
  const open = byId(`panel-${panel}`);
  const table = tableIn(open);
  // The table of a panel has the rows that are wrong.
  const said = [...open.querySelectorAll(SAID)].filter((each) => table === null || !each.matches("tr"));
  const notes = said.flatMap(paragraphsOf);
  byId("printed").replaceChildren(
    make("p", { class: "dated" }, `Printed ${today()}. ${drawn?.dataset.basis ?? ""}`.trim()),
    ...(drawn === null ? [] : [drawn]),
    ...(table === null ? [] : [make("h2", {}, panel === "tracts" ? "Tracts" : "Comparison"), table]),
    ...(notes.length === 0 ? [] : [make("h2", {}, "Notes"), ...notes]),
  );
}

/** Returns a note as paragraphs: each of its items is one, and an excerpt keeps its lines. Paper has no buttons. */
function paragraphsOf(note) {
  if (note.matches("tr")) return [make("p", {}, [...note.cells].map((each) => each.textContent).join(" ").trim())];
  const copy = note.cloneNode(true);
  for (const each of copy.querySelectorAll("button, summary")) each.remove();
  const inside = [...copy.querySelectorAll("li, p, pre")];
  for (const each of inside) each.remove();
  const shown = [copy, ...inside].filter((each) => each.textContent.trim() !== "");
  return shown.map((each) => make(each.matches("pre") ? "pre" : "p", {}, each.textContent.trim()));
}

/** Returns the table of a panel for paper, without its buttons, or null if it has none that is shown. */
function tableIn(panel) {
  const found = panel.querySelector("#tracts-table:not([hidden]), #compare-answer table");
  if (found === null) return null;
  const copy = found.cloneNode(true);
  copy.removeAttribute("id");
  copy.removeAttribute("class");
  for (const each of copy.querySelectorAll(".note, .to-readings")) each.remove();
  for (const each of copy.querySelectorAll("[aria-colspan]")) each.colSpan = Number(each.getAttribute("aria-colspan"));
  for (const each of copy.querySelectorAll("button")) each.replaceWith(each.textContent);
  return copy;
}

/** Returns the day and the time. */
function today() {
  return new Intl.DateTimeFormat("en-US", { dateStyle: "long", timeStyle: "short" }).format(new Date());
}
