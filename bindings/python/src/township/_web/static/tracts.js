/** The panel of a list of tracts. */

import { ask } from "./api.js";
import {
  failure,
  figureCells,
  figureNames,
  figureOf,
  figuresOf,
  markedText,
  noteAnswer,
  readingsButton,
  refusalAnswer,
} from "./answer.js";
import { byId, make, save, say } from "./dom.js";
import { onOpen } from "./files.js";
import * as readings from "./readings.js";
import { quoted, written } from "./saved.js";
import { visible } from "./shown.js";
import { basis, kept } from "./store.js";
import { spelled } from "./wording.js";

const ADDED = ["acres", "acres_exact", "acres_plat", "refusal", "at", "sentence", "note", "canonical"];
const HEADING = ["name", "description", ...ADDED];
const PAIRS_SHOWN = 50;
/** The tracts that are shown, as the server answered them, and the request that it answered. */
let answered = [];
let asked = "";
let selected = null;
/** The rows of the table, in order, each with the text of all that it was made from. */
let shown = [];
let replace = () => {};

/**
 * Prepares the panel. `onChange(name, text)` is called when the list is typed, `onReplace(name, text)` when one is
 * opened or a reading is picked, and `onSelect()` when a tract is picked.
 */
export function prepare(onChange, onReplace, onSelect) {
  const area = byId("tracts");
  replace = onReplace;
  area.addEventListener("input", () => {
    selected = null;
    onChange("tracts", area.value);
  });
  onOpen("open-tracts", (text) => {
    selected = null;
    onReplace("tracts", text);
  });
  byId("save-tracts").addEventListener("click", () => {
    if (isCurrent()) save("tracts.csv", answersAsCsv(), "text/csv");
    else say("The answers are on their way. Save them when they are shown.");
  });
  byId("tracts-table").tBodies[0].addEventListener("click", (event) => {
    const { tract } = event.target.dataset;
    if (event.target.matches(".to-readings")) showReadings(event.target.closest("tr"));
    if (tract === undefined) return;
    selected = selected === Number(tract) ? null : Number(tract);
    onSelect();
  });
}

/** Shows the list. */
export function fill() {
  if (byId("tracts").value !== kept.tracts) byId("tracts").value = kept.tracts;
}

/** Asks for the answers on all tracts, and shows them. Returns the answer, or null if it is outdated. */
export async function refresh(request) {
  const place = byId("tracts-answer");
  if (kept.tracts.trim() === "") return showNone("Paste or open a list to see its tracts.");
  const wanted = wants();
  try {
    const answer = await ask("report", { ...wanted, ...request, ...(selected === null ? {} : { selected }) });
    if (answer === null) return null;
    if (answer.tracts === undefined) {
      showNone(refusalAnswer(answer.refused));
      return answer;
    }
    answered = answer.tracts;
    asked = JSON.stringify(wanted);
    readings.clear(byId("tracts-readings"));
    place.replaceChildren(...summary(answer));
    showTable(answer);
    return answer;
  } catch (error) {
    return showNone(failure(error));
  }
}

/** Returns what the answers depend on. */
function wants() {
  return { ...basis(), list: kept.tracts };
}

/** Returns whether the answers are those on the list and the plat as they are now. */
function isCurrent() {
  return asked === JSON.stringify(wants());
}

/** Shows the readings of the tract in a row of the table, of which one can be picked. */
async function showReadings(row, added) {
  const index = shown.findIndex((each) => each.row === row);
  if (index < 0) return;
  const { name, description } = answered[index];
  const place = byId("tracts-readings");
  const calls = { pick: (text) => pick(index, text), again: (phrase) => showReadings(row, phrase) };
  await readings.suggest(place, description, { ...calls, of: `Tract ${visible(name)}. `, added });
  place.scrollIntoView({ block: "nearest" });
}

/** Takes a reading as the description of a tract: in its place in the list, which stays as it is otherwise. */
function pick(index, description) {
  const { name, start, end } = answered[index];
  if (!isCurrent()) return;
  const points = [...kept.tracts];
  const before = points.slice(0, start).join("");
  const field = quoted(description);
  replace("tracts", `${before}${field}${points.slice(end).join("")}`);
  say(`The description of tract ${visible(name)} is replaced in the list.`);
  byId("tracts").focus();
  byId("tracts").setSelectionRange(before.length, before.length + field.length);
}

/** Shows why there are no answers, and none that are older. */
export function showNone(reason) {
  answered = [];
  asked = JSON.stringify(wants());
  byId("tracts-answer").replaceChildren(reason);
  byId("tracts-table").hidden = true;
  readings.clear(byId("tracts-readings"));
}

function summary({ tracts, total, remaining, refused, overlaps, overlapping }) {
  const all = figureOf(total.acres);
  const rest = figureOf(remaining.acres);
  const left = refused > 0 ? ` Not counted: ${refused} refused.` : "";
  const figures = make("p", {}, `${counted(tracts.length, "tract")}: ${all} in all, ${rest} remaining.${left}`);
  if (overlapping === 0) return [figures];
  const items = overlaps.map(({ first, second, acres, canonical }) => {
    const names = [first, second].map((index) => visible(tracts[index].name)).join(" and ");
    const land = canonical === null ? "" : `, ${withoutHeading(canonical)}`;
    return make("li", {}, ...spelled(`${names}: ${figureOf(acres)}${land}`));
  });
  const list = make("ul", {}, ...items.slice(0, PAIRS_SHOWN));
  const others = items.length <= PAIRS_SHOWN ? null : make(
    "details",
    {},
    make("summary", {}, `${items.length - PAIRS_SHOWN} more`),
    make("ul", {}, ...items.slice(PAIRS_SHOWN)),
  );
  const unseen = overlapping - items.length;
  const unlisted = unseen > 0 ? make("p", {}, `${counted(unseen, "more pair")} not listed.`) : null;
  const heading = make("strong", {}, "Overlapping tracts (shared land is counted once):");
  return [figures, make("div", { class: "note" }, heading, list, others, unlisted)];
}

/** Returns a number of things in words, such as `2 tracts`. */
function counted(number, thing) {
  return `${number} ${thing}${number === 1 ? "" : "s"}`;
}

/** Shows a row for each tract. A row that stays as it was is kept, since a long list takes a while to lay out. */
function showTable(answer) {
  const focused = document.activeElement?.dataset?.tract;
  const names = figureNames(answer.remaining.acres);
  showHeads(names);
  const blank = {
    accepted: rowOf({}, figureCells(answer.remaining.acres)),
    wrong: rowOf({ "aria-colspan": String(names.length + 1) }),
  };
  blank.wrong.className = "wrong";
  const before = shown;
  shown = answer.tracts.map((tract, index) => {
    const entry = { tract, index, names, isSelected: index === selected };
    const contents = JSON.stringify(entry);
    return before[index]?.contents === contents ? before[index] : { contents, row: filledRow(blank, entry) };
  });
  const body = byId("tracts-table").tBodies[0];
  shown.forEach(({ row }, index) => {
    const old = before[index]?.row;
    if (old === undefined) body.append(row);
    else if (old !== row) old.replaceWith(row);
  });
  before.slice(shown.length).forEach(({ row }) => row.remove());
  byId("tracts-table").hidden = false;
  if (focused !== undefined) document.querySelector(`button[data-tract="${focused}"]`)?.focus();
}

/** Shows the names of the columns with figures, and makes room for so many. */
function showHeads(names) {
  const heads = names.map((name) => make("th", { scope: "col", role: "columnheader", class: "figure" }, name));
  const table = byId("tracts-table");
  const [first, ...others] = table.tHead.rows[0].cells;
  table.tHead.rows[0].replaceChildren(first, ...heads, others.at(-1));
  for (const number of [1, 2, 3]) table.classList.toggle(`figures-${number}`, names.length === number);
}

/** Returns the row of a tract, filled in over a copy of a blank one. */
function filledRow(blank, { tract, index, isSelected }) {
  const isAccepted = tract.acres !== undefined;
  const row = (isAccepted ? blank.accepted : blank.wrong).cloneNode(true);
  const pick = row.firstChild.firstChild;
  pick.textContent = visible(tract.name);
  pick.dataset.tract = String(index);
  pick.setAttribute("aria-pressed", String(isSelected));
  if (isAccepted) {
    figuresOf(tract.acres).forEach((figure, place) => (row.children[place + 1].textContent = figure));
    if (isSelected) row.className = "chosen";
  }
  const words = isAccepted ? withoutHeading(tract.canonical) : reasonOf(tract);
  row.lastChild.replaceChildren(...spelled(tract.overlaps ? `${words} (overlaps)` : words));
  if (tract.notes?.length > 0) row.lastChild.append(...doubtsOf(tract));
  // The table calls for the readings.
  if (tract.refused !== undefined) row.lastChild.append(" ", readingsButton());
  return row;
}

/** Returns the notes on a tract, and its description with each doubtful place marked. */
function doubtsOf({ name, description, notes }) {
  const readingsOf = (place) => (place === 0 ? () => {} : undefined);
  const items = notes.map((note, place) => noteAnswer(note, `Tract ${visible(name)}. `, readingsOf(place)));
  return [make("p", {}, markedText(description, notes)), ...items];
}

/** Returns a row that is copied for each tract: its button, its figures, and its words, in a cell with attributes. */
function rowOf(attributes, figures = []) {
  const pick = make("th", { scope: "row", role: "rowheader" }, make("button", { type: "button" }));
  for (const cell of figures) cell.setAttribute("role", "cell");
  return make("tr", { role: "row" }, pick, ...figures, make("td", { role: "cell", ...attributes }));
}

/** Returns a canonical description without its first line, which is the township. */
function withoutHeading(canonical) {
  return canonical.trim().replace(/^.*\n/, "");
}

/** Returns why a tract has no land: the fault of its record, or the refusal of its description. */
function reasonOf({ fault, refused }) {
  return fault ?? `refused ${refused.number} at ${refused.at}: ${refused.sentence}`;
}

function answersAsCsv() {
  const records = answered.map((answer) => [answer.name, answer.description, ...addedTo(answer)]);
  return `${[HEADING, ...records].map(written).join("\n")}\n`;
}

/** Returns the fields that are added to a tract. */
function addedTo({ acres, canonical, fault, notes, refused }) {
  if (fault !== undefined) return ["", "", "", "", "", fault, "", ""];
  if (refused !== undefined) return ["", "", "", String(refused.number), String(refused.at), refused.sentence, "", ""];
  const said = notes.map((note) => note.sentence).join("; ");
  const figure = acres.lots === undefined ? acres.exact : acres.lots ?? "";
  return [figure, acres.exact ?? "", acres.plat ?? "", "", "", "", said, canonical.trim().replaceAll("\n", " ")];
}
