/** The rows of a lot table, in which each field can be corrected: a row for each record, and inputs for its township. */

import { post } from "./api.js";
import { byId, make, save, say } from "./dom.js";
import { COLUMNS, hasLand, newTable, tableIn, textOf, townshipFields } from "./lottable.js";

const DESIGNATION = ["table-number", "table-north-south", "table-range", "table-east-west"];
const DATE = "table-date";
/** What the fields of a record are called. */
const NAMES = ["section", "lot", "acres", "land, in aliquot parts"];
let acts = {};
let shown = null;
let table = tableIn("");

/**
 * Prepares the rows. `typed(text)` is called with a table in which something was typed, and `replaced(text)` with one to
 * which a record was added, or from which one was removed.
 */
export function prepare(given) {
  acts = given;
  const body = byId("records").tBodies[0];
  body.addEventListener("input", (event) => {
    const { record, column } = event.target.dataset;
    put(table.records[record].fields, Number(column), event.target.value.trim());
    typed();
  });
  body.addEventListener("click", (event) => {
    const { record } = event.target.dataset;
    if (event.target.matches("button") && record !== undefined) remove(Number(record));
  });
  for (const id of [...DESIGNATION, DATE]) {
    byId(id).addEventListener("input", () => {
      const designation = DESIGNATION.map((each) => byId(each).value.trim());
      table.township.fields = townshipFields(designation, byId(DATE).value.trim());
      typed();
    });
  }
  byId("add-record").addEventListener("click", add);
  byId("save-lots").addEventListener("click", () => saveTable().catch((error) => say(error.message)));
}

/** Begins a table of a township, as in `["2", "N", "3", "W"]`. */
export function begin(designation) {
  acts.replaced(newTable(designation));
  open();
  byId("add-record").focus();
}

/** Opens the rows. */
export function open() {
  byId("lot-records").open = true;
}

/** Shows the records of a table, unless they are shown; what is being typed stays as it is. */
export function show(text) {
  byId("lot-records").hidden = text.trim() === "";
  if (text === shown) return;
  shown = text;
  table = tableIn(text);
  const [, ...township] = table.township.fields;
  [...DESIGNATION, DATE].forEach((id, place) => fill(byId(id), township[place] ?? ""));
  byId("records").classList.toggle("placed", hasLand(table));
  const body = byId("records").tBodies[0];
  const columns = hasLand(table) ? COLUMNS.length : COLUMNS.length - 1;
  if (body.rows.length !== table.records.length || body.dataset.columns !== String(columns)) {
    body.dataset.columns = String(columns);
    body.replaceChildren(...table.records.map((_, place) => rowOf(place, columns)));
  }
  table.records.forEach(({ fields }, place) => {
    for (const input of body.rows[place].querySelectorAll("input")) fill(input, fields[input.dataset.column] ?? "");
  });
}

/** Marks the row for which a table is refused, or none. */
export function mark(refused) {
  for (const row of document.querySelectorAll("#records tr.wrong")) row.classList.remove("wrong");
  for (const input of document.querySelectorAll("#lot-records [aria-invalid]")) input.removeAttribute("aria-invalid");
  if (refused?.of !== "lots") return;
  const place = table.records.findIndex(({ line }) => line === refused.line);
  if (place >= 0) byId("records").tBodies[0].rows[place].classList.add("wrong");
  const wrong = place >= 0 ? inputsOf(place) : refused.line === table.township.line ? [...DESIGNATION, DATE].map(byId) : [];
  for (const input of wrong) input.setAttribute("aria-invalid", "true");
}

function inputsOf(place) {
  return [...byId("records").tBodies[0].rows[place].querySelectorAll("input")];
}

/** Returns the row of a record, whose fields are filled in later. */
function rowOf(record, columns) {
  const cells = NAMES.slice(0, columns).map((name, column) => {
    const label = `Record ${record + 1}: ${name}`;
    const numeric = column < COLUMNS.length - 1 ? { inputmode: column === 2 ? "decimal" : "numeric" } : {};
    const attributes = { "data-record": record, "data-column": column, autocomplete: "off", "aria-label": label };
    return make("td", {}, make("input", { id: `record-${record}-${COLUMNS[column]}`, ...attributes, ...numeric }));
  });
  const label = `Remove record ${record + 1}`;
  const button = make("button", { type: "button", "data-record": record, "aria-label": label }, "Remove");
  return make("tr", {}, ...cells, make("td", {}, button));
}

/** Adds a record in the section of the last one. */
function add() {
  table.records.push({ fields: [table.records.at(-1)?.fields[0] || "1"] });
  acts.replaced(textOf(table));
  const [section, lot] = inputsOf(table.records.length - 1);
  const inside = table.records.length === 1 ? section : lot;
  inside.focus();
  inside.select();
}

function remove(place) {
  table.records.splice(place, 1);
  acts.replaced(textOf(table));
  const { rows } = byId("records").tBodies[0];
  (rows[Math.min(place, rows.length - 1)]?.querySelector("button") ?? byId("add-record")).focus();
}

/** Takes what was typed. The record in which all was deleted stays in its row. */
function typed() {
  shown = textOf(table);
  acts.typed(shown);
}

/** Saves the table, if it is one. */
async function saveTable() {
  const text = shown;
  const { refused } = await post("plat", { lots: text });
  if (refused === undefined) save("lots.csv", text, "text/csv");
  else say(`The lot table is not saved: ${refused.sentence}.`);
}

/** Sets a field, and fills up those before it. */
function put(fields, column, value) {
  while (fields.length < column) fields.push("");
  fields[column] = value;
}

function fill(input, value) {
  if (input !== document.activeElement && input.value !== value) input.value = value;
}
