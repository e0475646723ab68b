/** Lot tables as texts: their records, and the text of a table in which some are others. */

import { quoted } from "./saved.js";

/** The columns of a table that says where its lots lie. */
export const COLUMNS = ["section", "lot", "acres", "land"];
/** The first field of the record of the township. */
const TOWNSHIP = "T";

/**
 * Returns the heading of a table, the record of its township, and the other records, each with its line and its fields.
 * What is on a line whose quotation marks do not pair is its only field.
 */
export function tableIn(text) {
  const lines = text.replace(/^\ufeff/, "").split("\n").map((line) => line.replace(/\r$/, ""));
  const separator = [",", ";", "\t"].find((each) => (lines.find((line) => line !== "") ?? "").includes(each)) ?? ",";
  const records = lines
    .map((line, place) => ({ line: place + 1, fields: fieldsOf(line, separator) }))
    .filter(({ fields }) => fields.some((field) => field !== ""));
  const [heading = { line: 1, fields: [] }, ...rest] = records;
  const township = rest[0]?.fields[0] === TOWNSHIP ? rest.shift() : { line: heading.line + 1, fields: [] };
  return { heading, township, records: rest };
}

/** Returns the text of a table, and gives each record the line that it has there. */
export function textOf(table) {
  const { heading, township, records } = table;
  const all = [heading, ...(township.fields.length > 0 ? [township] : []), ...records];
  all.forEach((record, place) => (record.line = place + 1));
  const widths = new Map(records.map((record) => [record, heading.fields.length]));
  return all.map((record) => `${padded(record.fields, widths.get(record)).map(quoted).join(",")}\n`).join("");
}

/** Returns fields with empty ones after them, up to a number, unless there are none. */
function padded(fields, width = 0) {
  return fields.length === 0 ? fields : [...fields, ...Array(Math.max(0, width - fields.length)).fill("")];
}

/** Returns the text of a table of a township, as in `["2", "N", "3", "W"]`, that says where its lots lie, and has none. */
export function newTable(designation) {
  return textOf({ heading: { fields: COLUMNS }, township: { fields: [TOWNSHIP, ...designation] }, records: [] });
}

/** Returns the record of a township with these parts, and with a date, if there is one. */
export function townshipFields(designation, date) {
  return [TOWNSHIP, ...designation, ...(date === "" ? [] : [date])];
}

/** Returns whether a table has a column for where its lots lie. */
export const hasLand = ({ heading }) => heading.fields[COLUMNS.length - 1] === COLUMNS.at(-1);

/** Returns the fields on a line, without the empty ones at its end that a spreadsheet adds. */
function fieldsOf(line, separator) {
  const fields = [];
  const field = new RegExp(`(?:"((?:[^"]|"")*)"|([^"${separator}]*))(${separator}|$)`, "y");
  let end;
  do {
    const found = field.exec(line);
    if (found === null) return [line];
    fields.push(found[1] === undefined ? found[2] : found[1].replaceAll('""', '"'));
    end = found[3] === "";
  } while (!end);
  while (fields.length > 0 && fields.at(-1) === "") fields.pop();
  return fields;
}
