/** Records as CSV, to be saved and to be opened by a spreadsheet. */

/** What a spreadsheet takes for the beginning of a formula. */
const FORMULA = /^[=+\-@\t\r\n]/;

/** Returns a record as CSV. An apostrophe before what a spreadsheet would run makes it a text there. */
export function written(fields) {
  return fields.map((field) => quoted(FORMULA.test(field) ? `'${field}` : field)).join(",");
}

/** Returns a field as it is written in CSV, whichever separator is between fields. */
export function quoted(field) {
  return /[",;\t\r\n]/.test(field) ? `"${field.replaceAll('"', '""')}"` : field;
}
