/** What the user has entered: a case, which is kept in the browser, and which links and files carry. */

import { claimed, stored } from "./cases.js";
import { visible } from "./shown.js";

const LINK_MOST = 8_000;
/** The mark of a file that is a case. */
const KIND = "township case";
/** An empty case. */
const FIRST = {
  name: "",
  notes: "",
  lots: "",
  description: "",
  first: "",
  second: "",
  tracts: "",
  ignored: "",
  panel: "plat",
  view: "",
};

/** What the page shows of a case, which is none of its content. */
const SHOWN = ["panel", "view"];

/** What was opened by a link, if the page was: its values, or why they are not opened. */
export const linked = inLink();

const claim = await claimed(linked.values !== undefined);

/** The values, by their names. A link is a case of its own, beside those that are kept. */
export const kept = { ...FIRST, ...textsIn(linked.values ?? stored(claim) ?? {}) };

/** What was replaced by something other than typing, and what was taken back. */
const undone = { done: [], back: [] };

let isKept = true;
let unkept = () => {};

if (linked.values !== undefined) save();

/** Sets a value, and keeps it. */
export function keep(name, value) {
  kept[name] = value;
  save();
}

/** Replaces a value by something that was not typed, so that it can be taken back. */
export function replace(name, value) {
  if (kept[name] === value) return;
  undone.done.push({ name, value: kept[name] });
  undone.back = [];
  keep(name, value);
}

/** Takes the last replacement back, or makes it again. Returns the name of the value, or undefined if there is none. */
export function takeBack(isAgain = false) {
  const [from, to] = isAgain ? [undone.back, undone.done] : [undone.done, undone.back];
  const last = from.pop();
  if (last === undefined) return undefined;
  to.push({ name: last.name, value: kept[last.name] });
  keep(last.name, last.value);
  return last.name;
}

/** Calls a function with whether the browser keeps the case, now and when that changes. */
export function whenUnkept(call) {
  unkept = call;
  call(isKept);
}

/** Keeps the case, unless there is nothing in it yet. */
function save() {
  const isEmpty = Object.keys(FIRST).every((name) => SHOWN.includes(name) || kept[name] === FIRST[name]);
  const before = isKept;
  try {
    if (isEmpty) localStorage.removeItem(claim);
    else localStorage.setItem(claim, JSON.stringify({ ...kept, at: Date.now() }));
    isKept = true;
  } catch {
    // The browser keeps nothing, or is full: the page works without, and says so.
    isKept = isEmpty;
  }
  if (isKept !== before) unkept(isKept);
}

/** Returns whether there is something that acreage is based on: field notes or a lot table. */
export function hasPlat() {
  return kept.notes.trim() !== "" || kept.lots.trim() !== "";
}

/** What all acreage rests on, as the fields of a request. No plat is made up beside a lot table. */
export function basis() {
  const table = kept.lots.trim() === "" ? {} : { lots: kept.lots };
  return kept.notes.trim() === "" ? table : { notes: kept.notes, ...table };
}

/** Returns the texts of an object that the page knows. */
function textsIn(found) {
  const names = Object.keys(FIRST).filter((name) => typeof found[name] === "string");
  return Object.fromEntries(names.map((name) => [name, found[name]]));
}

/** Returns a link to the case, or null if it is too long for one. */
export function link() {
  const { view, ...values } = kept;
  const bytes = new TextEncoder().encode(JSON.stringify(values));
  const text = btoa(String.fromCharCode(...bytes)).replaceAll("+", "-").replaceAll("/", "_").replace(/=+$/, "");
  return bytes.length > LINK_MOST ? null : `${location.origin}${location.pathname}#case=${text}`;
}

/** Returns the case as the text of a file. */
export function fileOf() {
  return `${JSON.stringify({ kind: KIND, ...kept }, null, 1)}\n`;
}

/** Returns the values in the text of a file. Throws an Error that says why it is not a case. */
export function valuesInFile(text) {
  let values;
  try {
    values = JSON.parse(text);
  } catch {
    values = null;
  }
  if (values?.kind !== KIND) throw new Error("it is not a case that this page has saved.");
  const { kind, ...others } = values;
  return known(others);
}

/** Returns what the link carries that led here, or why it is not opened. It is not sent to the server. */
function inLink() {
  const [, text] = /^#case=(.*)$/.exec(location.hash) ?? [];
  if (text === undefined) return {};
  history.replaceState(null, "", location.pathname);
  let values;
  try {
    const bytes = Uint8Array.from(atob(text.replaceAll("-", "+").replaceAll("_", "/")), (each) => each.charCodeAt(0));
    values = JSON.parse(new TextDecoder("utf-8", { fatal: true }).decode(bytes));
  } catch {
    values = null;
  }
  if (values === null || typeof values !== "object") return { refused: "The link is not opened: it is damaged." };
  try {
    return { values: known(values) };
  } catch (error) {
    return { refused: `The link is not opened: ${error.message}` };
  }
}

/** Returns values whose names are all known, and which are texts. Throws an Error if they are not. */
function known(values) {
  const unknown = Object.keys(values).find((name) => !Object.hasOwn(FIRST, name) || typeof values[name] !== "string");
  if (unknown === undefined) return values;
  throw new Error(`this page does not know what it carries as “${visible(unknown.slice(0, 40))}”.`);
}
