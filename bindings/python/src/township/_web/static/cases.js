/** The cases that the browser keeps. Each tab works on a case of its own, so that none overwrites what another has. */

import { claim, isTaken } from "./claims.js";
import { visible } from "./shown.js";

const PREFIX = "township.case.";
/** The case that earlier versions of the page kept. */
const EARLIER = "township";
/** Where a tab remembers its case, so that reloading it opens the same one. */
const OWN = "township.own";
/** Where a tab keeps the cases that were deleted in it, so that they can be brought back. */
const DELETED = "township.deleted";
/** What a tab says after it was reloaded. */
const SAID = "township.said";
const WORDS_MOST = 40;
/** Times where the user is, as in Sweden: 2030-01-31 13:05. */
const TIME = new Intl.DateTimeFormat("sv-SE", { dateStyle: "short", timeStyle: "short" });

/** Returns the keys of all cases that are kept, from the one that was changed last. */
function keys() {
  const found = Object.keys(localStorage).filter((key) => key === EARLIER || key.startsWith(PREFIX));
  return found.sort((one, other) => (stored(other)?.at ?? 0) - (stored(one)?.at ?? 0));
}

/** Returns the values of a case, or null if the browser keeps none under this key. */
export function stored(key) {
  try {
    return JSON.parse(localStorage.getItem(key));
  } catch {
    return null;
  }
}

/** Returns all cases, each with its key and some words of it, and whether it is the one of this tab. */
export function cases() {
  try {
    const own = sessionStorage.getItem(OWN);
    const found = keys().includes(own) ? keys() : [own, ...keys()];
    return found.map((key) => ({ key, words: wordsOf(stored(key) ?? {}), when: whenOf(key), isOwn: key === own }));
  } catch {
    // The browser keeps nothing.
    return [];
  }
}

/**
 * Returns the key of the case on which this tab works, and which no other tab takes as long as this one is open: the
 * one that it had before, or the last one that no tab works on, or a new one.
 */
export async function claimed(isNew) {
  try {
    const own = sessionStorage.getItem(OWN);
    const candidates = isNew ? [] : [...(own === null ? [] : [own]), ...keys()];
    for (const key of candidates) if (await claim(key)) return remember(key);
    const key = newKey();
    await claim(key);
    return remember(key);
  } catch {
    // The browser keeps nothing.
    return EARLIER;
  }
}

/** Opens another case in this tab, and says something. Returns whether no other tab has it, so that it is opened. */
export async function open(key, said = "") {
  if (await isTaken(key)) return false;
  remember(key);
  sessionStorage.setItem(SAID, said);
  location.reload();
  return true;
}

/** Opens a case with these values, or an empty one, beside the others. Throws if there is no room for it. */
export function openNew(values = null, said = "") {
  const key = newKey();
  try {
    if (values !== null) localStorage.setItem(key, JSON.stringify({ ...values, at: Date.now() }));
  } catch {
    throw new Error("this browser has no room for another case. Save one to a file, and delete it here.");
  }
  open(key, said);
}

/** Deletes the case of this tab, which can be brought back as long as the tab is open, and opens an empty one. */
export function remove() {
  const key = sessionStorage.getItem(OWN);
  const text = localStorage.getItem(key);
  if (text !== null) keepDeleted([...deleted(), { key, text }]);
  localStorage.removeItem(key);
  openNew(null, `“${wordsOf(JSON.parse(text) ?? {})}” is deleted. Undo brings it back as long as this tab is open.`);
}

/** Brings the case back that was deleted last in this tab, and opens it. Returns whether there is one. */
export function bringBack() {
  const found = deleted();
  const last = found.pop();
  if (last === undefined) return false;
  localStorage.setItem(last.key, last.text);
  keepDeleted(found);
  open(last.key, "The case is back.");
  return true;
}

/** Returns what is to be said after this tab was reloaded, once. */
export function saidBefore() {
  try {
    const said = sessionStorage.getItem(SAID) ?? "";
    sessionStorage.removeItem(SAID);
    return said;
  } catch {
    return "";
  }
}

function deleted() {
  return JSON.parse(sessionStorage.getItem(DELETED)) ?? [];
}

/** Keeps deleted cases: the last ones, if there is no room for all. */
function keepDeleted(found) {
  for (let from = 0; from < Math.max(found.length, 1); from += 1) {
    try {
      return sessionStorage.setItem(DELETED, JSON.stringify(found.slice(from)));
    } catch {
      continue;
    }
  }
  throw new Error("there is no room to keep it for Undo");
}

function newKey() {
  return `${PREFIX}${Date.now()}.${Math.random().toString(36).slice(2)}`;
}

function remember(key) {
  sessionStorage.setItem(OWN, key);
  return key;
}

/** Returns when a case was last changed, in words. */
function whenOf(key) {
  const at = stored(key)?.at ?? 0;
  return at === 0 ? "" : `, ${TIME.format(at)}`;
}

/** Returns what a case is called: its name, or else some words of it. */
export function wordsOf({ name = "", description = "", first = "", tracts = "", notes = "", lots = "" }) {
  const words = [name, description, first, tracts].map((text) => text.trim().split("\n")[0]);
  const found = [...words, townshipIn(notes), townshipIn(lots)].find((text) => text !== "") ?? "empty case";
  return visible([...found].slice(0, WORDS_MOST).join(""));
}

/** Returns the township of field notes or of a lot table, or nothing. */
function townshipIn(text) {
  const [, number, northSouth, range, eastWest] = /^T,(\d+),([NS]),(\d+),([EW])\s*$/m.exec(text) ?? [];
  return number === undefined ? "" : `T. ${number} ${northSouth}., R. ${range} ${eastWest}.`;
}
