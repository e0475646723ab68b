/** The cases in the header: each has a name, can be saved to a file and opened from one, and can be deleted. */

import { bringBack, cases, open, openNew, remove, saidBefore, stored, wordsOf } from "./cases.js";
import { byId, make, save, say } from "./dom.js";
import { onOpen } from "./files.js";
import { fileOf, keep, kept, linked, valuesInFile, whenUnkept } from "./store.js";

/** What is said after a link was opened. */
const BESIDE = "The link is opened as a case of its own. Your own work is kept: choose it under Case.";

/** Prepares the list of cases, and what can be done with the one that is open. */
export function prepare() {
  byId("case").addEventListener("change", () => openCase(byId("case").value));
  byId("new-case").addEventListener("click", () => openNew());
  byId("case-name").value = kept.name;
  byId("case-name").addEventListener("input", () => {
    keep("name", byId("case-name").value);
    showOwn();
  });
  byId("save-case").addEventListener("click", () => save(`${fileName()}.json`, fileOf(), "application/json"));
  onOpen("open-case", openFile);
  byId("delete-case").addEventListener("click", deleteCase);
  // Another tab has changed a case.
  addEventListener("storage", show);
  // A link that is pasted into the address bar of this page does not load it.
  addEventListener("hashchange", () => location.reload());
  addEventListener("beforeunload", (event) => byId("unkept").hidden || event.preventDefault());
  whenUnkept((isKept) => (byId("unkept").hidden = isKept));
  show();
  if (linked.refused !== undefined) say(linked.refused);
  else say(linked.values === undefined ? saidBefore() : BESIDE);
}

/** Shows what the case of this tab is called, which may have changed. */
export function showOwn() {
  const [own] = byId("case").selectedOptions;
  const words = wordsOf(kept);
  if (own !== undefined && own.textContent !== words) own.textContent = words;
}

/** Brings back the case that was deleted last. Returns whether there is one. */
export function undelete() {
  return attempt(() => bringBack());
}

/** Shows the cases that the browser keeps, of which another can be opened. */
function show() {
  const options = cases().map(({ key, words, when, isOwn }) => {
    return make("option", { value: key, selected: isOwn }, isOwn ? words : `${words}${when}`);
  });
  byId("case").replaceChildren(...options);
  showOwn();
}

async function openCase(key) {
  if (await open(key)) return;
  show();
  say("That case is open in another tab.");
}

/** Opens a case in the text of a file, beside the others. */
function openFile(text, name) {
  openNew(valuesInFile(text), `${name} is opened as a case of its own.`);
}

function deleteCase() {
  if (stored(byId("case").value) === null) say("There is nothing in this case yet.");
  else attempt(remove);
}

/** Calls a function, and says why it could not do what it does. */
function attempt(call) {
  try {
    return call();
  } catch (error) {
    say(`This did not work: ${error.message}`);
    return true;
  }
}

/** Returns a name for the file of the case. */
function fileName() {
  return wordsOf(kept).replace(/[^\p{L}\p{N} ._-]+/gu, "_").replace(/^[ ._]+|[ ._]+$/g, "") || "case";
}
