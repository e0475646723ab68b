/** The page: puts the panels and the drawing together. */

import { giveUp, outdate, whenLost } from "./api.js";
import * as casebar from "./casebar.js";
import * as compare from "./compare.js";
import { byId, oneAtATime, painted, say } from "./dom.js";
import * as drawing from "./drawing.js";
import * as land from "./land.js";
import * as plat from "./plat.js";
import * as print from "./print.js";
import * as spoken from "./spoken.js";
import * as start from "./start.js";
import { basis, hasPlat, keep, kept, link, replace, takeBack } from "./store.js";
import * as tabs from "./tabs.js";
import { terms } from "./terms.js";
import * as tracts from "./tracts.js";

/** What the panels say before there is a plat. */
const NO_PLAT = "First choose what the acreage is based on.";
/** The milliseconds after which a server that does not answer is asked again. */
const AGAIN = 1_000;
const PANELS = { plat, land, compare, tracts };
/** What the texts are called that can be replaced. */
const TEXTS = {
  notes: "field notes",
  lots: "lot table",
  description: "description",
  first: "first description",
  second: "second description",
  tracts: "list of tracts",
  ignored: "phrases that are left out",
};

let changes = 0;
let platShown = null;

/** Shows new answers. */
async function refresh() {
  const seen = changes;
  await answer(seen);
  if (seen !== changes) return;
  casebar.showOwn();
  byId("work").setAttribute("aria-busy", "false");
}

/**
 * Asks for the answers of the panel that is open, and shows the drawing that comes with them, unless there have been
 * more changes than so many by then.
 */
async function answer(seen) {
  start.show(!hasPlat());
  if (!hasPlat()) return showNone();
  const name = kept.panel in PANELS ? kept.panel : "plat";
  const section = kept.view === "" ? {} : { section: Number(kept.view) };
  const request = { draw: true, targets: true, ...section };
  const panel = PANELS[name];
  const others = () => [panel.refresh(request), isPlatShown() ? undefined : refreshPlat({})];
  const [given] = await Promise.all(panel === plat ? [refreshPlat(request)] : others());
  if (given === null) return;
  // The drawing of the plat alone is shown where a panel has nothing to shade.
  const drawn = given?.svg === undefined && panel !== plat ? await refreshPlat(request) : given;
  if (drawn === null || name !== kept.panel) return;
  // The browser shows the answer before a long drawing.
  if (drawing.isLong(drawn?.svg ?? "")) await painted();
  if (seen !== changes) return;
  if (drawn?.svg === undefined) drawing.clear();
  else drawing.show(drawn.svg, labelOf(), kept.view);
  plat.markRefused();
}

/** Shows that there is no plat yet, and nothing of one that was shown before. */
function showNone() {
  platShown = null;
  for (const panel of Object.values(PANELS)) panel.showNone(NO_PLAT);
  drawing.clear();
}

const isPlatShown = () => platShown === JSON.stringify(basis());

/** Asks for the figures of the plat, and remembers which plat is shown. */
async function refreshPlat(request) {
  const asked = JSON.stringify(basis());
  platShown = null;
  const given = await plat.refresh(request);
  if (given) platShown = asked;
  return given;
}

const refreshNext = oneAtATime(refresh, giveUp);

/** Asks for new answers, and says until then that they are coming. */
function refreshCalmly() {
  changes += 1;
  outdate();
  byId("work").setAttribute("aria-busy", "true");
  refreshNext();
}

function labelOf() {
  return kept.view === "" ? "Plat of the township" : `Section ${kept.view}`;
}

/** Keeps a value, and asks for new answers. */
function change(name, value) {
  keep(name, value);
  refreshCalmly();
}

/** Replaces a value by one that was not typed, so that it can be taken back. */
function replaceText(name, value) {
  replace(name, value);
  showAll();
}

/** Takes the last replacement back, or makes it again, or brings back a case that was deleted. */
function undo(isAgain) {
  const name = takeBack(isAgain);
  if (name === undefined) {
    if (!isAgain && casebar.undelete()) return;
    say(isAgain ? "There is nothing to redo." : "There is nothing to undo.");
    return;
  }
  say(`${isAgain ? "Redone" : "Undone"} in the ${TEXTS[name]}.`);
  showAll();
}

/** Shows all values, and asks for new answers. */
function showAll() {
  for (const panel of Object.values(PANELS)) panel.fill();
  refreshCalmly();
}

/** Shows a section alone. */
function openSection(section) {
  byId("view").value = section;
  change("view", section);
  byId("view").focus();
}

/** Opens the distances of a section line. */
function openLine(line) {
  openPanel("plat");
  plat.open("line", line);
}

/** Marks what is selected in the drawing in the panel that is open. */
function picked({ kind, value }) {
  if (kept.panel === "plat" && (kind === "line" || kind === "lot")) plat.open(kind, value);
  const tract = document.querySelector(`#tracts-table [data-tract="${value}"]`);
  if (kept.panel === "tracts" && kind === "tract" && tract?.getAttribute("aria-pressed") === "false") tract.click();
}

function openNotes(notes) {
  keep("notes", notes);
  plat.fill();
  refreshCalmly();
}

/** Opens the place for the text of field notes, or of a lot table, to be pasted. */
function openText(name) {
  openPanel("plat");
  plat.openText(name);
}

const useLot = (lot) => useLand(`sec. ${lot.replace(".", ", lot ")}`);

/** Adds land to the description. */
function useLand(words) {
  replaceText("description", land.withLand(kept.description, words));
  openPanel("land");
  byId("description").focus();
}

/** Copies a link to the case, and shows it where it can be copied by hand. */
async function copyLink() {
  const address = link();
  byId("link-row").hidden = address === null;
  if (address === null) return say("This case is too large for a link. Save it to a file instead.");
  byId("link").value = address;
  const words = "It carries the whole case.";
  try {
    await navigator.clipboard.writeText(address);
    say(`The link is copied. ${words}`);
  } catch {
    byId("link").select();
    say(`Copy the link. ${words}`);
  }
}

plat.prepare(openNotes, (table) => change("lots", table), replaceText, useLot);
for (const panel of [land, compare]) panel.prepare(change, replaceText);
tracts.prepare(change, replaceText, refreshCalmly);
start.prepare(replaceText, openText, (designation) => {
  openPanel("plat");
  plat.beginTable(designation);
});
casebar.prepare();
drawing.prepare({ use: useLand, section: openSection, line: openLine, picked });
print.prepare(() => kept.panel);
spoken.prepare();
byId("terms").replaceChildren(...terms());
whenLost(() => setTimeout(refreshCalmly, AGAIN));
byId("undo").addEventListener("click", () => undo(false));
byId("redo").addEventListener("click", () => undo(true));
for (const panel of Object.values(PANELS)) panel.fill();
byId("view").value = kept.view;
byId("view").addEventListener("change", () => change("view", byId("view").value));
byId("save-drawing").addEventListener("click", () => drawing.saveDrawing("plat.svg"));
byId("copy-link").addEventListener("click", copyLink);
byId("print").addEventListener("click", () => window.print());
const openPanel = tabs.prepare((name) => change("panel", name));
openPanel(kept.panel in PANELS ? kept.panel : "plat");
