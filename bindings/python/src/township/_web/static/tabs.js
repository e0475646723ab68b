/** The tabs: arrow keys move between them, as screen readers expect. */

/** Prepares the tabs. `onOpen(name)` is called when a panel is opened. Returns a function that opens one. */
export function prepare(onOpen) {
  const tabs = [...document.querySelectorAll('[role="tab"]')];
  const open = (name, focus = false) => {
    for (const tab of tabs) {
      const chosen = tab.dataset.panel === name;
      tab.setAttribute("aria-selected", String(chosen));
      tab.setAttribute("tabindex", chosen ? "0" : "-1");
      document.getElementById(tab.getAttribute("aria-controls")).hidden = !chosen;
      if (chosen && focus) tab.focus();
    }
    onOpen(name);
  };
  for (const [place, tab] of tabs.entries()) {
    tab.addEventListener("click", () => open(tab.dataset.panel));
    tab.addEventListener("keydown", (event) => {
      const moves = { ArrowRight: place + 1, ArrowLeft: place - 1, Home: 0, End: tabs.length - 1 };
      if (!(event.key in moves)) return;
      event.preventDefault();
      open(tabs[(moves[event.key] + tabs.length) % tabs.length].dataset.panel, true);
    });
  }
  return open;
}
