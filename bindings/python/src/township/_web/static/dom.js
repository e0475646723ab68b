/** Small helpers for the document. */

/** Returns the element with an id. */
export const byId = (id) => document.getElementById(id);

/** Makes an element with attributes and children. Text is only ever set as text. */
export function make(tag, attributes = {}, ...children) {
  const element = document.createElement(tag);
  for (const [name, value] of Object.entries(attributes)) {
    if (value === true) element.setAttribute(name, "");
    else if (value !== false && value !== null && value !== undefined) element.setAttribute(name, value);
  }
  element.append(...children.filter((child) => child !== null && child !== undefined));
  return element;
}

/** Says something that a screen reader announces. */
export function say(text) {
  byId("said").textContent = text;
}

/** Waits until the browser has shown what was changed; but not long, since in the background it shows nothing. */
export function painted() {
  return new Promise((done) => {
    // What is changed before the first of these two calls is in the frame between them.
    requestAnimationFrame(() => requestAnimationFrame(done));
    setTimeout(done, 1_000);
  });
}

/** Lets the browser save a text as a file. */
export function save(name, text, type) {
  const url = URL.createObjectURL(new Blob([text], { type }));
  const link = make("a", { href: url, download: name });
  document.body.append(link);
  link.click();
  link.remove();
  setTimeout(() => URL.revokeObjectURL(url), 10_000);
}

/**
 * Calls an asynchronous function at once, and again when it has ended if it was wanted in between. If it takes longer
 * than some milliseconds, `hurry()` is called as soon as it is wanted again.
 */
export function oneAtATime(call, hurry, patience = 1_000) {
  let begun = null;
  let again = false;
  return async () => {
    if (begun !== null) {
      again = true;
      if (performance.now() - begun > patience) hurry();
      return;
    }
    try {
      do {
        again = false;
        begun = performance.now();
        await call();
      } while (again);
    } finally {
      begun = null;
    }
  };
}
