/** Texts as they can be shown: marks that turn the text round, and other invisible ones, are escaped. */

/** The controls of direction, and characters that have no width. */
const INVISIBLE = /[\u0000-\u0008\u000b\u000c\u000e-\u001f\u007f-\u009f\u00ad\u061c\u200b-\u200f\u2028-\u202e\u2060-\u2069\ufeff\ufff9-\ufffb]/gu;

/** Returns a text in which such marks are escaped, as in `\u202e`. */
export function visible(text) {
  return text.replace(INVISIBLE, (each) => `\\u${each.charCodeAt(0).toString(16).padStart(4, "0")}`);
}
