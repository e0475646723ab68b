/** Files that are opened: the server decodes them, as `batch` decodes lists. */

import { post } from "./api.js";
import { byId, say } from "./dom.js";
import { visible } from "./shown.js";

/** Calls `use(text, name)` for each file that is opened by an input, which can open the same one again. */
export function onOpen(id, use) {
  const input = byId(id);
  input.addEventListener("change", async () => {
    const [file] = input.files;
    if (file === undefined) return;
    try {
      const { text, encoding } = await post("file", { data: await base64Of(file) });
      say(encoding === "utf-8" ? "" : `${visible(file.name)} is read as ${encoding.toUpperCase()}.`);
      use(text, visible(file.name));
    } catch (error) {
      say(`${visible(file.name)} is not opened: ${error.message}`);
    } finally {
      input.value = "";
    }
  });
}

/** Returns the bytes of a file in base64. */
function base64Of(file) {
  return new Promise((resolve, reject) => {
    const reader = new FileReader();
    reader.addEventListener("load", () => resolve(reader.result.slice(reader.result.indexOf(",") + 1)));
    reader.addEventListener("error", () => reject(reader.error));
    reader.readAsDataURL(file);
  });
}
