/** Claims on cases, so that no two tabs of a browser work on the same one. */

/** The milliseconds within which another tab says that it has a case, in browsers without locks. */
const PATIENCE = 200;
const channel = navigator.locks === undefined ? new BroadcastChannel("township.cases") : null;
let own = null;
let release = () => {};

// A page that the browser keeps for its Back button has no claim any more. If it is shown again, it starts anew.
addEventListener("pagehide", () => release());
addEventListener("pageshow", (event) => event.persisted && location.reload());
channel?.addEventListener("message", ({ data }) => {
  if (data.asked !== undefined && data.asked === own) channel.postMessage({ taken: own });
});

/** Takes a case until the tab is closed. Returns whether no other tab has it. */
export async function claim(name) {
  const isFree = channel === null ? await lock(name) : !(await isTaken(name));
  if (isFree) own = name;
  return isFree;
}

/** Returns whether another tab has a case. */
export async function isTaken(name) {
  if (name === own) return false;
  if (channel === null) return (await navigator.locks.query()).held.some((held) => held.name === name);
  // Browsers have locks only where the connection is secure, or to the computer itself. Otherwise, the tabs are asked.
  return new Promise((resolve) => {
    const answered = ({ data }) => data.taken === name && end(true);
    const end = (result) => {
      channel.removeEventListener("message", answered);
      resolve(result);
    };
    channel.addEventListener("message", answered);
    channel.postMessage({ asked: name });
    setTimeout(() => end(false), PATIENCE);
  });
}

function lock(name) {
  return new Promise((resolve) => {
    navigator.locks.request(name, { ifAvailable: true }, (held) => {
      resolve(held !== null);
      return held === null ? null : new Promise((end) => (release = end));
    });
  });
}
