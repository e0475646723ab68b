/** Calls of the JSON interface. */

/** What a server in front says while the one behind it does not run. */
const AWAY = [502, 504];
const pending = new Map();
let changes = 0;

let lost = () => {};

/** Calls a function whenever the server does not answer, such as while it is restarted. */
export function whenLost(call) {
  lost = call;
}

/** Says that what the user has entered has changed, so that answers that are on their way are outdated. */
export function outdate() {
  changes += 1;
}

/** Gives up the requests that have no answer yet. */
export function giveUp() {
  for (const control of pending.values()) control.abort();
}

/** There is no answer, since the server does not run. */
class NoServer extends Error {}

/** Throws an error again, as what it means if there is no connection. */
function unconnected(error) {
  throw error instanceof TypeError ? new NoServer("the server does not answer.") : error;
}

/** Posts a request, and returns the answer. Throws an Error with the server's message if there is none. */
export async function post(kind, request, signal) {
  const sent = fetch(`api/v1/${kind}`, {
    method: "POST",
    headers: { "Content-Type": "application/json" },
    body: JSON.stringify(request),
    signal,
  });
  const response = await sent.catch(unconnected);
  if (AWAY.includes(response.status)) throw new NoServer("the server is being restarted.");
  const answer = await response.json().catch(unconnected);
  if (!response.ok) throw new Error(answer.error ?? response.statusText);
  return answer;
}

/** Posts a request, and returns the answer, or null if it is outdated. */
export async function ask(kind, request) {
  pending.get(kind)?.abort();
  const control = new AbortController();
  const seen = changes;
  pending.set(kind, control);
  try {
    const answer = await post(kind, request, control.signal);
    return seen === changes ? answer : null;
  } catch (error) {
    if (control.signal.aborted || seen !== changes) return null;
    if (error instanceof NoServer) {
      lost();
      throw new Error("the server does not answer; the page asks again until it does.");
    }
    throw error;
  } finally {
    if (pending.get(kind) === control) pending.delete(kind);
  }
}
