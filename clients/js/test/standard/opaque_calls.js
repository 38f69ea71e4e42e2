/** Calls that an agent of an opaque origin makes. They stand apart, since a sandboxed page has to make them itself. */

const nothing = () => {};

export const CALLS = {
  query: (locks) => locks.query(),
  request: (locks) => locks.request("a", nothing),
  hyphen: (locks) => locks.request("-a", nothing),
  aborted: (locks) => locks.request("a", { signal: AbortSignal.abort("reason") }, nothing),
  mode: (locks) => locks.request("a", { mode: "no mode" }, nothing),
};

/** The name of what the call is rejected with, or that it wasn't. */
export async function refusalOf(locks, call) {
  try {
    await CALLS[call](locks);
    return "no refusal";
  } catch (reason) {
    return reason?.name ?? String(reason);
  }
}
