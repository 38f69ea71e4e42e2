/** Where the client runs. */

/** Whether this is Node, or what has its modules too: there sockets may send headers, and be Unix sockets. */
export function isNode() {
  return typeof globalThis.process?.versions?.node === "string";
}
