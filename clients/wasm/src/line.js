/** A message of the clients' protocol as a line of a script: with its agent, and on one line. */

const ENCODER = new TextEncoder();

/** What leaves room for the agent in the 65,536 bytes of a line. */
export const MESSAGE_BYTES = 65_500;

/** Whether a message is longer than is taken. */
export function isTooLong(text) {
  if (text.length > MESSAGE_BYTES) return true;
  // (a unit of UTF-16 has three bytes of UTF-8 at most)
  return text.length * 3 > MESSAGE_BYTES && ENCODER.encode(text).length > MESSAGE_BYTES;
}

/**
 * The line by which an agent says a message.
 *
 * The agent is the last member, and of two equal keys the engine takes the last: so nobody speaks for another. A text
 * that is no JSON object stays none, so that the engine tells the fault that it would without an agent. An LF becomes a
 * tab: as both are white space outside a JSON string, and neither may stand in one, that changes nothing.
 *
 * @param {string} agent which needs no escapes
 * @param {string} message
 * @returns {string}
 */
export function lineOf(agent, message) {
  const end = endOf(message);
  const text = message.slice(0, end).replaceAll("\n", "\t");
  if (!text.endsWith("}")) return text;
  const open = text.slice(0, -1);
  const comma = /^[ \t\r]*\{[ \t\r]*$/.test(open) ? "" : ",";
  return `${open}${comma}"agent":"${agent}"}`;
}

/** Where the white space of JSON begins with which a text ends. (`trimEnd` takes more for white space.) */
function endOf(text) {
  let end = text.length;
  while (end > 0 && " \t\n\r".includes(text[end - 1])) end -= 1;
  return end;
}
