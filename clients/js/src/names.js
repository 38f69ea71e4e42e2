/**
 * The names of locks on the wire.
 *
 * A name is any string of JavaScript, and so may have lone surrogates, which the service's JSON texts can't carry.
 * U+FDD0, a noncharacter, introduces their escape: a lone surrogate becomes U+FDD0 and its four lowercase hexadecimal
 * digits, U+FDD0 itself becomes two of it, and all else goes as it is. So no two names are spelt alike.
 */

const MARK = "\uFDD0";
const LONE_OR_MARK = /[\uD800-\uDFFF\uFDD0]/gu;
const ESCAPE = /\uFDD0(\uFDD0|d[89a-f][0-9a-f]{2})/g;

/** The most bytes of UTF-8 that a name has on the wire. */
export const NAME_BYTES = 1024;

/** The name as it goes over the wire. */
export function escapeName(name) {
  return name.replace(LONE_OR_MARK, (unit) => {
    return MARK + (unit === MARK ? MARK : unit.charCodeAt(0).toString(16));
  });
}

/** The name that a text of the wire spells. A text that no name is escaped to, as another program's may be, is kept. */
export function unescapeName(text) {
  if (!text.includes(MARK)) return text;
  const name = text.replace(ESCAPE, (_, escaped) => {
    return escaped === MARK ? MARK : String.fromCharCode(Number.parseInt(escaped, 16));
  });
  return escapeName(name) === text ? name : text;
}

/** Whether a name of the wire is longer than the service takes. */
export function isTooLong(wireName) {
  if (wireName.length * 3 <= NAME_BYTES) return false;
  return new TextEncoder().encode(wireName).length > NAME_BYTES;
}
