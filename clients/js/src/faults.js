/** What promises reject with, beside the page's own reasons. */

/** Somebody gave up: the lock was stolen, or the LockManager was closed. */
export function abortError(message) {
  return new DOMException(message, "AbortError");
}

/** The connection was lost, or can't be had. */
export function networkError(message) {
  return new DOMException(message, "NetworkError");
}

/** A limit of the service is reached. */
export function quotaExceededError(message) {
  return new DOMException(message, "QuotaExceededError");
}

/** The agent can't ask now. */
export function invalidStateError(message) {
  return new DOMException(message, "InvalidStateError");
}

/** The agent's origin has no locks, or the server doesn't let it have any. */
export function securityError(message) {
  return new DOMException(message, "SecurityError");
}

/** These options, or this name, can't be asked for. */
export function notSupportedError(message) {
  return new DOMException(message, "NotSupportedError");
}

const LIMITS = {
  "name-length": "The name has more than 1,024 bytes of UTF-8",
  requests: "The service has as many live requests as it takes",
  signals: "The agent has made as many signals as it may",
  agents: "The service has as many live agents as it takes",
  numbers: "The service has no further numbers to give",
};

/** What a refusal of the service, `{name, rule}`, is to the caller. */
export function faultOfRefusal({ name, rule }) {
  switch (name) {
    case "Limit":
      return quotaExceededError(LIMITS[rule] ?? `The service's limit ${rule} is reached`);
    case "BadUrl":
      return new TypeError("The service can't read the origin as a URL");
    case "BadBucket":
      return new TypeError("The bucket's name isn't one");
    case "InvalidStateError":
      return invalidStateError("The agent isn't active");
    case "SecurityError":
      return securityError("An opaque origin has no locks");
    case "NotSupportedError":
      return notSupportedError(`The service refused the request: ${rule}`);
    default:
      return new DOMException(`The service answered ${name}: ${rule}`, "OperationError");
  }
}

/** What the end of a connection is to the caller, by the close code and the text that the server gave. */
export function faultOfClose(code, text) {
  const told = text ? `: ${text}` : "";
  switch (code) {
    case 1008:
      return securityError(`The server doesn't let this client have locks of that origin${told}`);
    case 1013:
      return quotaExceededError(`The server has as many lock managers as it takes${told}`);
    default:
      return networkError(`The connection to the server was lost (close code ${code})${told}`);
  }
}

/** Whether trying again can't help. */
export function isFinal(fault) {
  return fault instanceof TypeError || fault.name === "SecurityError";
}
