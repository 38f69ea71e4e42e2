/** The states of a socket (HTML, `WebSocket.readyState`) that matter here. */

export const CONNECTING = 0;

/** Messages go both ways. */
export const OPEN = 1;

export const CLOSED = 3;
