/**
 * How the tests connect to a server that doesn't push: with the heartbeat a client hears of a theft, and with the next
 * poll of a grant.
 */
export const FAST = { poll: 10, heartbeat: 2000 };

/** How a server that pushes is started, for pages that name the origins of the cases and not their own. */
export const ALL_ORIGINS = { words: ["--allow-origin", "*"] };
