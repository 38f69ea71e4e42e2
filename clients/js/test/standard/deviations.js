/** The version of Chromium in which these deviations were seen. */
export const CHROMIUM_VERSION = 156;

/**
 * Where that Chromium does otherwise than the standard says, by the case that shows it.
 *
 * `section` is what of the standard is meant, and `does` what Chromium does in its place. With `isByChance` it does so
 * at one run and not at another.
 */
export const chromiumDeviations = new Map([
  [
    "callbacks: the lock is free for others when the promise is fulfilled",
    {
      section: "Web Locks, request a lock: the lock is released, and then its released promise is resolved",
      does: "fulfils the promise when it sends the release, which another frame's request may overtake",
      isByChance: true,
    },
  ],
  [
    "callbacks: the lock is free for others when the promise is rejected",
    {
      section: "Web Locks, request a lock: the lock is released, and then its released promise is resolved",
      does: "rejects the promise when it sends the release, which another frame's request may overtake",
      isByChance: true,
    },
  ],
  [
    "grants: the requests of an agent that ends no longer wait",
    {
      section: "Web Locks, terminate remaining locks and requests: an aborted request's queue is processed",
      does: "leaves shared requests waiting behind an exclusive one that is gone, until a shared lock is released",
    },
  ],
  [
    "signals: an abort lets those through who waited behind the request",
    {
      section: "Web Locks, abort the request: its queue is processed",
      does: "leaves shared requests waiting behind an exclusive one that is gone, until a shared lock is released",
    },
  ],
  [
    "signals: an abort right behind an agent's first call rejects, and the callback never runs",
    {
      section: "Web Locks, request a lock: the signal's abort algorithm is added within the call",
      does: "adds it once the storage access of the frame was looked up, which is behind the first call",
    },
  ],
  [
    "queries: what is held of several names is in the order of the grants",
    {
      section: "Web Locks, snapshot the lock state: the held lock set is in the order of its grants",
      does: "shows name after name, in the order of their bytes",
    },
  ],
  [
    "queries: what is pending of several names is in the order in which the names were first asked for",
    {
      section: "Web Locks, snapshot the lock state: the lock request queue map is in the order of its keys' first use",
      does: "shows name after name, in the order of their bytes",
    },
  ],
  [
    "names: query shows held names with lone surrogates as they are",
    {
      section: "Web Locks, resource name: a DOMString, and so any sequence of code units",
      does: "shows a name with a lone surrogate as the empty text",
    },
  ],
  [
    "names: query shows pending names with lone surrogates as they are",
    {
      section: "Web Locks, resource name: a DOMString, and so any sequence of code units",
      does: "shows a name with a lone surrogate as the empty text",
    },
  ],
]);
