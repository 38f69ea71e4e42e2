/** Agents in a page: each is a frame of the page's origin, whose navigator.locks it is. */

import { CALLS } from "../standard/opaque_calls.js";

/** Waits for one event of this type. */
function eventOf(target, type) {
  return new Promise((resolve) => target.addEventListener(type, resolve, { once: true }));
}

async function frame(attributes) {
  const element = document.createElement("iframe");
  Object.assign(element, attributes);
  const loaded = eventOf(element, "load");
  document.body.append(element);
  await loaded;
  return element;
}

/** A frame's agent ends with its element. */
async function frameAgent(source, deactivate) {
  const element = await frame({ src: source });
  const { contentWindow } = element;
  await contentWindow.ready;
  // (of a window whose frame was removed these can't be had)
  const { DOMException, Promise, TypeError } = contentWindow;
  const { locks } = contentWindow.navigator;
  return {
    locks,
    realm: { DOMException, Promise, TypeError },
    end: async () => element.remove(),
    deactivate: () => deactivate(element, locks),
  };
}

/** A sandboxed frame, of an opaque origin, which makes the calls itself and tells what they were rejected with. */
async function sandboxedAgent(source) {
  const ready = eventOf(window, "message");
  const element = await frame({ src: source, sandbox: "allow-scripts" });
  await ready;
  return {
    async refusalOf(call) {
      if (!(call in CALLS)) {
        throw new Error(`no call is named ${call}`);
      }
      const answer = eventOf(window, "message");
      element.contentWindow.postMessage(call, "*");
      return (await answer).data;
    },
    end: async () => element.remove(),
  };
}

/** The LockManager of a frame that was removed is of a document that isn't active. */
async function removeFrame(element) {
  element.remove();
}

/** A service is told by the page. */
async function tellService(_, locks) {
  await locks.setActive(false);
}

/**
 * An environment whose agents are frames.
 *
 * @param options where given, what the frames install a service's LockManager by; else they have the browser's.
 */
export function frameEnvironment(options = null) {
  const search = options ? `?install=${encodeURIComponent(JSON.stringify(options))}` : "";
  const [source, opaque] = [`agent.html${search}`, `opaque.html${search}`];
  const deactivate = options ? tellService : removeFrame;
  const made = [];
  const kept = async (agent) => {
    made.push(await agent);
    return made.at(-1);
  };
  return {
    agents: (count) => Promise.all(Array.from({ length: count }, () => kept(frameAgent(source, deactivate)))),
    opaqueAgent: () => kept(sandboxedAgent(opaque)),
    end: () => Promise.all(made.map((it) => it.end())),
  };
}
