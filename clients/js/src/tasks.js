/**
 * Tasks of the event loop.
 *
 * The standard calls each callback in a task of its own, between which promises react. One message may bring several
 * grants, and a Node socket may bring several messages at once.
 */

/** Runs a function in a task of its own, after those that were asked for before it. */
export const runAsTask = typeof setImmediate === "function" ? (task) => void setImmediate(task) : postTask();

/** In browsers there is no setImmediate: a message to oneself is a task, and isn't held back as timers are. */
function postTask() {
  const tasks = [];
  const channel = new MessageChannel();
  channel.port1.onmessage = () => tasks.shift()();
  return (task) => {
    tasks.push(task);
    channel.port2.postMessage(null);
  };
}
