/** One connection: messages, which are answered in their order, its heartbeat, and polls where nothing is pushed. */

import { faultOfClose, networkError } from "./faults.js";
import { Queue } from "./queue.js";
import { isPush, readFences, readReply } from "./replies.js";
import { OPEN } from "./states.js";
import { runAsTask } from "./tasks.js";
import { cutSocket } from "./transport.js";

export class Connection {
  #socket;
  #pushes;
  #fences;
  #onNotice;
  #onLost;
  #unanswered = new Queue();
  #lastId = 0;
  #isOver = false;
  #heartbeat;
  #isBeating = false;
  #wasHeard = true;
  #pollTime;
  #pollTimer = null;
  #isPolling = false;
  #isWaiting = false;

  /**
   * @param {{socket: WebSocket | PortSocket, pushes: boolean, fences: boolean}} opened
   * @param {{heartbeat: number, poll: number}} settings in milliseconds
   * @param {{onNotice: (notice: object, fence: string | null) => void, onLost: (fault: Error) => void}} listeners
   *   `onNotice` is given the fencing token that its message has for the notice's request; `onLost` is called once at
   *   most, and not for an end that was asked for
   */
  constructor({ socket, pushes, fences }, { heartbeat, poll }, { onNotice, onLost }) {
    this.#socket = socket;
    this.#pushes = pushes;
    this.#fences = fences;
    this.#onNotice = onNotice;
    this.#onLost = onLost;
    this.#pollTime = poll;
    socket.onmessage = (event) => this.#read(event.data);
    socket.onclose = (event) => this.#lose(faultOfClose(event.code, event.reason));
    socket.onerror = () => {};
    this.#heartbeat = setInterval(() => this.#beat(), heartbeat);
    if (socket.readyState !== OPEN) runAsTask(() => this.#lose(faultOfClose(1006, "")));
  }

  /** Sends a message, which is given an id; `answered` is called with its reply, before the reply's notices are. */
  ask(message, answered) {
    if (this.#isOver) return;
    this.#lastId += 1;
    this.#unanswered.push({ id: this.#lastId, answered });
    this.#socket.send(JSON.stringify({ id: this.#lastId, ...message }));
  }

  /** Says whether a change is waited for, and so polled for where the server doesn't push. */
  set isWaiting(isWaiting) {
    this.#isWaiting = isWaiting;
    this.#schedulePoll();
  }

  /** Ends the connection in good order. */
  end() {
    if (this.#stop()) this.#socket.close(1000);
  }

  /** Ends the connection at once. A loss that was noticed, and is about to be told, isn't told any more. */
  cut() {
    this.#onLost = () => {};
    if (this.#stop()) cutSocket(this.#socket);
  }

  #read(data) {
    if (this.#isOver) return;
    let reply;
    let fences;
    try {
      reply = readReply(data);
      if (this.#fences) fences = readFences(reply);
    } catch (fault) {
      this.#fail(`The server sent ${fault.message}`);
      return;
    }
    if (!isPush(reply) && !this.#answer(reply)) return;
    for (const notice of reply.notices) this.#onNotice(notice, fences?.get(notice.request) ?? null);
  }

  #answer(reply) {
    const asked = this.#unanswered.shift();
    if (asked === undefined || asked.id !== reply.id) {
      this.#fail("The server sent a reply to what wasn't asked");
      return false;
    }
    this.#wasHeard = true;
    asked.answered(reply);
    return true;
  }

  /** A reply shows that both ways are open, a push only that one is: so only replies count as life. */
  #beat() {
    if (this.#isBeating && !this.#wasHeard) {
      // What has come by now, though it wasn't read yet, comes first: this timer may be late.
      runAsTask(() => {
        if (!this.#wasHeard) this.#fail("The server doesn't answer");
      });
      return;
    }
    this.#wasHeard = false;
    this.#isBeating = true;
    this.ask({ op: "poll" }, () => {
      this.#isBeating = false;
    });
  }

  #schedulePoll() {
    if (this.#pushes || !this.#isWaiting || this.#isOver || this.#isPolling || this.#pollTimer !== null) return;
    this.#pollTimer = setTimeout(() => this.#poll(), this.#pollTime);
  }

  #poll() {
    this.#pollTimer = null;
    if (!this.#isWaiting) return;
    this.#isPolling = true;
    this.ask({ op: "poll" }, () => {
      this.#isPolling = false;
      this.#schedulePoll();
    });
  }

  /** Gives up a server that is silent or breaks the protocol. It is told later, as the end of a socket is. */
  #fail(text) {
    if (!this.#stop()) return;
    cutSocket(this.#socket);
    runAsTask(() => this.#onLost(networkError(text)));
  }

  #lose(fault) {
    if (this.#stop()) this.#onLost(fault);
  }

  #stop() {
    if (this.#isOver) return false;
    this.#isOver = true;
    clearInterval(this.#heartbeat);
    clearTimeout(this.#pollTimer);
    this.#socket.onmessage = null;
    this.#socket.onclose = null;
    return true;
  }
}
