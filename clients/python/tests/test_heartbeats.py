"""When a connection whose server has fallen silent counts as lost, by a clock that waits for nothing."""

import asyncio
import json
import unittest

import weblocks
from weblocks.connection import Connection
from weblocks.transport import PUSHES, Options

HEARTBEAT = 10
"""Each so many seconds a client asks for a reply, as docs/CLIENTS.md says."""

MOST = 20
"""After so many seconds at most a client that was cut off knows it, as docs/CLIENTS.md and docs/DEPLOY.md say."""

TURNS_OF_THE_LIBRARY = 8
"""So many turns of the event loop the stand-in takes to hand on what came, which is more than `websockets` does."""


class Clock(asyncio.SelectorEventLoop):
    """An event loop whose time is that of its timers: where it would wait, the time has come at once."""

    def __init__(self):
        super().__init__()
        self.now = 0.0
        select = self._selector.select

        def pass_time(timeout=None):
            found = select(0)
            if not found and timeout:
                self.now += timeout
            return found

        self._selector.select = pass_time

    def time(self):
        return self.now

    def be_busy(self, until):
        """As other work that leaves the event loop no turn until then."""
        self.now = max(self.now, until)


class Socket:
    """A server that answers each message after `delay` seconds, or not at all where that is None."""

    subprotocol = PUSHES

    def __init__(self, clock):
        self.clock = clock
        self.delay = 0
        self.asked = []
        self.due = []
        self.heard = asyncio.Queue()

    @property
    def transport(self):
        return self

    async def send(self, text):
        self.asked.append(self.clock.now)
        if self.delay is not None:
            self.due.append((self.clock.now + self.delay, json.loads(text)["id"]))
            self.clock.call_later(self.delay, self.hand_on, TURNS_OF_THE_LIBRARY)

    def hand_on(self, turns):
        if turns > 0:
            self.clock.call_soon(self.hand_on, turns - 1)
        else:
            _when, id = self.due.pop(0)
            self.heard.put_nowait(json.dumps({"id": id, "notices": [], "ok": {}}))

    async def recv(self):
        return await self.heard.get()

    async def close(self):
        pass

    def abort(self):
        pass


class Heartbeats(unittest.TestCase):
    """Each test begins with a connection of now, at the time 0."""

    def run_by_clock(self, work):
        """Runs a test; answers what was asked when, and when the connection was lost, if it was."""
        with asyncio.Runner(loop_factory=Clock) as runner:
            return runner.run(self.follow(work))

    async def follow(self, work):
        clock = asyncio.get_running_loop()
        socket = Socket(clock)
        losses = []
        options = Options("ws://127.0.0.1", "https://a.test", heartbeat=HEARTBEAT)
        connection = Connection(socket, options, lambda _reply: None, lambda reason: losses.append((clock.now, reason)))
        await work(clock, socket)
        if not losses:
            await connection.close()
            return socket.asked, None
        [(when, reason)] = losses
        self.assertEqual("the server did not answer for 10 seconds", str(reason))
        return socket.asked, when

    def test_a_server_that_falls_silent_once_it_has_answered_is_lost_after_20_seconds_at_most(self):
        async def work(_clock, socket):
            await asyncio.sleep(HEARTBEAT)
            self.assertEqual(1, len(socket.asked))
            await asyncio.sleep(0.01)
            socket.delay = None
            await asyncio.sleep(3 * MOST)

        asked, lost = self.run_by_clock(work)
        self.assertEqual([HEARTBEAT, 2 * HEARTBEAT], asked)
        self.assertLessEqual(lost - HEARTBEAT, MOST + 0.001)

    def test_a_server_that_answers_is_asked_each_10_seconds_and_kept(self):
        async def work(_clock, _socket):
            await asyncio.sleep(5 * HEARTBEAT + 1)

        asked, lost = self.run_by_clock(work)
        self.assertEqual(([HEARTBEAT * number for number in range(1, 6)], None), (asked, lost))

    def test_an_answer_that_takes_nearly_10_seconds_keeps_the_connection(self):
        async def work(_clock, socket):
            socket.delay = HEARTBEAT - 0.01
            await asyncio.sleep(6 * HEARTBEAT)

        asked, lost = self.run_by_clock(work)
        self.assertIsNone(lost)
        self.assertGreaterEqual(len(asked), 5)

    def test_an_answer_that_came_in_time_is_read_first_whenever_other_work_kept_the_event_loop_busy(self):
        # What was asked at 10 has its answer in time until 20.
        for answered in (1, 8.9, 9.1, 9.9):
            for begun in (8.5, 9.05, 9.85):
                for ended in (9.95, 10, 10.5, 15, 40):
                    with self.subTest(answered=answered, begun=begun, ended=ended):

                        async def work(clock, socket, answered=answered, begun=begun, ended=ended):
                            socket.delay = answered
                            await asyncio.sleep(HEARTBEAT + begun)
                            clock.be_busy(HEARTBEAT + ended)
                            await asyncio.sleep(0.5)

                        self.assertIsNone(self.run_by_clock(work)[1])

    def test_where_the_event_loop_was_busy_a_server_that_never_answers_is_lost_soon_after(self):
        async def work(clock, socket):
            socket.delay = None
            await asyncio.sleep(HEARTBEAT + 1)
            clock.be_busy(50)
            await asyncio.sleep(HEARTBEAT)

        self.assertLess(self.run_by_clock(work)[1], 52)


if __name__ == "__main__":
    unittest.main()
