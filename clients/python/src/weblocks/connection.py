"""One connection to the service: messages out, replies in their order, pushes, polls and the heartbeat."""

from __future__ import annotations

import asyncio
from collections import deque
from collections.abc import Callable

from websockets.exceptions import ConnectionClosed

from .eager import start
from .errors import Disconnected, Forbidden
from .messages import POLL, BadReply, Message, Reply, read_reply, write_message
from .transport import CLOSE_SECONDS, FENCES, PUSHES, Options, Socket, open_socket, sends_in_tasks

Answer = Callable[[Reply], None]
Failure = Callable[[Disconnected], None]

READING_TURNS = 20
"""So many turns of the event loop are more than a reply takes that is there, to be read and taken."""


class LoopEnded(Disconnected):
    """All tasks of the event loop were cancelled, as at its end: nobody reads, and no further connection is tried."""

    def __init__(self) -> None:
        super().__init__("the tasks of the event loop were cancelled, as at its end")


class Connection:
    """Sends messages in the order in which they are asked, and hands each reply to whoever asked.

    `hear` is called with every reply and push, after whoever asked has had it; `end` once, when the connection is lost
    or was closed.
    """

    def __init__(
        self,
        socket: Socket,
        options: Options,
        hear: Callable[[Reply], None],
        end: Callable[[Disconnected], None],
    ) -> None:
        self.fences = socket.subprotocol == FENCES
        self.pushes = self.fences or socket.subprotocol == PUSHES
        self.lost: Disconnected | None = None
        self._loop = asyncio.get_running_loop()
        self._socket = socket
        self._options = options
        self._hear = hear
        self._end = end
        self._next_id = 1
        self._outbox: deque[str] = deque()
        self._writing: asyncio.Task[None] | None = None
        self._writes_in_task = sends_in_tasks(socket)
        self._asked: deque[tuple[int, Answer, Failure | None]] = deque()
        self._polls_wanted = False
        self._poll_timer: asyncio.TimerHandle | None = None
        self._replied = False
        self._grace = min(1, options.heartbeat / 4)
        self._beat: asyncio.Handle = self._loop.call_later(options.heartbeat, self._begin_beat)
        self._reading = self._loop.create_task(self._read())
        self._closing: asyncio.Task[None] | None = None

    @classmethod
    async def open(
        cls, options: Options, hear: Callable[[Reply], None], end: Callable[[Disconnected], None]
    ) -> Connection:
        """Connects; raises what `open_socket` does."""
        return cls(await open_socket(options), options, hear, end)

    def ask(self, message: Message, answer: Answer, failure: Failure | None = None) -> None:
        """Sends a message after those before it.

        Its reply goes to `answer`; where the connection is lost first, the reason goes to `failure`.
        """
        if self.lost is not None:
            if failure is not None:
                failure(self.lost)
            return
        id = self._next_id
        self._next_id = id + 1
        self._asked.append((id, answer, failure))
        self._outbox.append(write_message(id, message))
        if self._writing is None or self._writing.done():
            self._writing = start(self._write(), self._writes_in_task)

    async def call(self, message: Message) -> Reply:
        """Sends a message and waits for its reply; raises Disconnected where the connection is lost first."""
        reply: asyncio.Future[Reply] = self._loop.create_future()

        def fail(reason: Disconnected) -> None:
            if not reply.done():
                reply.set_exception(reason)
                # Where `ask` itself raises, as a world does for a line that is too long, nobody waits for it.
                reply.exception()

        self.ask(message, lambda answer: None if reply.done() else reply.set_result(answer), fail)
        return await reply

    def want_polls(self, wanted: bool) -> None:
        """Says whether a change is waited for: then a server without pushes is polled."""
        self._polls_wanted = wanted and not self.pushes
        if self._polls_wanted and self._poll_timer is None and self.lost is None:
            self._poll_timer = self._loop.call_later(self._options.poll_interval, self._poll)

    def lose(self, reason: Disconnected) -> None:
        """Ends the connection at once, without a word to the other side."""
        if self.lost is not None:
            return
        self.lost = reason
        self._beat.cancel()
        if self._poll_timer is not None:
            self._poll_timer.cancel()
        self._outbox.clear()
        for _id, _answer, failure in self._asked:
            if failure is not None:
                failure(reason)
        self._reading.cancel()
        if self._writing is not None:
            self._writing.cancel()
        self._socket.transport.abort()
        if self._closing is None:
            self._closing = self._loop.create_task(self._socket.close())
        self._end(reason)

    async def close(self) -> None:
        """Ends the connection by the closing handshake, for which the other side has a second."""
        if self._closing is None:
            self._closing = self._loop.create_task(self._socket.close())
        await asyncio.wait([self._closing], timeout=CLOSE_SECONDS)
        self.lose(Disconnected("the connection was closed"))
        await asyncio.wait([self._closing, self._reading])

    async def _read(self) -> None:
        try:
            while True:
                self._take(read_reply(await self._socket.recv(), self.fences))
        except ConnectionClosed as error:
            self.lose(_explain_close(error))
        except BadReply as error:
            self.lose(Disconnected(f"the server sent what is no reply: {error}"))
        except asyncio.CancelledError:
            # If it isn't by `lose`, the tasks that hold locks end too, and would wait for replies that nobody reads.
            self.lose(LoopEnded())
            raise

    async def _write(self) -> None:
        """Sends what is to be sent. One at a time does so, so the order of messages is that of the calls of `ask`."""
        try:
            while self._outbox:
                await self._socket.send(self._outbox.popleft())
        except ConnectionClosed:
            # The reader learns it too, and says so.
            pass

    def _take(self, reply: Reply) -> None:
        """Hands on a reply, or a push, which nobody asked for and which shows no life of the way out."""
        if reply.id is None and reply.refusal is None:
            self._hear(reply)
            return
        if not self._asked or reply.id != self._asked[0][0]:
            raise BadReply(f"it answers the message {reply.id}, which was not next")
        _id, answer, _failure = self._asked.popleft()
        self._replied = True
        answer(reply)
        self._hear(reply)

    def _poll(self) -> None:
        if self._polls_wanted:
            self.ask(POLL, self._end_poll)
        else:
            self._poll_timer = None

    def _end_poll(self, _reply: Reply) -> None:
        self._poll_timer = None
        self.want_polls(self._polls_wanted)

    def _begin_beat(self) -> None:
        """Asks for a sign of life, and looks for it later, even where the asking fails."""
        self._replied = False
        self._beat = self._loop.call_later(self._options.heartbeat - self._grace, self._begin_grace)
        self.ask(POLL, lambda _reply: None)

    def _begin_grace(self) -> None:
        """The last part of the wait: where other work kept the event loop busy before, replies are read in it."""
        self._beat = self._loop.call_later(self._grace, self._end_beat, READING_TURNS)

    def _end_beat(self, turns: int) -> None:
        """The wait is over; what came in time, while other work kept the event loop busy, is still read."""
        if self._replied:
            self._begin_beat()
        elif turns > 0:
            self._beat = self._loop.call_soon(self._end_beat, turns - 1)
        else:
            self.lose(Disconnected(f"the server did not answer for {self._options.heartbeat:g} seconds"))


def _explain_close(error: ConnectionClosed) -> Disconnected:
    """Why the other side ended the connection, by its close code."""
    code = getattr(error.rcvd, "code", None)
    if code == 1008:
        return Forbidden("the server does not let this client open that origin (close code 1008)")
    if code == 1001:
        return Disconnected("the server ended (close code 1001)")
    if code == 1013:
        return Disconnected("the server has no room for a further lock manager (close code 1013)")
    if code is None:
        return Disconnected("the connection was lost")
    return Disconnected(f"the server ended the connection (close code {code})")
