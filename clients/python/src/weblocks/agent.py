"""One agent of the service: a connection that is open, its signals, and its live requests."""

from __future__ import annotations

import asyncio
from collections import deque
from typing import Protocol

from .connection import Connection
from .errors import Disconnected, Error, LockLost, LockStolen
from .messages import (
    CLOSE,
    QUERY,
    SIGNAL,
    BadReply,
    Reason,
    Reply,
    abort_message,
    open_message,
    release_message,
    request_message,
)
from .requests import Phase, Request
from .signals import MOST_ABANDONED, RESERVE, Signals
from .transport import Options


class Owner(Protocol):
    """Who has the agent: it is told of each change and of the end, with the requests that are to be asked again."""

    def changed(self) -> None: ...

    def agent_lost(self, agent: Agent, waiting: list[Request], reason: Disconnected) -> None: ...


class Agent:
    """Sends the requests of one connection, and follows each to its end."""

    def __init__(self, owner: Owner) -> None:
        self._owner = owner
        self._connection: Connection
        self._signals = Signals()
        self._requests: dict[int, Request] = {}
        self._unnumbered: deque[Request] = deque()
        self._abandoned: set[Request] = set()
        """Those that were given up and have no signal: they keep their places until their turn."""
        self._waiting = 0
        self.successor_failure: Error | None = None
        """Why no agent could be opened to come after this one, if one was tried: then this one goes on alone."""
        self.client: str | None = None
        self.unanswered = 0
        """How many messages whose order counts are on their way. Whoever takes such a reply counts it off."""

    @classmethod
    async def open(cls, options: Options, owner: Owner) -> Agent:
        """Connects and opens, within `open_timeout` seconds; raises Disconnected, Forbidden, or Refused by the service.

        A task of its own does it: so whoever calls isn't kept by what the library still does once the time is over, and
        a cancellation counts whatever the library makes of it.
        """
        opening = asyncio.create_task(cls._open(options, owner))
        try:
            await asyncio.wait([opening], timeout=options.open_timeout)
        except BaseException:
            _leave(opening)
            raise
        if not opening.done():
            _leave(opening)
            raise Disconnected(f"the server at {options.url} did not answer in {options.open_timeout:g} seconds")
        return opening.result()

    @classmethod
    async def _open(cls, options: Options, owner: Owner) -> Agent:
        agent = cls(owner)
        agent._connection = await Connection.open(options, agent._hear, agent._end)
        try:
            reply = await agent._connection.call(open_message(options.origin, options.kind, options.bucket))
            if reply.refusal is not None:
                raise reply.refusal
            client = reply.ok.get("client")
            agent.client = client if isinstance(client, str) else None
            agent.ready(0)
        except BaseException:
            agent.abort()
            raise
        return agent

    @property
    def lost(self) -> Disconnected | None:
        """Why its connection ended, if it did."""
        return self._connection.lost

    @property
    def fences(self) -> bool:
        """Whether its grants have fencing tokens."""
        return self._connection.fences

    @property
    def idle(self) -> bool:
        """Whether nothing of it is live or on its way, but for what is abandoned, which ends with it."""
        return not self.unanswered and len(self._requests) == len(self._abandoned)

    @property
    def nearly_used(self) -> bool:
        """Whether it is time to open another agent, since few signals are left."""
        return self.client is not None and self._signals.left <= RESERVE

    def send(self, request: Request) -> bool:
        """Sends a request, unless it must wait for a signal of its own.

        Where no signal is left and no further agent can be had, it goes without one. Kept back, it would wait even for
        a lock that is free, and what comes behind it would wait too, or overtake it. Given up, it keeps its place in
        the queue until its turn, and is released as soon as it is granted. Others wait behind it meanwhile, and the
        service's room for live requests is everybody's: so once MOST_ABANDONED of them are left behind, a further one
        fails by the reason why there is no further agent.
        """
        wish = request.wish
        if wish.waits and self.client is not None:
            request.signal = self._signals.take()
            if request.signal is None:
                if self.successor_failure is None or self._signals.left > 0:
                    return False
                if len(self._abandoned) >= MOST_ABANDONED:
                    request.end(self.successor_failure)
                    return True
        request.service = self
        request.phase = Phase.SENT
        self._unnumbered.append(request)
        self.unanswered += 1
        message = request_message(wish.wire_name, wish.mode, request.signal, wish.steal, wish.only_if_available)
        self._connection.ask(message, self._number)
        return True

    def ready(self, waiting: int) -> None:
        """Asks for as many signals as so many requests want, and one to spare."""
        if self.client is not None:
            for _ in range(self._signals.count_to_ask(waiting)):
                self._connection.ask(SIGNAL, self._add_signal)

    def query(self, reply: asyncio.Future[Reply]) -> None:
        """Asks for what is held and pending."""

        def answer(it: Reply) -> None:
            self.unanswered -= 1
            if not reply.done():
                reply.set_result(it)

        self.unanswered += 1
        self._connection.ask(QUERY, answer, lambda reason: None if reply.done() else reply.set_exception(reason))

    def give_up(self, request: Request, reason: Reason) -> None:
        """Ends a request, whatever its phase; a grant that is on its way is released when it comes."""
        if request.phase is Phase.HELD:
            self.release(request)
        elif request.phase is Phase.SENT and request.signal is not None:
            self.unanswered += 1
            self._connection.ask(abort_message(request.signal, reason), self._aborted)
        elif request.phase is Phase.SENT:
            self._abandoned.add(request)

    def release(self, request: Request) -> None:
        """Releases a lock, and tells the request when that was answered."""
        self.unanswered += 1
        self._connection.ask(release_message(request.number), lambda reply: self._released(request, reply))

    def end_requests(self, reason: Error) -> None:
        """Tells whoever waits or holds a lock that it is over; what the service has is to be ended by `close`."""
        for request in self._live():
            held = request.phase is Phase.HELD
            request.end(LockLost(f"the lock {request.wish.name!r} was lost: {reason}") if held else reason)

    def abort(self) -> None:
        """Ends one that nobody has yet, without a word to the server."""
        self._connection.lose(Disconnected("the connection was not opened"))

    async def close(self) -> None:
        """Ends the agent: what it has is free when this returns, if the server still answers."""
        self._connection.ask(CLOSE, lambda _reply: None)
        await self._connection.close()

    def _live(self) -> list[Request]:
        """In the order in which they were sent."""
        return [*self._requests.values(), *self._unnumbered]

    def _add_signal(self, reply: Reply) -> None:
        if reply.refusal is not None:
            self._signals.refuse()
        else:
            self._signals.add(_number_of(reply, "signal"))

    def _number(self, reply: Reply) -> None:
        """The service has numbered the first request that had no number, or refused it."""
        self.unanswered -= 1
        request = self._unnumbered[0]
        if reply.refusal is None:
            request.number = number = _number_of(reply, "request")
            self._requests[number] = request
            self._waiting += 1
        else:
            self._free_signal(request)
            request.end(reply.refusal)
        self._unnumbered.popleft()

    def _free_signal(self, request: Request) -> None:
        """Its signal serves the next request, unless it was aborted. One without a signal has come to its turn."""
        self._abandoned.discard(request)
        if request.signal is not None and not request.given_up:
            self._signals.give_back(request.signal)
        request.signal = None

    def _aborted(self, _reply: Reply) -> None:
        """What came of the signal's request is told by a notice."""
        self.unanswered -= 1

    def _released(self, request: Request, reply: Reply) -> None:
        """The lock is free; one that was not held any more was stolen, of which the notices of this reply tell."""
        self.unanswered -= 1
        if reply.ok.get("release") == "released":
            self._requests.pop(request.number, None)
            request.end_release()
        else:
            lost = LockLost(f"the lock {request.wish.name!r} was not held any more when it was released")
            asyncio.get_running_loop().call_soon(request.end, lost)

    def _hear(self, reply: Reply) -> None:
        """Takes the notices of a reply or push, and tells the owner that something may have changed."""
        for number, phase in reply.notices:
            request = self._requests.get(number)
            if request is not None:
                self._notice(request, phase, reply.fences.get(number))
        self._connection.want_polls(self._waiting > 0)
        self._owner.changed()

    def _notice(self, request: Request, phase: str, fence: str | None) -> None:
        if request.phase is Phase.SENT:
            self._waiting -= 1
        if phase == "granted":
            self._free_signal(request)
            if request.given_up:
                request.phase = Phase.HELD
                self.release(request)
            else:
                request.grant(fence)
            return
        del self._requests[request.number]
        self._free_signal(request)
        if phase == "stolen":
            request.end(LockStolen(f"the lock {request.wish.name!r} was stolen"))
        else:
            request.end()

    def _end(self, reason: Disconnected) -> None:
        """The connection is lost: locks with it; what waits goes back to the owner."""
        live = self._live()
        self._requests.clear()
        self._unnumbered.clear()
        self.unanswered = 0
        waiting = []
        for request in live:
            if request.phase is Phase.HELD:
                request.end(LockLost(f"the lock {request.wish.name!r} was lost: {reason}"))
            elif request.given_up:
                request.end()
            elif request.wish.waits:
                waiting.append(request)
            else:
                request.end(Disconnected(f"the lock {request.wish.name!r} may have been had: {reason}"))
        self._owner.agent_lost(self, waiting, reason)


_left_openings: set[asyncio.Task[Agent]] = set()
"""Openings that nobody waits for any more. The event loop alone wouldn't keep them from being collected."""


def _leave(opening: asyncio.Task[Agent]) -> None:
    """Cancels an opening, and ends what comes of it all the same."""

    def end(opened: asyncio.Task[Agent]) -> None:
        _left_openings.discard(opened)
        if not opened.cancelled() and opened.exception() is None:
            opened.result().abort()

    _left_openings.add(opening)
    opening.cancel()
    opening.add_done_callback(end)


def _number_of(reply: Reply, member: str) -> int:
    number = reply.ok.get(member)
    if not isinstance(number, int):
        raise BadReply(f"it has no number {member!r}")
    return number
