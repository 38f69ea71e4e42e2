"""Sends requests in the order of the calls, over as many connections as that takes."""

from __future__ import annotations

import asyncio
import logging
import random
from collections import OrderedDict

from .agent import Agent
from .connection import LoopEnded
from .errors import Closed, Disconnected, Error, Forbidden, Refused
from .messages import Reason
from .queries import Query
from .requests import Phase, Request
from .transport import Options

logger = logging.getLogger("weblocks")

FIRST_DELAY = 0.1
LONGEST_DELAY = 5.0


class Dispatcher:
    """Keeps what isn't sent yet, and the agents by which it is sent.

    There is one agent that takes new requests. A former one, whose signals were nearly used up, lives until its locks
    and requests have ended; where no further one can be had, it goes on alone. While no agent is there, because the
    connection was lost, requests that may wait are kept.
    """

    def __init__(self, options: Options) -> None:
        self._options = options
        self._agent: Agent | None = None
        self._former: set[Agent] = set()
        self._backlog: OrderedDict[int, Request | Query] = OrderedDict()
        self._ended: Error | None = None
        self._opening: asyncio.Task[None] | None = None
        self._ending: set[asyncio.Task[None]] = set()
        self._attempts = 0
        self._opened_at = 0.0
        self.client_id: str | None = None

    async def open(self) -> None:
        """Opens the first agent; raises Disconnected, Forbidden, or Refused by the service."""
        agent = await Agent.open(self._options, self)
        if agent.lost is not None:
            raise agent.lost
        self._adopt(agent)

    @property
    def own_clients(self) -> set[str | None]:
        """By which names the service knows this program now."""
        return {agent.client for agent in self._agents()}

    @property
    def may_give_fences(self) -> bool:
        """Whether the next grant may have a fencing token, as far as that is known."""
        return self._agent is None or self._agent.fences

    def submit(self, request: Request) -> None:
        """Sends a request after those before it; one that can't be sent now and may not wait is ended."""
        if self._agent is None and not request.wish.waits:
            request.end(self._ended or Disconnected("the connection is lost, and not yet restored"))
        else:
            self._put(request)

    def ask(self, query: Query) -> None:
        """Sends a query after the requests before it, or ends it where there is no connection."""
        if self._agent is None:
            query.end(self._ended or Disconnected("the connection is lost, and not yet restored"))
        else:
            self._put(query)

    def give_up(self, request: Request, _reason: Reason) -> None:
        """Leaves a request that isn't sent."""
        self._backlog.pop(request.order, None)
        request.phase = Phase.ENDED

    def release(self, request: Request) -> None:
        """A request that isn't sent has no lock."""
        raise AssertionError(f"{request.wish.name!r} has no lock to release")

    def changed(self) -> None:
        """An agent has had a reply or a push: more may be sent, and former agents may be done."""
        if self._former:
            self._retire()
        if self._backlog and self._agent is not None:
            self._send(self._agent)

    def agent_lost(self, agent: Agent, waiting: list[Request], reason: Disconnected) -> None:
        """An agent's connection has ended: what it waited for is asked again, in the order of the calls."""
        if agent is not self._agent and agent not in self._former:
            return
        self._former.discard(agent)
        for request in waiting:
            request.phase = Phase.WAITING
            request.service = self
            self._backlog[request.order] = request
        if waiting:
            self._backlog = OrderedDict(sorted(self._backlog.items()))
        if agent is self._agent:
            self._agent = None
            self._lose(reason)
        self.changed()

    async def close(self) -> None:
        """Ends all: requests with Closed, held locks as lost, and the connections."""
        self._end(Closed("the lock manager was closed"))
        if self._ending:
            await asyncio.wait(self._ending)

    def _agents(self) -> list[Agent]:
        return [*self._former, *([] if self._agent is None else [self._agent])]

    def _put(self, item: Request | Query) -> None:
        if self._ended is not None:
            item.end(self._ended)
            return
        agent = self._agent
        if agent is None:
            self._backlog[item.order] = item
            return
        if self._backlog or self._former or not item.send_by(agent):
            self._backlog[item.order] = item
        self._send(agent)

    def _send(self, agent: Agent) -> None:
        """Sends what can be sent, and sees to it that signals are there for the rest.

        What former agents were asked must be answered first, since the service keeps no order between connections.
        """
        while self._backlog and not (self._former and any(former.unanswered for former in self._former)):
            order, item = next(iter(self._backlog.items()))
            if not item.send_by(agent):
                break
            del self._backlog[order]
        agent.ready(len(self._backlog))
        if agent.nearly_used and self._opening is None and self._ended is None:
            self._begin_opening(at_once=agent.successor_failure is None)

    def _adopt(self, agent: Agent) -> None:
        """New requests go by this agent from now on."""
        if self._agent is None:
            self.client_id = agent.client
        else:
            self._former.add(self._agent)
        self._agent = agent
        self._opened_at = asyncio.get_running_loop().time()
        self.changed()

    def _retire(self) -> None:
        for agent in [agent for agent in self._former if agent.idle]:
            self._former.discard(agent)
            self._close_agent(agent)

    def _close_agent(self, agent: Agent) -> None:
        self._keep(asyncio.create_task(agent.close()))

    def _keep(self, task: asyncio.Task[None]) -> None:
        self._ending.add(task)
        task.add_done_callback(self._ending.discard)

    def _lose(self, reason: Disconnected) -> None:
        """The agent for new requests is lost: what may not wait ends, and another agent is opened."""
        for item in list(self._backlog.values()):
            if isinstance(item, Query) or not item.wish.waits:
                del self._backlog[item.order]
                item.end(reason)
        if self._ended is not None:
            return
        if isinstance(reason, (Forbidden, LoopEnded)) or not self._options.reconnect:
            self._end(reason)
            return
        logger.warning("%s: trying again", reason)
        if asyncio.get_running_loop().time() - self._opened_at > LONGEST_DELAY:
            self._attempts = 0
        if self._opening is None:
            self._begin_opening(at_once=False)

    def _begin_opening(self, at_once: bool) -> None:
        self._opening = asyncio.create_task(self._open_next(at_once))
        self._opening.add_done_callback(self._look_for_end)

    def _look_for_end(self, opening: asyncio.Task[None]) -> None:
        """One that was cancelled, and not by `_end`, tells of the loop's end: nobody else does while no agent is there.

        (Its task can't: it may be cancelled before its first step.)
        """
        if opening.cancelled():
            self._end(LoopEnded())

    async def _open_next(self, at_once: bool) -> None:
        """Opens another agent, as often as it takes, with growing and random delays between the attempts.

        One that is to come after another isn't tried any more once the server refused this client for good, until the
        next request: what it was refused for may have been set right.
        """
        agent = None
        while agent is None:
            if not at_once:
                await asyncio.sleep(self._next_delay())
            at_once = False
            agent = await self._try_open()
            if self._ended is not None:
                if agent is not None:
                    self._close_agent(agent)
                return
            if agent is None and self._opening is None:
                return
        self._opening = None
        if self._agent is None:
            logger.warning("connected again")
        elif self._agent.successor_failure is not None:
            logger.warning("there is a further connection")
        self._adopt(agent)

    async def _try_open(self) -> Agent | None:
        try:
            agent = await Agent.open(self._options, self)
            if agent.lost is not None:
                raise agent.lost
        except Exception as error:
            # Whatever a library raises, the next try may succeed.
            if self._agent is not None:
                self._go_on_alone(self._agent, error)
            elif isinstance(error, Forbidden):
                self._end(error)
            elif not isinstance(error, (Disconnected, Refused)):
                logger.warning("no connection: %r", error)
            return None
        return agent

    def _go_on_alone(self, agent: Agent, error: Exception) -> None:
        """Has this agent send all that is kept back, since there is none to come after it; a reason is told once."""
        reason = error if isinstance(error, Error) else Disconnected(f"no connection: {error!r}")
        if str(reason) != str(agent.successor_failure):
            logger.warning("no further connection: %s: going on with the one that is there", reason)
        agent.successor_failure = reason
        self.changed()
        if isinstance(reason, Forbidden):
            self._opening = None

    def _next_delay(self) -> float:
        longest = min(LONGEST_DELAY, FIRST_DELAY * 2.0**self._attempts)
        self._attempts = min(self._attempts + 1, 10)
        return longest * random.uniform(0.5, 1)

    def _end(self, reason: Error) -> None:
        """Nothing is sent any more: whoever waits or holds a lock is told why, and the connections are closed."""
        if self._ended is not None:
            return
        self._ended = reason
        backlog, self._backlog = self._backlog, OrderedDict()
        for item in backlog.values():
            item.end(reason)
        for agent in self._agents():
            agent.end_requests(reason)
            self._close_agent(agent)
        if self._opening is not None and self._opening is not asyncio.current_task():
            self._opening.cancel()
            self._keep(self._opening)
