"""What `query` asks and answers."""

from __future__ import annotations

import asyncio
from collections.abc import Mapping
from dataclasses import dataclass
from typing import Any

from .agent import Agent
from .errors import Error
from .messages import Mode, Reply
from .names import from_wire


@dataclass(frozen=True, slots=True)
class LockInfo:
    """One lock that is held, or one request that waits, of any agent of the origin's bucket."""

    name: str
    mode: Mode
    client_id: str


@dataclass(frozen=True, slots=True)
class Snapshot:
    """What `query` answers: the locks that are held, and the requests that wait, in the service's order."""

    held: list[LockInfo]
    pending: list[LockInfo]


class Query:
    """One query, which waits for its turn behind the requests that were made before it."""

    def __init__(self, order: int) -> None:
        self.order = order
        self.reply: asyncio.Future[Reply] = asyncio.get_running_loop().create_future()

    def send_by(self, agent: Agent) -> bool:
        """Sends it; always true, since it waits for no signal."""
        agent.query(self.reply)
        return True

    def end(self, reason: Error) -> None:
        """It won't be answered."""
        if not self.reply.done():
            self.reply.set_exception(reason)
            self.reply.exception()


def read_snapshot(reply: Reply, own: set[str | None], client_id: str | None) -> Snapshot:
    """Reads a query's reply; what the clients in `own` have is shown as `client_id`'s."""

    def read(item: Mapping[str, Any]) -> LockInfo:
        client = item["clientId"]
        shown = client_id if client in own and client_id is not None else client
        return LockInfo(from_wire(item["name"]), item["mode"], shown)

    return Snapshot([read(item) for item in reply.ok["held"]], [read(item) for item in reply.ok["pending"]])
