"""The lock manager of a program."""

from __future__ import annotations

import asyncio
import contextlib
import itertools
import ssl as tls
from collections.abc import AsyncIterator
from typing import Literal, overload

from .dispatcher import Dispatcher
from .messages import Kind, Mode
from .names import wire_of_checked
from .queries import Query, Snapshot, read_snapshot
from .requests import Lock, LockRequest, Request, Wish, check_wish
from .transport import Options


class LockManager:
    """Requests locks of one origin's bucket, as the agent that `connect` opened.

    All calls are made in the event loop in which it was opened; `weblocks.sync` is for threads.
    """

    def __init__(self, options: Options) -> None:
        self._dispatcher = Dispatcher(options)
        self._orders = itertools.count()
        self._closing: asyncio.Task[None] | None = None

    @classmethod
    async def open(cls, options: Options) -> LockManager:
        """Connects and opens; raises what `connect` does."""
        manager = cls(options)
        await manager._dispatcher.open()
        return manager

    @property
    def client_id(self) -> str | None:
        """By which `client_id` `query` shows what is this manager's own; None at an opaque origin.

        It changes when a lost connection is made anew.
        """
        return self._dispatcher.client_id

    @property
    def may_give_fences(self) -> bool:
        """Whether the next lock may have a fencing token, for the blocks of this package: its own `fence` decides."""
        return self._dispatcher.may_give_fences

    @overload
    def request(
        self,
        name: str,
        *,
        mode: Mode = "exclusive",
        timeout: float | None = None,
        if_available: Literal[False] = False,
        steal: bool = False,
    ) -> LockRequest[Lock]: ...

    @overload
    def request(
        self,
        name: str,
        *,
        mode: Mode = "exclusive",
        timeout: float | None = None,
        if_available: bool,
        steal: bool = False,
    ) -> LockRequest[Lock | None]: ...

    def request(
        self,
        name: str,
        *,
        mode: Mode = "exclusive",
        timeout: float | None = None,
        if_available: bool = False,
        steal: bool = False,
    ) -> LockRequest[Lock] | LockRequest[Lock | None]:
        """A block that holds a lock: `async with locks.request("db") as lock: ..`.

        The request is made when the block is entered, and requests reach the service in that order. `timeout` is how
        many seconds it may wait, after which it raises TimeoutError; with 0 it gets a lock that is free, and doesn't
        wait. With `if_available` it doesn't wait either: `lock` is None where the lock is not free at once. With
        `steal` it takes the lock from whoever holds it. If the lock is lost during the block, LockLost (or LockStolen)
        is raised at the block's next await.

        Raises TypeError and ValueError here for a name that no lock can have, and for options that exclude each other.
        The block's entry raises Refused where the service refuses, Closed after `close`, and Disconnected for `steal`,
        `if_available` and `timeout=0` where the connection is lost; a request that may wait is asked again after a
        reconnection. Where the signals of the connection are used up and too much that was given up is left in the
        queues, one that may wait raises why there is no further connection: Disconnected, Forbidden or Refused.
        """
        wish = Wish(name, wire_of_checked(name), mode, steal, if_available, timeout)
        check_wish(wish)
        return LockRequest(self.submit, wish)

    def submit(self, wish: Wish) -> Request:
        """Makes a request at once, for the blocks of this package."""
        request = Request(wish, next(self._orders), self._dispatcher)
        self._dispatcher.submit(request)
        return request

    async def query(self) -> Snapshot:
        """What is held and pending in the origin's bucket, after all requests that this manager made before.

        Raises Refused at an opaque origin, and Disconnected where there is no connection.
        """
        query = Query(next(self._orders))
        self._dispatcher.ask(query)
        reply = await query.reply
        if reply.refusal is not None:
            raise reply.refusal
        return read_snapshot(reply, self._dispatcher.own_clients, self.client_id)

    async def close(self) -> None:
        """Gives up all: requests that wait raise Closed, and locks that are held are lost to their blocks.

        Returns when the service has ended this client, or has not answered for a second. May be called again.
        """
        if self._closing is None:
            self._closing = asyncio.create_task(self._dispatcher.close())
        await asyncio.shield(self._closing)


@contextlib.asynccontextmanager
async def connect(
    url: str,
    *,
    origin: str,
    kind: Kind = "window",
    bucket: str = "default",
    token: str | None = None,
    heartbeat: float = 10.0,
    poll_interval: float = 0.05,
    reconnect: bool = True,
    fences: bool = False,
    open_timeout: float = 10.0,
    ssl: tls.SSLContext | None = None,
) -> AsyncIterator[LockManager]:
    """Connects to a service: `async with weblocks.connect("ws://127.0.0.1:8080", origin="https://a.test") as locks:`.

    The server may be named by `unix:` and the path of a socket too, as `"unix:/run/weblocks/socket"`. Where the URL has
    no path and no query of its own, the target of each handshake is `/?origin=` and the origin (`weblocks.targets` says
    how that is written), by which servers that share the origins out know theirs.

    Programs that name the same `origin` (a URL) and `bucket` share locks. `kind` is what the service takes this
    program for, a window or a worker. `token` is what the server wants to see, if it wants one.

    Each `heartbeat` seconds the server is asked for a sign of life; if it gives none for as long again, the connection
    is lost. That should be at most a third of the server's `--idle`, which is 30 seconds. A server without pushes is
    asked what changed each `poll_interval` seconds while a request waits. `reconnect=False` makes a lost connection the
    end of the manager. With `fences` each lock has a fencing token as `lock.fence`, if the server gives them.
    `open_timeout` is how many seconds a connection may take to be made, until the service has answered.

    Raises ValueError for a bad URL or option, Disconnected where no server answers, Forbidden where it refuses the
    token or the target, and Refused for a bad origin or bucket.
    """
    options = Options(
        url, origin, kind, bucket, token, heartbeat, poll_interval, reconnect, fences, open_timeout, ssl
    )
    locks = await LockManager.open(options)
    try:
        yield locks
    finally:
        await locks.close()
