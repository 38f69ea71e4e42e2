"""Lock managers in one process, without a server: for tests of code that uses the clients."""

from __future__ import annotations

import asyncio
import contextlib
import os
from collections import deque
from collections.abc import AsyncIterator
from types import TracebackType

from websockets.exceptions import ConnectionClosedOK

from .errors import Disconnected
from .library import World
from .manager import LockManager
from .messages import Kind
from .transport import PUSHES, Options

URL = "local:"
_POLL = b'"id":0,"op":"poll"}'
_POLLED = b'{"id":0,'
_NOTHING = b'{"id":0,"notices":[],"ok":{}}'
_CLOSE = b'"id":0,"op":"close"}'


class Local:
    """A world whose agents are lock managers of this process. `local` makes one.

    What an agent does is done, and all others that it concerns have heard of it, before the call is over: the replies
    of a program that does the same things are the same in each run.
    """

    def __init__(self, world: World) -> None:
        self._world = world
        self._sockets: dict[int, _Socket] = {}
        self._count = 0
        self._closed = False

    @contextlib.asynccontextmanager
    async def connect(
        self, *, origin: str, kind: Kind = "window", bucket: str = "default"
    ) -> AsyncIterator[LockManager]:
        """A lock manager of the world: `async with world.connect(origin="https://a.test") as locks:`.

        It is as the one that `weblocks.connect` gives, and `origin`, `kind` and `bucket` are as there. Raises Refused
        for a bad origin or bucket, and Disconnected where the world was closed.
        """
        options = Options(URL, origin, kind, bucket, reconnect=False, opener=self._open)
        locks = await LockManager.open(options)
        try:
            yield locks
        finally:
            await locks.close()

    def answer(self, line: bytes) -> bytes:
        """The reply to a line of a script, as `World.answer` gives it. Its label is to be no number.

        The managers have heard of what it changed for them, before the call is over.
        """
        reply = self._world.answer(line)
        self.tell_others(0)
        return reply

    def audit(self) -> bytes:
        """What `weblocks audit` says of all that was asked so far, as `World.audit` gives it."""
        return self._world.audit()

    def close(self) -> None:
        """Ends the world; what its managers still do raises Disconnected. May be called again."""
        self._closed = True
        sockets, self._sockets = self._sockets, {}
        for socket in sockets.values():
            socket.end()
        self._world.close()

    def __enter__(self) -> Local:
        return self

    def __exit__(
        self, kind: type[BaseException] | None, error: BaseException | None, trace: TracebackType | None
    ) -> None:
        self.close()

    async def _open(self, _options: Options) -> _Socket:
        if self._closed:
            raise Disconnected("the world was closed")
        self._count += 1
        socket = _Socket(self, self._count)
        self._sockets[self._count] = socket
        return socket

    def ask(self, line: bytes) -> bytes:
        """The reply to a manager's line, of which the others are still to be told."""
        return self._world.answer(line)

    def tell_others(self, but: int) -> None:
        """Tells all managers but that of this number what changed for them, the oldest first."""
        for number, socket in self._sockets.items():
            if number != but and (told := self.ask(socket.head + _POLL)) != _NOTHING:
                socket.hear(b'{"id":null,' + told.removeprefix(_POLLED))

    def forget(self, number: int) -> None:
        """An agent has ended."""
        socket = self._sockets.pop(number, None)
        if socket is not None:
            self.ask(socket.head + _CLOSE)
            self.tell_others(number)


class _Socket:
    """An agent's connection to the world, as the rest of the package has one to a server."""

    subprotocol: str | None = PUSHES

    def __init__(self, local: Local, number: int) -> None:
        self.head = f'{{"agent":"{number}",'.encode()
        self._local = local
        self._number = number
        self._heard: deque[bytes] = deque()
        self._reader: asyncio.Future[None] | None = None
        self._ended = False

    @property
    def transport(self) -> _Socket:
        return self

    async def send(self, message: str, /) -> None:
        """Has the message answered at once, and the other agents told."""
        if self._ended:
            raise ConnectionClosedOK(None, None)
        self.hear(self._local.ask(self.head + message.encode()[1:]))
        self._local.tell_others(self._number)

    async def recv(self) -> bytes:
        while not self._heard:
            if self._ended:
                raise ConnectionClosedOK(None, None)
            self._reader = asyncio.get_running_loop().create_future()
            await self._reader
        return self._heard.popleft()

    async def close(self) -> None:
        self.abort()

    def abort(self) -> None:
        """Ends the agent, whose locks are free then."""
        if not self._ended:
            self.end()
            self._local.forget(self._number)

    def end(self) -> None:
        """No more comes; what came is still read."""
        self._ended = True
        self._wake()

    def hear(self, text: bytes) -> None:
        """Has the reply or push read."""
        self._heard.append(text)
        self._wake()

    def _wake(self) -> None:
        reader, self._reader = self._reader, None
        if reader is not None and not reader.done():
            reader.set_result(None)


def local(
    *, seed: bytes | None = None, keep_books: bool = False, library: str | os.PathLike[str] | None = None
) -> Local:
    """A world in this process, without a server: `with weblocks.local() as world:`, and `world.connect(..)` in it.

    `seed`, sixteen bytes by which tables spread names, comes from the system where none is given. With `keep_books`,
    `world.audit()` says what `weblocks audit` does. `library` is the path of `libweblocks.so`, where it isn't beside
    the package, named by WEBLOCKS_LIBRARY, in the repository, or on the loader's path.

    Raises MissingLibrary where it is found nowhere, and MemoryError.
    """
    return Local(World(seed=seed, keep_books=keep_books, library=library))
