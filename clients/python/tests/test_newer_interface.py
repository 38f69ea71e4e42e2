"""The newer interface of `websockets`, whose `send` sets a timeout while its connection closes, and so wants a task."""

import asyncio
import contextlib
import unittest
import unittest.mock

import websockets

import weblocks
from support import SECONDS, ServedCase
from test_locks import Behaviour
from weblocks import transport


class Socket:
    """A stand-in for a connection of that interface, which isn't installed by Debian: one of the older with its `send`.

    Once `closing` is set, the other side has begun the closing handshake, and doesn't end the connection below.
    """

    __module__ = "websockets.asyncio.client"

    def __init__(self, socket):
        self._socket = socket
        self.closing = False
        self.subprotocol = socket.subprotocol
        self.transport = socket.transport
        self.recv = socket.recv
        self.close = socket.close

    async def send(self, message):
        if not self.closing:
            await self._socket.send(message)
            return
        with contextlib.suppress(TimeoutError):
            async with asyncio.timeout_at(asyncio.get_running_loop().time() + 0.2):
                await self._socket.wait_closed()
        self.transport.abort()
        await self._socket.wait_closed()
        raise websockets.ConnectionClosedError(None, None)


class Library:
    """A stand-in for its module."""

    async def connect(self, url, *, additional_headers=None, **words):
        return Socket(await websockets.connect(url, extra_headers=additional_headers, **words))


class OverTheNewerInterface(ServedCase):
    pushes = True

    def setUp(self):
        super().setUp()
        newer = unittest.mock.patch.multiple(transport, _library=Library(), _headers_word="additional_headers")
        self.enterContext(newer)


class Locks(Behaviour, OverTheNewerInterface):
    pass


class Closing(OverTheNewerInterface):
    """The other side has said that it closes, and the end of the connection doesn't come."""

    def begin_closing(self, locks):
        locks._dispatcher._agent._connection._socket.closing = True

    async def test_the_heartbeat_finds_that_the_lock_is_lost(self):
        async with self.connect(heartbeat=0.5) as locks:
            with self.assertRaises(weblocks.LockLost):
                async with locks.request("db"):
                    self.begin_closing(locks)
                    await asyncio.sleep(SECONDS)
            async with locks.request("db", timeout=SECONDS) as lock:
                lock.check()

    async def test_a_task_that_asks_for_a_lock_is_not_cancelled_and_gets_it_over_the_next_connection(self):
        async with self.connect(heartbeat=SECONDS) as locks:
            self.begin_closing(locks)
            async with locks.request("db", timeout=SECONDS) as lock:
                await asyncio.sleep(0.5)
                lock.check()

    async def test_a_task_that_releases_its_lock_is_not_cancelled_and_learns_that_it_was_lost(self):
        async with self.connect(heartbeat=SECONDS) as locks:
            with self.assertRaises(weblocks.LockLost):
                async with locks.request("db"):
                    self.begin_closing(locks)


if __name__ == "__main__":
    unittest.main()
