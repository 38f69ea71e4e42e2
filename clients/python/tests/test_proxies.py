"""What clients make of a proxy that doesn't reach the daemon for a while: of its statuses, its pages and its cuts."""

import asyncio
import socket
import struct
import unittest
import unittest.mock
from http import HTTPStatus

import websockets

import weblocks
from fencing import FENCES, PUSHES
from support import SECONDS, Daemon, ServedCase, hand_on_to, serve_own
from weblocks import transport

PAGE = "https://a.test/maintenance"
TO_PAGE = (HTTPStatus.FOUND, [("Location", PAGE)], b"")
RESETS = struct.pack("ii", 1, 0)
"""For SO_LINGER: a socket that is closed resets its connection."""


class Front:
    """A proxy before a daemon: it takes its answers to handshakes from `answers`, and hands them on where none is left.

    `offers` tells of each handshake whether it offered subprotocols.
    """

    def __init__(self, case, url):
        self.answers = []
        self.offers = []
        self.url = serve_own(case, hand_on_to(url), subprotocols=[FENCES, PUSHES], process_request=self._answer)

    async def _answer(self, _path, headers):
        self.offers.append("Sec-WebSocket-Protocol" in headers)
        return self.answers.pop(0) if self.answers else None


def cut(locks):
    """Ends the connection of a manager."""
    locks._dispatcher._agent._connection._socket.transport.abort()


class Fronts(ServedCase):
    pushes = True

    def setUp(self):
        super().setUp()
        self.front = Front(self, self.url)

    async def fence_in(self, locks):
        async with locks.request("db", timeout=SECONDS) as lock:
            return lock.fence

    async def test_a_status_from_500_on_raises_Disconnected_and_is_not_tried_without_subprotocols(self):
        for status in (500, 502, 503, 504):
            self.front.answers = [(HTTPStatus(status), [], b"no\n")]
            self.front.offers = []
            said = f"has no room for a further client, or reaches no daemon .HTTP status {status}"
            with self.subTest(status):
                with self.assertRaisesRegex(weblocks.Disconnected, said):
                    async with self.connect(url=self.front.url):
                        pass
                self.assertEqual([True], self.front.offers)

    async def test_locks_have_fencing_tokens_after_a_reconnection_that_failed_by_502_first(self):
        daemon = Daemon("--epoch", "1234")
        self.addCleanup(daemon.kill)
        front = Front(self, daemon.url)
        async with self.connect(url=front.url, fences=True) as locks:
            before = await self.fence_in(locks)
            front.answers = [(HTTPStatus.BAD_GATEWAY, [], b"no\n")]
            cut(locks)
            after = await self.fence_in(locks)
        self.assertEqual([True] * 3, front.offers)
        self.assertIsNotNone(after)
        self.assertGreater(after, before)

    async def test_a_handshake_that_is_cut_off_raises_Disconnected_and_is_not_tried_without_subprotocols(self):
        for resets in (False, True):
            asked = []

            async def cut_off(reader, writer, resets=resets, asked=asked):
                asked.append(await reader.readuntil(b"\r\n\r\n"))
                if resets:
                    writer.get_extra_info("socket").setsockopt(socket.SOL_SOCKET, socket.SO_LINGER, RESETS)
                writer.close()

            server = await asyncio.start_server(cut_off, "127.0.0.1", 0)
            self.addCleanup(server.close)
            url = "ws://127.0.0.1:%d" % server.sockets[0].getsockname()[1]
            with self.subTest(resets=resets):
                with self.assertRaisesRegex(weblocks.Disconnected, "ended the connection before it answered"):
                    async with self.connect(url=url):
                        pass
                self.assertEqual(1, len(asked))

    async def test_a_redirection_to_a_page_raises_Disconnected_which_names_it(self):
        self.front.answers = [TO_PAGE]
        with self.assertRaisesRegex(weblocks.Disconnected, f"redirects to '{PAGE}', which is no URL of a WebSocket"):
            async with self.connect(url=self.front.url):
                pass

    async def test_after_redirections_to_a_page_a_connection_is_made_again_and_requests_that_waited_are_granted(self):
        async with self.connect(url=self.front.url) as locks:
            self.front.answers = [TO_PAGE] * 3
            cut(locks)
            async with locks.request("db", timeout=SECONDS) as lock:
                lock.check()
        self.assertEqual([True] * 5, self.front.offers)


class Library:
    """A stand-in for the library's module: it raises its errors, and connects where none is left."""

    def __init__(self):
        self.errors = []

    async def connect(self, url, **words):
        if self.errors:
            raise self.errors.pop(0)
        return await websockets.connect(url, **words)


class ErrorsOfTheLibrary(ServedCase):
    pushes = True

    def setUp(self):
        super().setUp()
        self.library = Library()
        self.enterContext(unittest.mock.patch.object(transport, "_library", self.library))

    async def test_after_unforeseen_ones_a_connection_is_made_again_and_the_log_tells_them(self):
        async with self.connect() as locks:
            self.library.errors = [RuntimeError("unforeseen"), ValueError("of no URL"), EOFError("cut off")]
            with self.assertLogs("weblocks") as logged:
                cut(locks)
                async with locks.request("db", timeout=SECONDS) as lock:
                    lock.check()
        said = [record.getMessage() for record in logged.records]
        told = ["no connection: RuntimeError('unforeseen')", "no connection: ValueError('of no URL')"]
        self.assertEqual(told, said[1:-1])

    async def test_an_EOFError_raises_Disconnected(self):
        self.library.errors = [EOFError("connection closed while reading HTTP status line")]
        with self.assertRaisesRegex(weblocks.Disconnected, "ended the connection before it answered"):
            async with self.connect():
                pass


if __name__ == "__main__":
    unittest.main()
