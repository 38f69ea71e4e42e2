"""How long a connection may take to be made, and that whoever is cancelled meanwhile gets none."""

import asyncio
import contextlib
import random
import time
import unittest
import unittest.mock

from websockets.legacy import client
from websockets.legacy.server import serve

import weblocks
from support import SECONDS, ServedCase, free_port, serve_own
from weblocks import transport


class Times(ServedCase):
    """`open_timeout` bounds all of it, from the first byte to the service's answer."""

    async def expect_to_end_after(self, seconds, before, url):
        """It isn't opened in that time, nor in a part of it, and not much later either."""
        begun = time.monotonic()
        said = f"the server at {url} did not answer in {seconds} seconds"
        with self.assertRaisesRegex(weblocks.Disconnected, said):
            async with self.connect(url=url, open_timeout=seconds, heartbeat=SECONDS):
                self.fail("it was opened")
        took = time.monotonic() - begun
        self.assertGreaterEqual(took, seconds)
        self.assertLess(took, before)

    async def test_a_server_that_answers_the_handshake_and_nothing_more_raises_Disconnected_after_the_timeout(self):
        async def be_silent(client, _path=""):
            await client.wait_closed()

        for subprotocols in (["weblocks.push"], None):
            with self.subTest(subprotocols):
                await self.expect_to_end_after(1, 10, serve_own(self, be_silent, subprotocols=subprotocols))

    async def test_a_second_handshake_has_what_the_first_left_of_the_time(self):
        asked = []

        async def refuse_late_and_be_silent_then(reader, writer):
            with contextlib.closing(writer), contextlib.suppress(OSError):
                asked.append(await reader.readuntil(b"\r\n\r\n"))
                if len(asked) == 1:
                    await asyncio.sleep(2.5)
                    writer.write(b"HTTP/1.1 404 Not Found\r\nContent-Length: 0\r\n\r\n")
                await reader.read()

        server = await asyncio.start_server(refuse_late_and_be_silent_then, "127.0.0.1", 0)
        self.addCleanup(server.close)
        await self.expect_to_end_after(3, 5, "ws://127.0.0.1:%d" % server.sockets[0].getsockname()[1])
        self.assertEqual([True, False], [b"weblocks.push" in it for it in asked])

    async def test_a_connection_whose_time_is_over_is_ended(self):
        ended = asyncio.Event()

        async def be_silent(client, _path=""):
            await client.wait_closed()
            ended.set()

        async with serve(be_silent, "127.0.0.1", free_port(), subprotocols=["weblocks.push"]) as server:
            await self.expect_to_end_after(1, 10, "ws://127.0.0.1:%d" % server.sockets[0].getsockname()[1])
            await asyncio.wait_for(ended.wait(), SECONDS)


class Cancelling(ServedCase):
    pushes = True

    async def enter(self):
        async with self.connect():
            await asyncio.sleep(0)

    async def test_a_cancellation_that_comes_as_the_handshake_ends_is_not_lost(self):
        shake = client.WebSocketClientProtocol.handshake

        async def shake_and_cancel(*words, **more):
            await shake(*words, **more)
            task.cancel()

        older = unittest.mock.patch.multiple(transport, _library=client, _headers_word="extra_headers")
        with older, unittest.mock.patch.object(client.WebSocketClientProtocol, "handshake", shake_and_cancel):
            task = asyncio.create_task(self.enter())
            with self.assertRaises(asyncio.CancelledError):
                await task
        await self.expect_nothing_left()

    async def test_a_cancellation_is_not_lost_whenever_it_comes(self):
        # The time that opening takes here is found out on the way, so that most come before its end.
        longest, cancelled = 0.05, 0
        for _ in range(200):
            task = asyncio.create_task(self.enter())
            await asyncio.sleep(random.uniform(0, longest))
            if task.cancel():
                cancelled += 1
                longest *= 1.1
                with self.assertRaises(asyncio.CancelledError):
                    await task
            else:
                longest *= 0.9
                await task
        self.assertGreater(cancelled, 10)


if __name__ == "__main__":
    unittest.main()
