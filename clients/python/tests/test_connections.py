"""How connections are made, watched, lost and made again."""

import asyncio
import contextlib
import json
import socket
import time
import unittest
import unittest.mock
from http import HTTPStatus

import websockets
from websockets.legacy.server import serve

import weblocks
from support import SECONDS, ServedCase, free_port, hand_on_to, proxied, serve_own
from weblocks import transport
from weblocks.targets import query_of


class Handshakes(ServedCase):
    async def test_where_no_server_listens_connect_raises_Disconnected_and_names_the_URL(self):
        url = f"ws://127.0.0.1:{free_port()}"
        with self.assertRaisesRegex(weblocks.Disconnected, f"no server answers at {url}: Connection refused"):
            async with self.connect(url=url):
                pass

    async def test_a_server_that_refuses_subprotocols_is_tried_without_and_polled(self):
        server = await self.refuse("sec-websocket-protocol", 400)
        async with self.connect(url=server) as locks, self.connect() as other:
            self.assertFalse(locks._dispatcher._agent._connection.pushes)
            async with other.request("db"):
                waiter = asyncio.create_task(locks.request("db").__aenter__())
                await self.until_waiting(other, 1)
            await waiter

    async def test_a_full_server_raises_Disconnected_which_says_so(self):
        with self.assertRaisesRegex(weblocks.Disconnected, "no room"):
            async with self.connect(url=await self.refuse("host", 503)):
                pass

    async def test_a_server_that_speaks_something_else_raises_Disconnected(self):
        with self.assertRaisesRegex(weblocks.Disconnected, "does not speak WebSocket here .HTTP status 404"):
            async with self.connect(url=await self.refuse("host", 404)):
                pass

    async def test_a_server_that_does_not_answer_the_handshake_raises_Disconnected_after_the_timeout(self):
        async def ignore(reader, writer):
            with contextlib.closing(writer):
                await reader.read()

        server = await asyncio.start_server(ignore, "127.0.0.1", free_port())
        self.addCleanup(server.close)
        begun = time.monotonic()
        with self.assertRaisesRegex(weblocks.Disconnected, "did not answer in 0.2 seconds"):
            async with self.connect(url="ws://127.0.0.1:%d" % server.sockets[0].getsockname()[1], open_timeout=0.2):
                pass
        self.assertGreaterEqual(time.monotonic() - begun, 0.2)

    async def test_close_code_1008_raises_Forbidden_and_is_not_tried_again(self):
        connections, url = await self.close_with(1008)
        with self.assertRaisesRegex(weblocks.Forbidden, "1008"):
            async with self.connect(url=url):
                pass
        await asyncio.sleep(0.5)
        self.assertEqual(1, len(connections))

    async def test_close_codes_1001_and_1013_raise_Disconnected(self):
        for code in (1001, 1013):
            _connections, url = await self.close_with(code)
            with self.assertRaisesRegex(weblocks.Disconnected, str(code)):
                async with self.connect(url=url):
                    pass

    async def test_a_server_that_sends_no_replies_but_other_texts_is_left(self):
        for text in (
            "hello",
            "{}",
            "[]",
            '{"id":1,"notices":[],"ok":5}',
            '{"id":1,"notices":[{"request":[],"phase":1}],"ok":{}}',
            '{"id":7,"notices":[],"ok":{}}',
        ):
            with self.subTest(text), self.assertRaisesRegex(weblocks.Disconnected, "no reply"):
                async with self.connect(url=await self.answer_with(text)):
                    pass

    async def test_the_newer_interface_of_websockets_is_taken_where_there_is_one(self):
        """It isn't installed by Debian: a stand-in of its module shows which function and words are taken."""
        calls = []

        class Newer:
            def connect(self, url, *, additional_headers, subprotocols, compression, max_size, ping_interval, **times):
                calls.append((url, additional_headers, subprotocols))
                return websockets.connect(url, subprotocols=subprotocols, compression=compression)

        with unittest.mock.patch.dict("sys.modules", {"websockets.asyncio.client": Newer()}):
            found = transport._find_library()
        with unittest.mock.patch.multiple(transport, _library=found[0], _headers_word=found[1]):
            async with self.connect(token="right") as locks, locks.request("db"):
                pass
        url = f"{self.url}/?{query_of(self.origin)}"
        self.assertEqual([(url, {"Authorization": "Bearer right"}, ["weblocks.push"])], calls)

    async def test_an_origin_or_a_bucket_with_a_lone_surrogate_raises_ValueError_before_anything_is_sent(self):
        nowhere = f"ws://127.0.0.1:{free_port()}"
        for words in ({"origin": "https://a.test/\ud800"}, {"bucket": "\udd12\ud83d"}):
            with self.subTest(words), self.assertRaisesRegex(ValueError, f"{[*words][0]} '.*' has a lone surrogate"):
                async with self.connect(url=nowhere, **words):
                    pass
        async with self.connect(origin="https://a.test/\ud83d\udd12") as locks, locks.request("db"):
            pass

    async def refuse(self, header, status):
        """A server that refuses handshakes with that header, and hands the others on to the program."""
        async def process_request(_path, headers):
            return (HTTPStatus(status), [], b"no\n") if header in headers else None

        return serve_own(self, hand_on_to(self.server.url), process_request=process_request)

    async def close_with(self, code):
        connections = []

        async def handle(client, _path=""):
            connections.append(client)
            await client.close(code)

        return connections, serve_own(self, handle)

    async def answer_with(self, text):
        async def handle(client, _path=""):
            await client.recv()
            await client.send(text)
            await client.wait_closed()

        return serve_own(self, handle)


class Reconnecting:
    """The tests; the classes below say over which server."""

    async def asyncSetUp(self):
        await super().asyncSetUp()
        self.own = self.start_server()
        self.addCleanup(self.own.kill)
        self.url = self.own.url

    async def test_a_server_that_is_killed_and_started_again_loses_locks_and_gets_the_waiting_requests_in_order(self):
        granted = []

        async def wait(locks, number):
            async with locks.request("db"):
                granted.append(number)

        async with self.connect() as locks:
            with self.assertLogs("weblocks", "WARNING"), self.assertRaises(weblocks.LockLost):
                async with locks.request("db"):
                    tasks = [asyncio.create_task(wait(locks, number)) for number in range(20)]
                    await self.until_waiting(locks, 20)
                    self.own.kill()
                    await asyncio.sleep(SECONDS)
            later = asyncio.create_task(wait(locks, 20))
            await asyncio.sleep(0.3)
            self.assertEqual([], granted)
            self.own.start()
            await asyncio.gather(*tasks, later)
        self.assertEqual(list(range(21)), granted)
        await self.expect_nothing_left()

    async def test_a_request_that_waits_through_a_lost_connection_still_has_its_timeout(self):
        async with self.connect() as locks:
            self.own.kill()
            with self.assertRaises(TimeoutError):
                async with locks.request("db", timeout=0.5):
                    self.fail("the lock was granted")
            with self.assertRaises(weblocks.Disconnected):
                async with locks.request("db", timeout=0):
                    self.fail("the lock was granted")
            self.own.start()
            async with locks.request("db", timeout=SECONDS):
                pass

    async def test_a_request_that_is_cancelled_while_no_server_is_there_is_not_asked_again(self):
        async with self.connect() as locks:
            self.own.kill()
            waiter = asyncio.create_task(locks.request("db").__aenter__())
            await asyncio.sleep(0.3)
            waiter.cancel()
            self.own.start()
            async with locks.request("other", timeout=SECONDS):
                snapshot = await locks.query()
            self.assertEqual((["other"], []), ([info.name for info in snapshot.held], snapshot.pending))

    async def test_without_reconnect_a_lost_connection_ends_the_manager(self):
        async def hold(locks):
            async with locks.request("db"):
                await asyncio.sleep(SECONDS)

        async with self.connect(reconnect=False) as locks:
            tasks = [asyncio.create_task(hold(locks)) for _ in range(2)]
            await self.until_waiting(locks, 1)
            self.own.kill()
            holder, waiter = await asyncio.gather(*tasks, return_exceptions=True)
            self.assertIsInstance(holder, weblocks.LockLost)
            self.assertIsInstance(waiter, weblocks.Disconnected)
            with self.assertRaises(weblocks.Disconnected):
                await hold(locks)


class ReconnectionsToPolledServers(Reconnecting, ServedCase):
    pass


class ReconnectionsToDaemons(Reconnecting, ServedCase):
    pushes = True


class CuttingOff:
    """The connection is there, and nothing comes over it; the classes below say to which server it is."""

    async def test_a_stopped_server_loses_the_lock_within_two_heartbeats_and_is_used_again_when_it_goes_on(self):
        server = self.start_server()
        self.addCleanup(server.kill)
        async with self.connect(url=server.url, heartbeat=0.5, open_timeout=1) as locks:
            with self.assertRaisesRegex(weblocks.LockLost, "did not answer for 0.5 seconds"):
                async with locks.request("db"):
                    server.stop()
                    stopped = time.monotonic()
                    await asyncio.sleep(SECONDS)
            self.assertLess(time.monotonic() - stopped, 10)
            waiter = asyncio.create_task(locks.request("db", timeout=SECONDS).__aenter__())
            await asyncio.sleep(0.5)
            self.assertFalse(waiter.done())
            server.go_on()
            lock = await waiter
            lock.check()

    async def test_what_is_asked_of_a_stopped_server_reaches_it_in_its_order_when_it_goes_on(self):
        server = self.start_server()
        self.addCleanup(server.kill)
        async with self.connect(url=server.url, heartbeat=SECONDS) as locks:
            connection = locks._dispatcher._agent._connection
            way_out = connection._socket.transport.get_extra_info("socket")
            way_out.setsockopt(socket.SOL_SOCKET, socket.SO_SNDBUF, 4096)
            server.stop()
            blocks = [locks.request("x" * 1000, if_available=True) for _ in range(2000)]
            tasks = [asyncio.create_task(block.__aenter__()) for block in blocks]
            await asyncio.sleep(0.1)
            self.assertGreater(len(connection._outbox), 100)
            server.go_on()
            granted = [lock is not None for lock in await asyncio.gather(*tasks)]
            self.assertEqual([True] + [False] * 1999, granted)
            async with locks.request("other"):
                self.assertEqual(0, len(connection._outbox))

    async def test_where_bytes_are_swallowed_the_lock_is_lost_and_waiting_requests_are_asked_again(self):
        with proxied(self.server.port) as proxy:
            async with self.connect(url=proxy.url, heartbeat=0.5, open_timeout=1) as locks, self.connect() as other:
                async with other.request("busy"):
                    waiter = asyncio.create_task(locks.request("busy").__aenter__())
                    await self.until_waiting(other, 1)
                    with self.assertRaises(weblocks.LockLost):
                        async with locks.request("db"):
                            proxy.swallows = True
                            await asyncio.sleep(SECONDS)
                    proxy.swallows = False
                    proxy.cut()
                    await self.until_waiting(other, 1)
                lock = await waiter
                lock.check()

    async def test_what_does_not_wait_raises_Disconnected_where_bytes_are_swallowed_and_is_not_asked_again(self):
        with proxied(self.server.port) as proxy:
            async with self.connect(url=proxy.url, heartbeat=0.5, open_timeout=1) as locks, self.connect() as other:
                proxy.swallows = True
                for options in ({"steal": True}, {"if_available": True}, {"timeout": 0}):
                    with self.assertRaises(weblocks.Disconnected):
                        async with locks.request("db", **options):
                            self.fail("the lock was granted")
                proxy.swallows = False
                proxy.cut()
                async with locks.request("other", timeout=SECONDS):
                    self.assertEqual(["other"], [info.name for info in (await other.query()).held])

    async def test_a_query_raises_Disconnected_where_bytes_are_swallowed(self):
        with proxied(self.server.port) as proxy:
            async with self.connect(url=proxy.url, heartbeat=0.3) as locks:
                proxy.swallows = True
                with self.assertRaises(weblocks.Disconnected):
                    await locks.query()

    async def test_close_takes_no_more_than_some_seconds_where_bytes_are_swallowed(self):
        with proxied(self.server.port) as proxy:
            async with self.connect(url=proxy.url) as locks:
                proxy.swallows = True
                begun = time.monotonic()
                await locks.close()
                self.assertLess(time.monotonic() - begun, 10)

    async def test_a_server_that_answers_keeps_its_clients_over_many_heartbeats(self):
        async with self.connect(heartbeat=1.5) as locks, locks.request("db") as lock:
            await asyncio.sleep(5)
            lock.check()

    async def test_an_event_loop_that_was_kept_busy_for_longer_than_a_heartbeat_loses_nothing(self):
        async with self.connect(heartbeat=1) as locks, locks.request("db") as lock:
            for _ in range(3):
                time.sleep(2.2)
                await asyncio.sleep(0.1)
            await asyncio.sleep(2)
            lock.check()

    async def test_a_heartbeat_that_cannot_be_sent_for_an_unforeseen_reason_loses_the_lock_too(self):
        async def fail(_text):
            raise RuntimeError("unforeseen")

        async with self.connect(heartbeat=0.3) as locks:
            with self.assertRaisesRegex(weblocks.LockLost, "did not answer for 0.3 seconds"):
                async with locks.request("db"):
                    locks._dispatcher._agent._connection._socket.send = fail
                    await asyncio.sleep(SECONDS)

    async def test_pushes_alone_are_no_sign_of_life(self):
        async def handle(client, _path=""):
            for _ in range(2):
                asked = json.loads(await client.recv())
                ok = {"client": "client-1"} if asked["op"] == "open" else {"signal": 1}
                await client.send(json.dumps({"id": asked["id"], "notices": [], "ok": ok}))
            with contextlib.suppress(websockets.ConnectionClosed):
                while True:
                    await client.send('{"id":null,"notices":[],"ok":{}}')
                    await asyncio.sleep(0.05)

        async with serve(handle, "127.0.0.1", free_port(), subprotocols=["weblocks.push"]) as server:
            url = "ws://127.0.0.1:%d" % server.sockets[0].getsockname()[1]
            async with self.connect(url=url, heartbeat=0.5, reconnect=False) as locks:
                waiter = asyncio.create_task(locks.request("db").__aenter__())
                with self.assertRaisesRegex(weblocks.Disconnected, "did not answer"):
                    await waiter


class CutOffFromPolledServers(CuttingOff, ServedCase):
    pass


class CutOffFromDaemons(CuttingOff, ServedCase):
    pushes = True


class Timers:
    """The tests; the classes below say over which server."""

    async def test_a_thousand_pending_requests_cost_no_timers(self):
        loop = asyncio.get_running_loop()
        async with self.connected(2) as (locks, other):
            async with other.request("db"):
                made = []
                call_at = loop.call_at
                loop.call_at = lambda *args, **more: made.append(call_at(*args, **more)) or made[-1]
                tasks = [asyncio.create_task(locks.request("db").__aenter__()) for _ in range(1000)]
                await self.until_waiting(other, 1000)
                running = [timer for timer in made if not timer.cancelled() and timer.when() > loop.time()]
                self.assertLessEqual(len(running), 2)
                del loop.call_at
                for task in tasks:
                    task.cancel()
                await asyncio.wait(tasks)
                await self.until_waiting(other, 0)


class TimersOverPolls(Timers, ServedCase):
    pass


class TimersOverPushes(Timers, ServedCase):
    pushes = True


if __name__ == "__main__":
    unittest.main()
