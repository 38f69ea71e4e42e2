"""Connections over a Unix socket: to a stand-in on one, and to a daemon that listens on one."""

import asyncio
import tempfile
import unittest
import unittest.mock
from pathlib import Path

import websockets

import weblocks
import weblocks.sync
from commands import CommandLineCase
from support import ServedCase, daemon_with_tokens, hand_on_to, serve_own
from weblocks import transport
from weblocks.targets import query_of

PUSHES = ["weblocks.push"]


def new_path(case):
    return Path(case.enterContext(tempfile.TemporaryDirectory()), "a socket")


class OverSockets(ServedCase):
    pushes = True

    async def test_locks_are_had_over_it_with_pushes_the_target_and_a_token(self):
        asked = []

        async def look(path, headers):
            asked.append((path, headers["Authorization"]))

        url = serve_own(self, hand_on_to(self.url), new_path(self), subprotocols=PUSHES, process_request=look)
        async with self.connect(url=url, token="right") as locks, self.connect() as other:
            self.assertTrue(locks._dispatcher._agent._connection.pushes)
            async with other.request("db"):
                waiter = asyncio.create_task(locks.request("db").__aenter__())
                await self.until_waiting(other, 1)
            await waiter
        self.assertEqual([(f"/?{query_of(self.origin)}", "Bearer right")], asked)

    async def test_a_server_on_it_that_does_not_push_is_polled(self):
        url = serve_own(self, hand_on_to(self.url), new_path(self))
        async with self.connect(url=url) as locks, locks.request("db"):
            self.assertFalse(locks._dispatcher._agent._connection.pushes)

    async def test_the_newer_interface_of_websockets_is_asked_for_it_by_path_and_URL(self):
        """It isn't installed by Debian: a stand-in of its module shows which function and words are taken."""
        path, calls = new_path(self), []

        class Newer:
            def unix_connect(self, path, uri, *, additional_headers, **words):
                calls.append((path, uri, additional_headers))
                return websockets.unix_connect(path, uri, **words)

        url = serve_own(self, hand_on_to(self.url), path, subprotocols=PUSHES)
        with unittest.mock.patch.multiple(transport, _library=Newer(), _headers_word="additional_headers"):
            async with self.connect(url=url, token="right") as locks, locks.request("db"):
                pass
        headers = {"Authorization": "Bearer right"}
        self.assertEqual([(str(path), f"ws://localhost/?{query_of(self.origin)}", headers)], calls)

    async def test_after_a_loss_it_is_connected_to_again(self):
        url = serve_own(self, hand_on_to(self.url), new_path(self), subprotocols=PUSHES)
        async with self.connect(url=url) as locks:
            locks._dispatcher._agent._connection._socket.transport.abort()
            async with locks.request("db"):
                pass

    async def test_threads_have_it_too(self):
        url = serve_own(self, hand_on_to(self.url), new_path(self), subprotocols=PUSHES)

        def hold():
            with weblocks.sync.connect(url, origin=self.origin) as locks, locks.request("db") as lock:
                return lock.name

        self.assertEqual("db", await asyncio.to_thread(hold))

    async def test_where_nobody_listens_connect_raises_Disconnected_and_names_the_socket(self):
        path = new_path(self)
        for place, why in ((path, "No such file or directory"), (f"/{'a' * 200}", "too long")):
            with self.assertRaisesRegex(weblocks.Disconnected, f"no server answers at unix:{place}: .*{why}"):
                async with self.connect(url=f"unix:{place}"):
                    pass

    async def test_a_path_that_no_file_can_have_is_a_ValueError(self):
        for url in ("unix:", "unix:/a\0b"):
            with self.assertRaises(ValueError):
                async with self.connect(url=url):
                    pass


class OnTheCommandLine(CommandLineCase):
    def test_the_server_is_that_of_WEBLOCKS_URL_and_of_url_before_it(self):
        url = serve_own(self, hand_on_to(self.daemon.url), new_path(self), subprotocols=PUSHES)
        words = ("with", "db", "--", "echo", "held")
        self.assertEqual((0, "held\n", ""), self.run_whole(*words, url=url))
        words = ("with", "db", "--url", url, "--", "echo", "held")
        self.assertEqual((0, "held\n", ""), self.run_whole(*words, url="unix:/nowhere"))
        status, out, err = self.run_whole("with", "db", "--", "echo", "held", url="unix:/nowhere")
        self.assertEqual((69, ""), (status, out))
        self.assertIn("no server answers at unix:/nowhere", err)


class AtADaemon(ServedCase):
    async def test_a_daemon_lets_in_whoever_reaches_its_socket_without_a_token(self):
        path = new_path(self)
        server = daemon_with_tokens(self, "right", words=("--listen", f"unix:{path}"))
        async with self.connect(url=f"unix:{path}") as locks, self.connect(url=server.url, token="right") as other:
            self.assertTrue(locks._dispatcher._agent._connection.pushes)
            async with locks.request("db"), other.request("db", if_available=True) as lock:
                self.assertIsNone(lock)
        with self.assertRaises(weblocks.Forbidden):
            async with self.connect(url=server.url):
                pass
