"""The targets of handshakes, by the vectors that all clients share, and what becomes of one that is refused."""

import asyncio
import json
import unittest
from http import HTTPStatus

import weblocks
from commands import CommandLineCase
from support import TOP, Daemon, ServedCase, hand_on_to, serve_own
from weblocks.targets import canonical_origin, query_of, url_with_target

VECTORS = json.loads((TOP / "tests/clients.d/targets.json").read_text())


class Sharded:
    """A server of the tests' own, which takes some targets alone where they are set, and notes all that it is asked."""

    def __init__(self, case, server):
        self.taken = None
        self.asked = []
        self.url = serve_own(case, hand_on_to(server.url), process_request=self._look)

    async def _look(self, path, _headers):
        self.asked.append(path)
        return None if self.taken is None or path in self.taken else (HTTPStatus.BAD_REQUEST, [], b"no\n")


class Texts(unittest.TestCase):
    def test_the_target_is_the_origin_as_the_URL_standard_serializes_it_and_nothing_where_it_is_opaque(self):
        for vector in VECTORS:
            for url in ("ws://127.0.0.1:9", "ws://127.0.0.1:9/"):
                with self.subTest(vector["origin"]):
                    found = url_with_target(url, vector["origin"])
                    self.assertEqual("ws://127.0.0.1:9" + vector["target"], found)

    def test_a_URL_with_a_path_or_a_query_of_its_own_stays_as_it_is(self):
        for url in ("ws://127.0.0.1:9/locks", "wss://a.test/?shard=1", "ws://a.test/?origin=https%3A%2F%2Fb.test"):
            self.assertEqual(url, url_with_target(url, "https://a.test"))

    def test_what_can_not_be_made_canonical_goes_as_it_is(self):
        for origin in ("https://a b.test", "https://", "https://a.test:65536", "https://1.2.3.400", "https://[::1%251]",
                       "https://[::1", "https://a%00.test", "https://a.test:x"):  # fmt: skip
            self.assertIsNone(canonical_origin(origin), origin)
        self.assertEqual("origin=https%3A%2F%2Fa%20b.test", query_of("https://a b.test"))
        self.assertEqual("origin=https%3A%2F%2F%3F.test", query_of("https://\ud800.test"))


class Refusals(ServedCase):
    async def test_each_handshake_has_it_and_after_a_loss_too(self):
        server = Sharded(self, self.server)
        async with self.connect(url=server.url) as locks:
            locks._dispatcher._agent._connection._socket.transport.abort()
            async with locks.request("db"):
                pass
        self.assertEqual([f"/?{query_of(self.origin)}"] * 2, server.asked)

    async def test_a_target_that_is_refused_raises_Forbidden_which_names_it(self):
        server = Sharded(self, self.server)
        server.taken = [f"/?{query_of(self.origin)}"]
        async with self.connect(url=server.url) as locks, locks.request("db"):
            pass
        with self.assertRaisesRegex(weblocks.Forbidden, r"/\?origin=https%3A%2F%2Fb.test .*400"):
            async with self.connect(url=server.url, origin="https://b.test"):
                pass

    async def test_it_is_not_tried_again_after_a_loss(self):
        server = Sharded(self, self.server)
        async with self.connect(url=server.url) as locks:
            server.taken = []
            with self.assertRaises(weblocks.LockLost):
                async with locks.request("db"):
                    locks._dispatcher._agent._connection._socket.transport.abort()
                    await asyncio.sleep(60)
            with self.assertRaisesRegex(weblocks.Forbidden, "400"):
                async with locks.request("db"):
                    pass
            before = len(server.asked)
            await asyncio.sleep(0.5)
            self.assertEqual(before, len(server.asked))


class Words(CommandLineCase):
    def test_a_refused_target_ends_the_command_line_with_77_and_a_line(self):
        server = Sharded(self, self.daemon)
        server.taken = []
        status, out, err = self.run_whole("with", "db", "--", "echo", "held", url=server.url)
        self.assertEqual((77, ""), (status, out))
        self.assertRegex(err, r"refused the handshake for ws://.*/\?origin=https%3A%2F%2Ftest-.*400")


class AtADaemon(ServedCase):
    @classmethod
    def start_server(cls):
        return Daemon("--sharded")

    async def test_a_daemon_takes_the_target_of_each_origin_and_of_no_opaque_one(self):
        for vector in VECTORS:
            with self.subTest(vector["origin"]):
                if vector["target"] == "/":
                    with self.assertRaisesRegex(weblocks.Forbidden, "400"):
                        async with self.connect(origin=vector["origin"]):
                            pass
                else:
                    async with self.connect(origin=vector["origin"]) as locks, locks.request("db"):
                        pass

    async def test_over_the_target_of_one_origin_it_lets_none_open_another(self):
        url = f"{self.url}/?origin=https%3A%2F%2Fb.test"
        async with self.connect(url=url, origin="https://b.test/page") as locks, locks.request("db"):
            pass
        with self.assertRaisesRegex(weblocks.Forbidden, "1008"):
            async with self.connect(url=url, origin="https://a.test"):
                pass
