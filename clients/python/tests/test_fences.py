"""Fencing tokens: which lock has which, where there are none, what is no token, and what the command line does."""

import asyncio
import re
import unittest

import weblocks
import weblocks.sync
from commands import CommandLineCase
from fencing import FENCES, PUSHES, Fencing, fence_of
from support import PACKAGE, SECONDS, Daemon, ServedCase, Server

EPOCH = 0x4D2
TOKEN = fence_of(EPOCH, 1)
MALFORMED = (
    None, {}, "", TOKEN, 5,
    [TOKEN], [None], [[]], [{"request": 1}], [{"fence": TOKEN}],
    [{"fence": TOKEN, "request": "1"}], [{"fence": TOKEN, "request": 1.0}], [{"fence": TOKEN, "request": True}],
    [{"fence": 1, "request": 1}], [{"fence": None, "request": 1}],
    *([{"fence": text, "request": 1}] for text in (
        "", TOKEN.upper(), TOKEN[1:], f"{TOKEN}0", f"{TOKEN}\n", TOKEN.replace("-", ""), f" {TOKEN}",
        TOKEN.replace("1", "\N{FULLWIDTH DIGIT ONE}"),
    )),
)  # fmt: skip


def fence(count):
    """A token of this epoch."""
    return fence_of(EPOCH, count)


class Tokens(ServedCase):
    pushes = True

    def setUp(self):
        super().setUp()
        self.stand_in = Fencing(self, self.server, EPOCH)

    def connect(self, **options):
        options.setdefault("url", self.stand_in.url)
        options.setdefault("fences", True)
        return super().connect(**options)

    async def fence_in(self, locks, name="db", **options):
        async with locks.request(name, **options) as lock:
            return lock.fence

    async def test_weblocks_fence_is_offered_before_weblocks_push_where_tokens_are_wanted_and_else_not(self):
        for options in ({}, {"fences": False}):
            async with self.connect(**options):
                pass
        self.assertEqual([[FENCES, PUSHES], [PUSHES]], self.stand_in.offers)

    async def test_a_lock_that_is_free_has_the_token_that_the_reply_to_its_request_tells(self):
        async with self.connect() as locks:
            for count, options in enumerate(({}, {"mode": "shared"}, {"if_available": True}, {"steal": True}), 1):
                self.assertEqual(fence(count), await self.fence_in(locks, **options))
                self.assertIsInstance(self.stand_in.told[-1]["id"], int)
        self.assertEqual("00000000000004d2-0000000000000001", fence(1))

    async def test_a_lock_that_was_waited_for_has_the_token_that_a_push_tells(self):
        async with self.connected(2) as (locks, other):
            async with locks.request("db"):
                waiter = asyncio.create_task(self.fence_in(other))
                await self.until_waiting(locks, 1)
                # No reply is owed to it then, by which it could be told.
                await other.query()
            self.assertEqual(fence(2), await waiter)
        self.assertEqual([False, True], [message["id"] is None for message in self.stand_in.told])
        self.assertNotIn("poll", self.stand_in.ops)

    async def test_of_several_grants_in_one_message_each_lock_has_its_own_token(self):
        # Whatever the order in which the tokens are listed: they are told by number.
        self.stand_in.member = lambda requests: self.stand_in.number(requests)[::-1]
        async with self.connected(2) as (locks, other):
            async with locks.request("db"):
                waiters = [asyncio.create_task(self.fence_in(other, mode="shared")) for _ in range(3)]
                await self.until_waiting(locks, 3)
            self.assertEqual([fence(2), fence(3), fence(4)], await asyncio.gather(*waiters))
        self.assertEqual(3, len(self.stand_in.told[-1]["notices"]))

    async def test_a_name_that_is_stolen_and_granted_again_has_a_greater_token_each_time(self):
        had = []

        async def hold(locks):
            async with locks.request("db") as lock:
                had.append(lock)
                await asyncio.sleep(SECONDS)

        async with self.connected(2) as (locks, other):
            holder = asyncio.create_task(hold(locks))
            await self.until_held(locks, "db")
            async with other.request("db", steal=True) as lock:
                had.append(lock)
                with self.assertRaises(weblocks.LockStolen):
                    await holder
            async with locks.request("db") as lock:
                had.append(lock)
        tokens = [lock.fence for lock in had]
        self.assertEqual([fence(1), fence(2), fence(3)], tokens)
        self.assertEqual(sorted(tokens), tokens)

    async def test_a_server_without_an_epoch_which_selects_weblocks_push_gives_none(self):
        self.stand_in.epoch = None
        async with self.connected(2) as (locks, other):
            async with locks.request("db") as lock:
                self.assertIsNone(lock.fence)
                waiter = asyncio.create_task(self.fence_in(other))
                await self.until_waiting(locks, 1)
            self.assertIsNone(await waiter)
        self.assertNotIn("poll", self.stand_in.ops)

    async def test_a_server_that_is_polled_gives_none(self):
        server = Server()
        self.addCleanup(server.kill)
        async with self.connect(url=server.url) as locks:
            self.assertIsNone(await self.fence_in(locks))

    async def test_who_wanted_no_tokens_has_none_and_passes_over_a_member_that_says_some(self):
        for unasked in (None, self.stand_in.number, lambda _requests: 5):
            self.stand_in.unasked = unasked
            async with self.connect(fences=False) as locks:
                self.assertIsNone(await self.fence_in(locks))

    async def test_after_a_reconnection_the_tokens_are_those_of_the_new_server_if_it_gives_some(self):
        async with self.connect() as locks:
            self.assertEqual(fence(1), await self.fence_in(locks))
            for epoch in (None, EPOCH + 1):
                self.stand_in.epoch = epoch
                self.stand_in.cut()
                expected = None if epoch is None else fence_of(epoch, 2)
                self.assertEqual(expected, await self.fence_in(locks))
        self.assertGreater(fence_of(EPOCH + 1, 2), fence(0xFFFF))

    async def test_a_malformed_member_is_no_reply_and_nothing_is_granted(self):
        for malformed in MALFORMED:
            self.stand_in.member = lambda _requests, it=malformed: it
            with self.subTest(malformed), self.assertRaisesRegex(weblocks.Disconnected, "no reply"):
                async with self.connect(reconnect=False) as locks, locks.request("db"):
                    self.fail("the lock was granted")

    async def test_a_grant_that_its_message_has_no_token_for_has_none(self):
        async with self.connect() as locks:
            for member in ([], [{"fence": TOKEN, "request": 4711}]):
                self.stand_in.member = lambda _requests, it=member: it
                self.assertIsNone(await self.fence_in(locks))
            self.stand_in.member = None
            self.assertIsNone(await self.fence_in(locks))


class TokensForThreads(ServedCase):
    pushes = True

    def test_a_lock_of_the_sync_face_has_its_token_where_it_is_wanted(self):
        stand_in = Fencing(self, self.server, EPOCH)
        for options, expected in (({"fences": True}, fence(1)), ({}, None)):
            with weblocks.sync.connect(stand_in.url, origin=self.origin, **options) as locks:
                with locks.request("db") as lock:
                    self.assertEqual(expected, lock.fence)


class Documents(unittest.TestCase):
    def test_the_resource_of_the_README_takes_what_is_newest_and_of_readers_what_is_no_older_than_a_writer(self):
        [shown] = re.findall(r"^class Resource:\n.*?(?=^\S)", (PACKAGE / "README.md").read_text(), re.M | re.S)
        names = {}
        exec(shown, names)
        resource = names["Resource"]()
        for mode, count, expected in (
            ("shared", 1, True), ("exclusive", 2, True), ("exclusive", 2, True), ("exclusive", 1, False),
            ("shared", 1, False), ("shared", 4, True), ("shared", 3, True), ("exclusive", 3, False),
            ("exclusive", 4, True), ("shared", 3, False), ("exclusive", 5, True), ("exclusive", 4, False),
        ):  # fmt: skip
            with self.subTest(mode=mode, count=count):
                self.assertEqual(expected, resource.admits(mode, fence(count)))


class With(CommandLineCase):
    SHOW = ("--", "sh", "-c", "echo ${WEBLOCKS_FENCE-none}")

    def setUp(self):
        super().setUp()
        self.stand_in = Fencing(self, self.daemon, EPOCH)
        self.stale = {
            "WEBLOCKS_URL": self.stand_in.url, "WEBLOCKS_ORIGIN": self.origin, "WEBLOCKS_FENCE": fence(99)
        }  # fmt: skip

    def test_with_fence_the_command_has_the_token_in_its_environment(self):
        for count, environment in enumerate((None, self.stale), 1):
            ended = self.run_whole("with", "db", "--fence", *self.SHOW, url=self.stand_in.url, environment=environment)
            self.assertEqual((0, f"{fence(count)}\n", ""), ended)

    def test_without_fence_it_has_none_and_none_of_before(self):
        self.assertEqual((0, "none\n", ""), self.run_whole("with", "db", *self.SHOW, environment=self.stale))
        self.assertEqual([[PUSHES]], self.stand_in.offers)

    def test_where_the_server_gives_none_the_command_is_not_run_and_the_status_is_77(self):
        said = "weblocks: the server gives no fencing tokens, so the command was not run\n"
        for url in (self.daemon.url, self.server.url):
            with self.subTest(url):
                self.assertEqual((77, "", said), self.run_whole("with", "db", "--fence", *self.SHOW, url=url))
        self.stand_in.member = None
        self.assertEqual((77, "", said), self.run_whole("with", "db", "--fence", *self.SHOW, url=self.stand_in.url))
        with self.connect() as locks:
            self.wait_for(lambda: locks.query().held == [])

    def test_where_the_server_gives_none_nothing_is_stolen_or_waited_for(self):
        with self.connect() as locks, locks.request("db") as lock:
            for words in ((), ("--steal",)):
                self.assertEqual(77, self.run_whole("with", "db", "--fence", *words, *self.SHOW)[0])
            lock.check()


class Epochs(ServedCase):
    """The daemon itself, with an epoch and without."""

    pushes = True

    def started(self, *words):
        daemon = Daemon(*words)
        self.addCleanup(daemon.kill)
        return daemon

    async def test_tokens_grow_by_a_reply_a_push_and_a_theft_and_with_the_next_epoch(self):
        told = []
        for epoch in ("1234", "1235"):
            url = self.started("--epoch", epoch).url
            async with self.connect(url=url, fences=True) as first, self.connect(url=url, fences=True) as second:
                async with first.request("db") as lock:
                    told.append(lock.fence)
                    waiting = asyncio.create_task(self.fence_in(second))
                    await self.until_waiting(first, 1)
                told.append(await waiting)
                async with first.request("db", steal=True) as lock:
                    told.append(lock.fence)
        self.assertEqual(fence(1), told[0])
        self.assertEqual(sorted(set(told)), told)

    async def fence_in(self, locks):
        async with locks.request("db") as lock:
            return lock.fence

    async def test_without_an_epoch_there_are_none(self):
        async with self.connect(url=self.started().url, fences=True) as locks:
            self.assertIsNone(await self.fence_in(locks))


if __name__ == "__main__":
    unittest.main()
