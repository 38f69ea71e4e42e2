"""What clients make of who a daemon lets in, of its limits, of its silence and of its end."""

import asyncio
import subprocess
import sys
import time
import unittest

import weblocks
from commands import CommandLineCase
from support import SECONDS, Daemon, ServedCase, daemon_with_tokens, proxied


class LettingIn(ServedCase):
    pushes = True

    async def test_pushes_are_selected_with_a_token_and_without(self):
        for token, server in ((None, self.server), ("se.cr_et-1", daemon_with_tokens(self, "other", "se.cr_et-1"))):
            async with self.connect(url=server.url, token=token) as locks, locks.request("db"):
                self.assertTrue(locks._dispatcher._agent._connection.pushes)

    async def test_a_wrong_or_missing_token_raises_Forbidden(self):
        server = daemon_with_tokens(self, "right")
        for token, text in (
            ("wrong", "refused the token"), ("righ", "refused the token"), ("rightt", "refused the token"),
            (None, "wants a token"),
        ):  # fmt: skip
            with self.assertRaisesRegex(weblocks.Forbidden, rf"{text} .*401"):
                async with self.connect(url=server.url, token=token):
                    pass

    async def test_a_token_of_other_origins_raises_Forbidden_which_names_code_1008(self):
        server = daemon_with_tokens(self, f"narrow {self.origin} http://b.test:81")
        for origin in (self.origin, "http://b.test:81"):
            async with self.connect(url=server.url, token="narrow", origin=origin) as locks, locks.request("db"):
                pass
        with self.assertRaisesRegex(weblocks.Forbidden, "1008"):
            async with self.connect(url=server.url, token="narrow", origin="https://c.test"):
                pass

    async def test_a_manager_too_many_raises_Disconnected_which_names_code_1013(self):
        server = Daemon("--managers", "1")
        self.addCleanup(server.kill)
        async with self.connect(url=server.url) as locks, self.connect(url=server.url):
            for other in ({"origin": "https://b.test"}, {"bucket": "inbox"}):
                with self.assertRaisesRegex(weblocks.Disconnected, "no room .*1013"):
                    async with self.connect(url=server.url, **other):
                        pass
            async with locks.request("db"):
                pass
        async with self.connect(url=server.url, origin="https://b.test") as locks, locks.request("db"):
            pass

    async def test_a_server_without_a_further_place_raises_Disconnected_which_names_status_503(self):
        server = Daemon("--connections", "1")
        self.addCleanup(server.kill)
        async with self.connect(url=server.url) as locks, locks.request("db"):
            with self.assertRaisesRegex(weblocks.Disconnected, "no room .*503"):
                async with self.connect(url=server.url):
                    pass
        end = time.monotonic() + SECONDS
        while not await self.has_place(server.url):
            self.assertLess(time.monotonic(), end, "its place was never free")

    async def has_place(self, url):
        try:
            async with self.connect(url=url) as locks, locks.request("db"):
                return True
        except weblocks.Disconnected:
            return False


class Ends(ServedCase):
    pushes = True

    async def test_a_client_that_was_cut_off_knows_it_before_its_lock_passes_on(self):
        idle = 4
        server = Daemon("--idle", str(idle))
        self.addCleanup(server.kill)
        events = []

        async def hold(locks, held):
            try:
                async with locks.request("db"):
                    held.set()
                    await asyncio.sleep(SECONDS)
            except weblocks.LockLost:
                events.append("lost")

        async def wait(locks):
            async with locks.request("db"):
                events.append("passed on")

        with proxied(server.port) as proxy:
            async with (
                self.connect(url=proxy.url, heartbeat=idle / 4, reconnect=False) as locks,
                self.connect(url=server.url, heartbeat=idle / 4) as other,
            ):
                held = asyncio.Event()
                holder = asyncio.create_task(hold(locks, held))
                await held.wait()
                waiter = asyncio.create_task(wait(other))
                await self.until_waiting(other, 1)
                proxy.swallows = True
                await asyncio.gather(holder, waiter)
        self.assertEqual(["lost", "passed on"], events)

    async def test_a_daemon_that_is_stopped_in_good_order_tells_it_and_its_clients_come_to_the_next(self):
        server = Daemon()
        self.addCleanup(server.kill)
        async with self.connect(url=server.url) as locks:
            with self.assertLogs("weblocks"), self.assertRaises(weblocks.LockLost) as caught:
                async with locks.request("db"):
                    ending = asyncio.create_task(asyncio.to_thread(server.end))
                    await asyncio.sleep(SECONDS)
            self.assertIn("1001", str(caught.exception))
            await ending
            server.start()
            async with locks.request("db", timeout=SECONDS):
                pass


class CommandLine(CommandLineCase):
    """`python3 -m weblocks` with WEBLOCKS_TOKEN."""

    def setUp(self):
        super().setUp()
        server = daemon_with_tokens(self, f"right {self.origin}")
        self.place = {"WEBLOCKS_URL": server.url, "WEBLOCKS_ORIGIN": self.origin, "WEBLOCKS_TOKEN": "right"}

    def test_with_runs_the_command_and_query_shows_its_lock(self):
        query = (sys.executable, "-m", "weblocks", "query")
        status, out, err = self.run_whole("with", "db", "--wait", "30", "--", *query, environment=self.place)
        self.assertEqual((0, ""), (status, err))
        self.assertRegex(out, r"\ANAME +STATE +MODE +CLIENT\ndb +held +exclusive +client-1\n\n1 held, 0 waiting\n\Z")

    def test_watch_shows_what_comes_and_goes(self):
        watcher = self.start("watch", "--every", "0.05", environment=self.place)
        self.assertIn(self.origin, watcher.stdout.readline())
        self.assertIn("no locks are held", watcher.stdout.readline())
        holder = self.start("with", "db", "--", "cat", environment=self.place, stdin=subprocess.PIPE)
        lines = [watcher.stdout.readline() for _ in range(4)]
        self.assertEqual(["NAME", "db"], [line.split()[0] for line in lines[2:]])
        holder.communicate("", timeout=SECONDS)
        self.assertEqual(0, holder.returncode)

    def test_a_wrong_token_and_another_origin_than_the_tokens_give_status_77(self):
        wrong = {**self.place, "WEBLOCKS_TOKEN": "wrong"}
        for words in (("with", "db", "--", "true"), ("query",), ("watch",)):
            status, _out, err = self.run_whole(*words, environment=wrong)
            self.assertEqual(77, status)
            self.assertIn("refused the token (HTTP status 401)", err)
        other = {**self.place, "WEBLOCKS_ORIGIN": "https://other.test"}
        status, _out, err = self.run_whole("query", environment=other)
        self.assertEqual(77, status)
        self.assertIn("1008", err)


if __name__ == "__main__":
    unittest.main()
