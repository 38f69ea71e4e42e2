"""What becomes of locks where the event loop cancels all tasks at once, the client's own among them."""

import asyncio
import os
import subprocess
import sys
import time
import unittest

import weblocks
from support import PACKAGE, SECONDS, ServedCase, proxied

HOLDER = """
import asyncio, sys
import weblocks

async def hold(held):
    async with weblocks.connect(sys.argv[1], origin=sys.argv[2]) as locks:
        async with locks.request("db"), locks.request("other", mode="shared"):
            held.set()
            await asyncio.sleep(1000)

async def leave():
    sys.exit(3)

async def main():
    held = asyncio.Event()
    holder = asyncio.create_task(hold(held))
    await held.wait()
    {ending}

asyncio.run(main())
"""
HEARTBEAT = 10
"""So many seconds, or twice as many, a reply was waited for that nobody read."""


class Endings:
    """The tests; the classes below say over which server."""

    async def run_holder(self, ending):
        """Runs a program that ends so while a task holds locks: its status, and what it says."""
        begun = time.monotonic()
        ended = await asyncio.to_thread(
            subprocess.run, [sys.executable, "-c", HOLDER.format(ending=ending), self.url, self.origin],
            env={**os.environ, "PYTHONPATH": str(PACKAGE / "src")}, text=True, capture_output=True, timeout=SECONDS,
        )  # fmt: skip
        self.assertLess(time.monotonic() - begun, HEARTBEAT)
        return ended.returncode, ended.stderr

    async def test_a_program_that_ends_while_a_task_holds_a_lock_ends_at_once_and_the_lock_is_free(self):
        async with self.connect() as locks:
            for ending, status in (("return", 0), ("await leave()", 3), ("await asyncio.create_task(leave())", 3)):
                with self.subTest(ending):
                    self.assertEqual((status, ""), await self.run_holder(ending))
                    async with locks.request("db", timeout=HEARTBEAT):
                        pass

    async def test_an_error_comes_out_of_it_alone(self):
        status, said = await self.run_holder("raise ValueError('mine')")
        self.assertEqual(1, status)
        self.assertRegex(said, r"\ATraceback [^\n]*\n(  .*\n)+ValueError: mine\n\Z")

    async def test_where_all_tasks_are_cancelled_and_the_loop_goes_on_the_manager_has_ended(self):
        held = asyncio.Event()

        async def hold(locks):
            async with locks.request("db"):
                held.set()
                await asyncio.sleep(1000)

        async with self.connect() as locks, self.connect() as other:
            tasks = [asyncio.create_task(hold(locks)), asyncio.create_task(hold(other))]
            await held.wait()
            with self.assertNoLogs("weblocks"):
                every = asyncio.all_tasks() - {asyncio.current_task()}
                for task in every:
                    task.cancel()
                _ended, pending = await asyncio.wait(every, timeout=HEARTBEAT)
                self.assertEqual(set(), pending)
                for task in tasks:
                    self.assertTrue(task.cancelled())
                for options in ({}, {"steal": True}):
                    with self.assertRaisesRegex(weblocks.Disconnected, "the tasks of the event loop were cancelled"):
                        async with locks.request("db", **options):
                            self.fail("the lock was granted")
        await self.expect_nothing_left()

    async def test_where_they_are_cancelled_while_no_connection_is_there_the_manager_has_ended_too(self):
        async def ask_at_last(locks):
            try:
                await asyncio.sleep(1000)
            finally:
                async with locks.request("db"):
                    self.fail("the lock was granted")

        # Once before the task that connects anew has done its first step, and once while it waits.
        for seconds in (0, 0.05):
            with self.subTest(seconds), proxied(self.server.port) as proxy:
                async with self.connect(url=proxy.url) as locks:
                    asking = asyncio.create_task(ask_at_last(locks))
                    proxy.refuses = True
                    await asyncio.to_thread(proxy.cut)
                    while locks._dispatcher._opening is None:
                        await asyncio.sleep(0)
                    await asyncio.sleep(seconds) if seconds else None
                    every = asyncio.all_tasks() - {asyncio.current_task()}
                    for task in every:
                        task.cancel()
                    _ended, pending = await asyncio.wait(every, timeout=HEARTBEAT)
                    self.assertEqual(set(), pending)
                    with self.assertRaisesRegex(weblocks.Disconnected, "the tasks of the event loop were cancelled"):
                        await asking


class EndingsOverPolls(Endings, ServedCase):
    pass


class EndingsOverPushes(Endings, ServedCase):
    pushes = True


if __name__ == "__main__":
    unittest.main()
