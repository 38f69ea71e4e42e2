"""Races, a thousand times each: whatever comes first, nothing is left held or pending at the end."""

import asyncio
import random
import unittest

import weblocks
from support import ServedCase

TIMES = 1000
LANES = 20


class Races:
    """The tests; the classes below say over which server."""

    def setUp(self):
        super().setUp()
        self.random = random.Random(35)

    async def pause(self):
        """Some turns of the event loop, or none."""
        for _ in range(self.random.randrange(8)):
            await asyncio.sleep(0)

    async def race(self, once):
        """Runs the race on several locks side by side, so that their messages mix too."""

        async def lane(name):
            for _ in range(TIMES // LANES):
                await once(name)

        async with asyncio.TaskGroup() as group:
            for number in range(LANES):
                group.create_task(lane(f"lock-{number}"))

    async def test_abort_against_grant(self):
        counts = {"granted": 0, "given up": 0}

        async def want(locks, name):
            try:
                async with locks.request(name):
                    counts["granted"] += 1
            except asyncio.CancelledError:
                counts["given up"] += 1
                raise

        async def once(name):
            async with other.request(name):
                task = asyncio.create_task(want(locks, name))
                await self.pause()
            await self.pause()
            if self.random.randrange(2):
                # As often as not, the grant has the time to come.
                await locks.query()
            task.cancel()
            await asyncio.wait([task])

        async with self.connected(2) as (locks, other):
            await self.race(once)
            await self.expect_all_free(other)
        self.assertGreater(min(counts.values()), 0, counts)

    async def test_timeout_against_grant(self):
        counts = {"granted": 0, "too late": 0}
        longest = 0.05

        async def want(locks, name):
            # The time that a grant takes here is found out on the way, so that both come close.
            nonlocal longest
            try:
                async with locks.request(name, timeout=self.random.uniform(0, longest)):
                    counts["granted"] += 1
                    longest *= 0.9
            except TimeoutError:
                counts["too late"] += 1
                longest *= 1.1

        async def once(name):
            async with other.request(name):
                task = asyncio.create_task(want(locks, name))
                await self.pause()
            await task

        async with self.connected(2) as (locks, other):
            await self.race(once)
            await self.expect_all_free(other)
        self.assertGreater(min(counts.values()), 0, counts)

    async def test_steal_against_release(self):
        counts = {"released": 0, "stolen": 0}

        async def hold(locks, name, held):
            try:
                async with locks.request(name):
                    held.set()
                    await self.pause()
                counts["released"] += 1
            except weblocks.LockStolen:
                counts["stolen"] += 1

        async def once(name):
            held = asyncio.Event()
            task = asyncio.create_task(hold(locks, name, held))
            await held.wait()
            await self.pause()
            async with other.request(name, steal=True) as lock:
                await asyncio.sleep(0)
                lock.check()
            await task

        async with self.connected(2) as (locks, other):
            await self.race(once)
            await self.expect_all_free(other)
        self.assertGreater(min(counts.values()), 0, counts)

    async def expect_all_free(self, locks):
        """Each lock can be had, since what was given up is soon gone, and nothing is left."""
        for number in range(LANES):
            async with locks.request(f"lock-{number}", timeout=60):
                pass
        await self.expect_nothing_left()

    async def test_close_against_all(self):
        ended = {}

        async def use(locks, name, options):
            try:
                async with locks.request(name, **options) as lock:
                    stays = lock is not None and self.random.randrange(4) == 0
                    await (asyncio.sleep(1000) if stays else self.pause())
                    what = "held"
            except Exception as error:
                what = type(error).__name__
            ended[what] = ended.get(what, 0) + 1

        async def once(_name):
            async with self.connect() as locks:
                tasks = []
                for options in ({}, {"mode": "shared"}, {"steal": True}, {"if_available": True}, {"timeout": 10}):
                    for name in ("a", "b"):
                        tasks.append(asyncio.create_task(use(locks, name, options)))
                if self.random.randrange(2):
                    tasks.append(asyncio.create_task(locks.query()))
                    tasks[self.random.randrange(10)].cancel()
                for _ in range(self.random.randrange(3)):
                    # When a query is answered, so is what was requested before it.
                    await locks.query()
                await self.pause()
                await locks.close()
                _done, pending = await asyncio.wait(tasks, timeout=60)
                self.assertEqual(set(), pending)
                for task in tasks[10:]:
                    task.exception()

        await self.race(once)
        await self.expect_nothing_left()
        self.assertLessEqual(set(ended), {"held", "Closed", "LockLost", "LockStolen"}, ended)
        self.assertLessEqual({"held", "Closed", "LockLost"}, set(ended), ended)


class RacesOverPolls(Races, ServedCase):
    pass


class RacesOverPushes(Races, ServedCase):
    pushes = True


if __name__ == "__main__":
    unittest.main()
