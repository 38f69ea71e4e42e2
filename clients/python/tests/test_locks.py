"""What a request, a lock and a query do, over a server that is polled and over one that pushes."""

import asyncio
import json
import time
import unittest

import weblocks
from support import ServedCase


class Behaviour:
    """The tests; the classes below say over which server."""

    def note_sent(self, locks):
        """A list of the operations that a manager asks for from now on."""
        sent = []
        socket = locks._dispatcher._agent._connection._socket
        send = socket.send

        async def note(text):
            sent.append(json.loads(text)["op"])
            await send(text)

        socket.send = note
        return sent

    async def test_a_block_holds_its_lock_and_the_lock_has_name_and_mode(self):
        async with self.connected(2) as (locks, other):
            async with locks.request("db") as lock:
                self.assertEqual(("db", "exclusive", None), (lock.name, lock.mode, lock.lost))
                self.assertEqual(["db"], [info.name for info in (await other.query()).held])
            async with locks.request("db", mode="shared") as lock:
                self.assertEqual(("db", "shared"), (lock.name, lock.mode))

    async def test_a_lock_is_free_when_its_block_has_ended(self):
        async with self.connected(2) as (locks, other):
            for _ in range(50):
                async with locks.request("db"):
                    pass
                async with other.request("db", if_available=True) as lock:
                    self.assertIsNotNone(lock)

    async def test_an_exclusive_lock_is_the_only_one_of_its_name(self):
        inside = 0

        async def work(locks):
            nonlocal inside
            for _ in range(20):
                async with locks.request("db"):
                    inside += 1
                    self.assertEqual(1, inside)
                    await asyncio.sleep(0)
                    inside -= 1

        async with self.connected(4) as managers:
            await asyncio.gather(*(work(locks) for locks in managers for _ in range(2)))

    async def test_shared_locks_are_held_beside_each_other(self):
        async with self.connected(2) as (locks, other):
            async with locks.request("db", mode="shared"), other.request("db", mode="shared", timeout=20):
                async with other.request("db", if_available=True) as lock:
                    self.assertIsNone(lock)

    async def test_requests_reach_the_service_in_the_order_of_the_calls(self):
        granted = []

        async def ask(locks, number):
            async with locks.request("db"):
                granted.append(number)

        async with self.connected(2) as (locks, other):
            async with other.request("db"):
                tasks = [asyncio.create_task(ask(locks, number)) for number in range(300)]
                await self.until_waiting(other, 300)
            await asyncio.gather(*tasks)
        self.assertEqual(list(range(300)), granted)

    async def test_a_timeout_raises_TimeoutError(self):
        async with self.connected(2) as (locks, other):
            async with other.request("db"):
                begun = time.monotonic()
                with self.assertRaisesRegex(TimeoutError, "'db'"):
                    async with locks.request("db", timeout=0.2):
                        self.fail("the lock was granted")
                self.assertGreaterEqual(time.monotonic() - begun, 0.2)
                self.assertEqual([], (await locks.query()).pending)
            async with locks.request("db", timeout=20):
                pass

    async def test_a_timeout_that_is_not_reached_leaves_the_lock_alone(self):
        async with self.connect() as locks:
            async with locks.request("db", timeout=2) as lock:
                await asyncio.sleep(2.2)
                lock.check()
                self.assertEqual(1, len((await locks.query()).held))

    async def test_a_timeout_of_0_gets_a_lock_that_is_free(self):
        async with self.connect() as locks:
            for timeout in (0, 0.0, 0):
                async with locks.request("db", timeout=timeout) as lock:
                    self.assertEqual("db", lock.name)
            async with locks.request("db", mode="shared", timeout=0) as lock:
                self.assertEqual("shared", lock.mode)

    async def test_a_timeout_of_0_raises_TimeoutError_where_the_lock_is_not_free_and_stands_in_nobodys_way(self):
        async with self.connected(3) as (locks, other, third):
            async with other.request("db", mode="shared"):
                for _ in range(20):
                    # A request that waited here for a moment would keep readers out.
                    trying = asyncio.create_task(locks.request("db", timeout=0).__aenter__())
                    async with third.request("db", mode="shared", if_available=True) as lock:
                        self.assertIsNotNone(lock)
                    with self.assertRaisesRegex(TimeoutError, "'db' is not free"):
                        await trying
                self.assertEqual([], (await locks.query()).pending)

    async def test_a_timeout_of_0_with_if_available_gives_None_where_the_lock_is_not_free(self):
        async with self.connected(2) as (locks, other):
            async with locks.request("db", if_available=True, timeout=0) as lock:
                async with other.request("db", if_available=True, timeout=0) as nothing:
                    self.assertEqual(("db", None), (lock.name, nothing))

    async def test_if_available_gives_None_where_the_lock_is_not_free(self):
        async with self.connected(2) as (locks, other):
            async with locks.request("db", if_available=True) as lock:
                self.assertEqual("db", lock.name)
                async with other.request("db", if_available=True) as nothing:
                    self.assertIsNone(nothing)
                self.assertEqual(1, len((await other.query()).held))

    async def test_steal_takes_the_lock_and_raises_LockStolen_in_the_block_that_held_it(self):
        async with self.connected(2) as (locks, other):
            held = asyncio.Event()

            async def hold():
                async with locks.request("db") as lock:
                    held.set()
                    try:
                        while True:
                            # A server that doesn't push tells with the next reply.
                            await locks.query()
                            await asyncio.sleep(0.01)
                    finally:
                        self.assertIsInstance(lock.lost, weblocks.LockStolen)

            holder = asyncio.create_task(hold())
            await held.wait()
            async with other.request("db", steal=True) as lock:
                self.assertEqual("db", lock.name)
                with self.assertRaises(weblocks.LockStolen):
                    await holder
                self.assertEqual(1, len((await other.query()).held))
        self.assertTrue(issubclass(weblocks.LockStolen, weblocks.LockLost))

    async def test_a_theft_that_was_not_told_during_the_block_raises_LockStolen_at_its_end(self):
        async with self.connected(2) as (locks, other):
            with self.assertRaises(weblocks.LockStolen):
                async with locks.request("db"):
                    async with other.request("db", steal=True):
                        pass

    async def test_cancellation_of_the_task_gives_up_the_request(self):
        async with self.connected(2) as (locks, other):
            async with other.request("db"):
                task = asyncio.create_task(locks.request("db").__aenter__())
                await self.until_waiting(other, 1)
                task.cancel()
                with self.assertRaises(asyncio.CancelledError):
                    await task
                self.assertEqual([], (await locks.query()).pending)
            await self.expect_nothing_left()

    async def test_cancellation_of_the_task_gives_up_the_lock(self):
        async with self.connect() as locks:
            held = asyncio.Event()

            async def hold():
                async with locks.request("db"):
                    held.set()
                    await asyncio.sleep(1000)

            task = asyncio.create_task(hold())
            await held.wait()
            task.cancel()
            with self.assertRaises(asyncio.CancelledError):
                await task
            await self.expect_nothing_left()

    async def test_cancellation_before_the_request_was_answered_leaves_nothing_behind(self):
        async with self.connect() as locks:
            for options in ({}, {"if_available": True}, {"steal": True}, {"timeout": 0}):
                task = asyncio.create_task(locks.request("db", **options).__aenter__())
                await asyncio.sleep(0)
                task.cancel()
                with self.assertRaises(asyncio.CancelledError):
                    await task
                # The grant was on its way: it is released when it comes, before the second query.
                await locks.query()
                snapshot = await locks.query()
                self.assertEqual(([], []), (snapshot.held, snapshot.pending))

    async def test_an_error_in_the_block_comes_out_of_it_and_the_lock_is_released(self):
        async with self.connect() as locks:
            with self.assertRaisesRegex(KeyError, "mine"):
                async with locks.request("db"):
                    raise KeyError("mine")
            await self.expect_nothing_left()

    async def test_query_shows_what_all_clients_hold_and_wait_for_in_order(self):
        async with self.connected(3) as (locks, other, third):
            async with locks.request("a"), other.request("b", mode="shared"):
                first = asyncio.create_task(other.request("a", mode="shared").__aenter__())
                await self.until_waiting(third, 1)
                second = asyncio.create_task(third.request("a").__aenter__())
                await self.until_waiting(third, 2)
                snapshot = await third.query()
                show = lambda infos: [(info.name, info.mode, info.client_id) for info in infos]  # noqa: E731
                self.assertEqual(
                    [("a", "exclusive", locks.client_id), ("b", "shared", other.client_id)], show(snapshot.held)
                )
                self.assertEqual(
                    [("a", "shared", other.client_id), ("a", "exclusive", third.client_id)], show(snapshot.pending)
                )
                first.cancel()
                second.cancel()

    async def test_origins_and_buckets_share_nothing(self):
        async with self.connect() as locks, locks.request("db"):
            for options in ({"origin": self.origin + ":8443"}, {"bucket": "inbox"}):
                async with self.connect(**options) as other, other.request("db", if_available=True) as lock:
                    self.assertIsNotNone(lock)

    async def test_a_request_serves_one_block(self):
        async with self.connect() as locks:
            request = locks.request("db")
            async with request:
                pass
            with self.assertRaisesRegex(RuntimeError, "one block"):
                async with request:
                    pass

    async def test_requests_after_close_raise_Closed(self):
        async with self.connect() as locks:
            pass
        for options in ({}, {"steal": True}, {"if_available": True}, {"timeout": 0}):
            with self.assertRaises(weblocks.Closed):
                async with locks.request("db", **options):
                    pass
        with self.assertRaises(weblocks.Closed):
            await locks.query()
        await locks.close()

    async def test_close_gives_up_requests_by_Closed_and_locks_by_LockLost(self):
        async with self.connected(2) as (locks, other):
            async with other.request("db"):
                held = asyncio.Event()

                async def hold():
                    async with locks.request("mine"):
                        held.set()
                        await asyncio.sleep(1000)

                holder = asyncio.create_task(hold())
                waiter = asyncio.create_task(locks.request("db").__aenter__())
                await held.wait()
                await self.until_waiting(other, 1)
                await locks.close()
                with self.assertRaises(weblocks.LockLost):
                    await holder
                with self.assertRaises(weblocks.Closed):
                    await waiter
                snapshot = await other.query()
                self.assertEqual(["db"], [info.name for info in snapshot.held])
                self.assertEqual([], snapshot.pending)

    async def test_close_in_a_block_of_the_same_manager_loses_its_lock_and_ends(self):
        async with self.connect() as locks:
            with self.assertRaises(weblocks.LockLost):
                async with locks.request("db"):
                    await locks.close()
            await locks.close()
        await self.expect_nothing_left()

    async def test_at_an_opaque_origin_requests_and_queries_raise_Refused_with_SecurityError(self):
        async with self.connect(origin="data:text/plain,") as locks:
            self.assertIsNone(locks.client_id)
            for options in ({}, {"steal": True}, {"if_available": True}, {"timeout": 0}):
                with self.assertRaises(weblocks.Refused) as caught:
                    async with locks.request("db", **options):
                        pass
                self.assertEqual(("SecurityError", "opaque-origin"), (caught.exception.name, caught.exception.rule))
                self.assertRegex(str(caught.exception), r"\(opaque-origin\): an opaque origin, .* no locks$")
            with self.assertRaises(weblocks.Refused):
                await locks.query()

    async def test_a_bad_origin_or_bucket_raises_Refused_which_says_what_is_wanted(self):
        for options, name, why in (
            ({"origin": "no URL"}, "BadUrl", "the origin is no URL"),
            ({"bucket": "-"}, "BadBucket", "the bucket's name isn't 1 to 64 of"),
        ):
            with self.assertRaisesRegex(weblocks.Refused, why) as caught:
                async with self.connect(**options):
                    pass
            self.assertEqual(name, caught.exception.name)

    async def test_options_that_exclude_each_other_raise_ValueError(self):
        async with self.connect() as locks:
            for options in (
                {"steal": True, "if_available": True},
                {"steal": True, "mode": "shared"},
                {"steal": True, "timeout": 1},
                {"steal": True, "timeout": 0},
                {"if_available": True, "timeout": 1},
                {"timeout": -1},
                {"timeout": float("nan")},
                {"mode": "upgrade"},
            ):
                with self.subTest(options), self.assertRaises(ValueError):
                    locks.request("db", **options)
            with self.assertRaisesRegex(TypeError, "timeout is a number of seconds, not str"):
                locks.request("db", timeout="1")

    async def test_bad_options_of_connect_raise_TypeError_or_ValueError(self):
        for options, error in (
            ({"url": "http://127.0.0.1"}, ValueError),
            ({"url": "nowhere"}, ValueError),
            ({"url": 5}, TypeError),
            ({"origin": None}, TypeError),
            ({"kind": "page"}, ValueError),
            ({"heartbeat": 0}, ValueError),
            ({"poll_interval": -1}, ValueError),
            ({"token": "with space"}, ValueError),
            ({"token": ""}, ValueError),
        ):
            with self.subTest(options), self.assertRaises(error):
                async with self.connect(**options):
                    pass


class LocksOverPolls(Behaviour, ServedCase):
    async def test_a_server_that_does_not_push_is_polled_only_while_a_request_waits(self):
        async with self.connected(2) as (locks, other):
            sent = self.note_sent(locks)
            async with other.request("db"):
                async with locks.request("mine"):
                    await asyncio.sleep(0.3)
                self.assertNotIn("poll", sent)
                waiter = asyncio.create_task(locks.request("db").__aenter__())
                await asyncio.sleep(0.3)
                self.assertGreater(sent.count("poll"), 2)
            await waiter
            sent.clear()
            await asyncio.sleep(0.3)
            self.assertNotIn("poll", sent)


class LocksOverPushes(Behaviour, ServedCase):
    pushes = True

    async def test_a_server_that_pushes_is_not_polled(self):
        async with self.connected(2) as (locks, other):
            sent = self.note_sent(locks)
            async with other.request("db"):
                waiter = asyncio.create_task(locks.request("db").__aenter__())
                await asyncio.sleep(0.5)
            await waiter
            self.assertNotIn("poll", sent)

    async def test_a_theft_is_told_in_the_block_without_being_asked(self):
        async with self.connected(2) as (locks, other):
            async with asyncio.TaskGroup() as group:
                with self.assertRaises(weblocks.LockStolen):
                    async with locks.request("db"):
                        group.create_task(self.steal(other))
                        await asyncio.sleep(1000)

    async def steal(self, locks):
        async with locks.request("db", steal=True):
            pass


if __name__ == "__main__":
    unittest.main()
