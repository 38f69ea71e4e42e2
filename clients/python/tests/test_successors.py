"""What a manager does whose signals are used up while the server takes no further connection of it."""

import asyncio
import time
import unittest
from http import HTTPStatus

import weblocks
from support import SECONDS, ServedCase, hand_on_to, serve_own
from weblocks.signals import LIMIT

FULL, REFUSED = HTTPStatus.SERVICE_UNAVAILABLE, HTTPStatus.UNAUTHORIZED


class Door:
    """A server of the tests' own before another, which refuses handshakes where a status is set, and counts them."""

    def __init__(self, case):
        self.status = None
        self.asked = 0
        subprotocols = ["weblocks.push"] if case.pushes else None
        handle = hand_on_to(case.server.url)
        self.url = serve_own(case, handle, process_request=self._look, subprotocols=subprotocols)

    async def _look(self, _path, _headers):
        self.asked += 1
        return None if self.status is None else (self.status, [], b"no\n")


class Behaviour:
    """The tests; the classes below say over which server."""

    def setUp(self):
        super().setUp()
        self.door = Door(self)

    async def asyncSetUp(self):
        await super().asyncSetUp()
        self.locks = await self.enterAsyncContext(self.connect(url=self.door.url, open_timeout=SECONDS))
        self.other = await self.enterAsyncContext(self.connect())

    def agent(self):
        return self.locks._dispatcher._agent

    async def give_up(self):
        """Has as many requests wait as an agent has signals, and cancels their tasks."""
        tasks = [asyncio.create_task(self.locks.request("db").__aenter__()) for _ in range(LIMIT)]
        await self.until_waiting(self.other, LIMIT)
        for task in tasks:
            task.cancel()
        await asyncio.wait(tasks)

    async def use_up(self, status):
        """Leaves the manager without a signal and without a further connection; to be called while `db` is held."""
        self.door.status = status
        await self.give_up()
        await self.until_waiting(self.other, 0)
        await self.take("free")

    async def take(self, name, **words):
        """Gets a lock that is free."""
        async with asyncio.timeout(SECONDS), self.locks.request(name, **words) as lock:
            self.assertIsNotNone(lock)
            lock.check()

    async def fail_in_time(self):
        with self.assertRaisesRegex(TimeoutError, "'db' was not granted in time"):
            async with self.locks.request("db", timeout=0.05):
                self.fail("the lock was granted")

    async def expect_that_all_goes_on(self, status):
        async with self.other.request("db"), self.locks.request("kept") as kept:
            with self.assertLogs("weblocks", "WARNING") as logged:
                await self.use_up(status)
                for words in ({}, {"timeout": SECONDS}, {"if_available": True}, {"timeout": 0}, {"steal": True}):
                    await self.take("free", **words)
                async with asyncio.timeout(SECONDS):
                    held = [info.name for info in (await self.locks.query()).held]
            kept.check()
        self.assertEqual({"db", "kept"}, {*held})
        [line] = logged.output
        self.assertRegex(line, f"WARNING:weblocks:no further connection: .* {status.value}")

    async def test_a_full_server_keeps_no_request_from_its_lock_and_is_told_once(self):
        await self.expect_that_all_goes_on(FULL)

    async def test_a_server_that_refuses_the_token_keeps_no_request_from_its_lock_and_is_told_once(self):
        await self.expect_that_all_goes_on(REFUSED)

    async def test_requests_without_signals_have_their_locks_in_the_order_of_their_calls(self):
        granted = []

        async def ask(number):
            async with self.locks.request("db"):
                granted.append(number)

        async with self.other.request("db"):
            await self.use_up(FULL)
            tasks = [asyncio.create_task(ask(number)) for number in range(20)]
            await self.until_waiting(self.other, 20)
        await asyncio.gather(*tasks)
        self.assertEqual([*range(20)], granted)

    async def test_what_is_given_up_without_a_signal_keeps_its_place_and_is_released_at_its_turn(self):
        async with self.other.request("db"):
            await self.use_up(FULL)
            await self.fail_in_time()
            waiter = asyncio.create_task(self.take("db"))
            await self.until_waiting(self.other, 2)
        await waiter
        await self.until_held(self.other)

    async def test_what_was_left_behind_ends_once_there_is_a_further_connection(self):
        for status in (FULL, REFUSED):
            with self.subTest(status):
                async with self.other.request("db"):
                    await self.use_up(status)
                    await self.fail_in_time()
                    await self.until_waiting(self.other, 1)
                    self.door.status = None
                    first, end = self.agent(), time.monotonic() + SECONDS
                    while self.agent() is first:
                        self.assertLess(time.monotonic(), end, "there never was a further connection")
                        await self.take("free")
                    await self.until_waiting(self.other, 0)

    async def test_where_too_much_is_left_behind_a_request_that_may_wait_raises_why(self):
        async with self.other.request("db"):
            await self.use_up(REFUSED)
            await self.give_up()
            with self.assertRaisesRegex(weblocks.Forbidden, "401"):
                async with self.locks.request("free"):
                    self.fail("the lock was granted")
            await self.take("free", if_available=True)
            self.assertEqual(LIMIT, len((await self.other.query()).pending))
        await self.until_waiting(self.other, 0)
        await self.take("free")

    async def test_a_server_that_refuses_the_token_is_not_asked_again_before_the_next_request(self):
        async with self.other.request("db"):
            await self.use_up(REFUSED)
            end = time.monotonic() + SECONDS
            while self.locks._dispatcher._opening is not None:
                self.assertLess(time.monotonic(), end, "the tries never ended")
                await asyncio.sleep(0.01)
            before = self.door.asked
            await asyncio.sleep(0.5)
            self.assertEqual(before, self.door.asked)
            await self.take("free")
            while self.door.asked == before:
                self.assertLess(time.monotonic(), end, "it was not asked again")
                await asyncio.sleep(0.01)


class SuccessorsOverPolls(Behaviour, ServedCase):
    pass


class SuccessorsOverPushes(Behaviour, ServedCase):
    pushes = True


if __name__ == "__main__":
    unittest.main()
