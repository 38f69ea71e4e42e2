"""The 1,024 abort signals that an agent has for life, and how a manager goes on past them."""

import asyncio
import unittest

from support import ServedCase
from weblocks.signals import LIMIT, Signals


class Behaviour:
    """The tests that ask a service; the classes below say which."""

    def agent_of(self, locks):
        return locks._dispatcher._agent

    def signals_of(self, locks):
        return self.agent_of(locks)._signals

    async def give_up(self, locks, count):
        """Has so many requests wait, and cancels their tasks."""
        tasks = [asyncio.create_task(locks.request("db").__aenter__()) for _ in range(count)]
        await self.until_waiting(locks, count)
        for task in tasks:
            task.cancel()
        await asyncio.wait(tasks)

    async def test_a_signal_that_was_not_aborted_serves_the_next_request(self):
        async with self.connect() as locks:
            for _ in range(100):
                async with locks.request("db"):
                    pass
            self.assertLessEqual(self.signals_of(locks)._made, 2)

    async def test_a_spare_signal_is_always_ready(self):
        async with self.connect() as locks:
            for _ in range(20):
                async with locks.request("db"):
                    await locks.query()
                    self.assertGreaterEqual(len(self.signals_of(locks)._free), 1)

    async def test_two_thousand_requests_may_wait_at_once_and_keep_their_order(self):
        granted = []

        async def ask(locks, number):
            async with locks.request("db"):
                granted.append(number)

        async with self.connected(2) as (locks, other):
            async with other.request("db"):
                tasks = [asyncio.create_task(ask(locks, number)) for number in range(2000)]
                await self.until_waiting(other, 2000)
                first = self.agent_of(locks)
            await asyncio.gather(*tasks)
            self.assertEqual(list(range(2000)), granted)
            async with locks.request("db"):
                self.assertIs(first, self.agent_of(locks))

    async def test_query_shows_one_client_id_for_what_is_this_managers_own(self):
        async with self.connected(2) as (locks, other):
            async with locks.request("first"), other.request("db"):
                first = self.agent_of(locks)
                for _ in range(3):
                    tasks = [asyncio.create_task(locks.request("db").__aenter__()) for _ in range(400)]
                    await self.until_waiting(other, 400)
                    for task in tasks:
                        task.cancel()
                    await asyncio.wait(tasks)
                async with locks.request("second"):
                    self.assertIsNot(first, self.agent_of(locks))
                    own = await locks.query()
                    ids = {info.name: info.client_id for info in own.held}
                    self.assertEqual(
                        {"first": locks.client_id, "second": locks.client_id, "db": other.client_id}, ids
                    )
                    seen = {info.name: info.client_id for info in (await other.query()).held}
                    self.assertNotEqual(seen["first"], seen["second"])
            await self.expect_nothing_left()

    async def test_what_a_former_connection_was_asked_is_done_before_what_the_next_is_asked(self):
        # A request that waits stands in the way of a reader, so a reader that came before the aborts would get nothing.
        async with self.connected(2) as (locks, other):
            async with other.request("db", mode="shared"):
                for _ in range(40):
                    await self.give_up(locks, 100)
                    async with locks.request("db", mode="shared", if_available=True) as lock:
                        self.assertIsNotNone(lock)

    async def test_ten_thousand_requests_may_be_given_up(self):
        async with self.connected(2) as (locks, other):
            async with other.request("db"):
                for _ in range(50):
                    await self.give_up(locks, 200)
            async with locks.request("db", timeout=60):
                self.assertEqual(1, len((await other.query()).held))
        await self.expect_nothing_left()


class SignalsOverPolls(Behaviour, ServedCase):
    pass


class SignalsOverPushes(Behaviour, ServedCase):
    pushes = True


class Counting(unittest.TestCase):
    def test_no_more_than_1024_are_asked_for(self):
        signals = Signals()
        self.assertEqual(1, signals.count_to_ask(0))
        self.assertEqual(1024 - 1, signals.count_to_ask(5000))
        self.assertEqual(0, signals.count_to_ask(5000))
        for number in range(1, 1025):
            signals.add(number)
        self.assertEqual((LIMIT, LIMIT), (1024, signals.left))
        self.assertEqual(1024, len({signals.take() for _ in range(1024)}))
        self.assertIsNone(signals.take())
        self.assertEqual(0, signals.count_to_ask(1))
        signals.give_back(7)
        self.assertEqual((7, None), (signals.take(), signals.take()))

    def test_a_refusal_means_that_no_more_can_be_had(self):
        signals = Signals()
        signals.count_to_ask(0)
        signals.refuse()
        self.assertEqual((0, 0), (signals.count_to_ask(10), signals.left))


if __name__ == "__main__":
    unittest.main()
