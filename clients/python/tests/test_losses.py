"""A lock that is lost interrupts its block, as `asyncio.timeout` does, whatever else cancels or nests there."""

import asyncio
import unittest

import weblocks
from support import ServedCase, proxied


class Losses:
    """Each test has a manager behind a proxy, whose connections it cuts; the classes below say to which server."""

    async def asyncSetUp(self):
        await super().asyncSetUp()
        self.proxy = self.enterContext(proxied(self.server.port))
        self.locks = await self.enterAsyncContext(self.connect(url=self.proxy.url))

    async def cut(self):
        """Cuts the connections once other tasks have come to their awaits; to be called when the locks are held."""
        await asyncio.sleep(0.05)
        await asyncio.to_thread(self.proxy.cut)

    async def test_a_lost_connection_raises_LockLost_inside_the_block_at_its_next_await(self):
        seen = []
        with self.assertRaises(weblocks.LockLost) as caught:
            async with self.locks.request("db") as lock:
                cut = asyncio.create_task(self.cut())
                try:
                    await asyncio.sleep(1000)
                except BaseException as error:
                    seen.append(type(error))
                    with self.assertRaises(weblocks.LockLost):
                        lock.check()
                    raise
        self.assertEqual([asyncio.CancelledError], seen)
        self.assertNotIsInstance(caught.exception, weblocks.LockStolen)
        self.assertEqual(0, asyncio.current_task().cancelling())
        await cut
        await asyncio.sleep(0)

    async def test_work_after_LockLost_goes_on_uncancelled(self):
        try:
            async with self.locks.request("db"):
                cut = asyncio.create_task(self.cut())
                await asyncio.sleep(1000)
        except weblocks.LockLost:
            await cut
            async with asyncio.timeout(60):
                async with self.locks.request("db") as lock:
                    await asyncio.sleep(0.01)
                    lock.check()
        else:
            self.fail("the lock was not lost")

    async def test_a_cancellation_by_others_at_the_same_time_comes_out_as_CancelledError(self):
        held = asyncio.Event()

        async def hold():
            async with self.locks.request("db"):
                held.set()
                try:
                    await asyncio.sleep(1000)
                except asyncio.CancelledError:
                    # Both have been asked for: the loss came, and then this.
                    asyncio.current_task().cancel()
                    raise

        task = asyncio.create_task(hold())
        await held.wait()
        await self.cut()
        with self.assertRaises(asyncio.CancelledError):
            await task

    async def test_a_cancellation_before_the_loss_comes_out_as_CancelledError(self):
        held = asyncio.Event()

        async def hold():
            async with self.locks.request("db"):
                held.set()
                try:
                    await asyncio.sleep(1000)
                finally:
                    await self.cut()
                    await asyncio.sleep(1000)

        task = asyncio.create_task(hold())
        await held.wait()
        task.cancel()
        with self.assertRaises(asyncio.CancelledError):
            await task

    async def test_where_two_nested_locks_are_lost_the_outer_block_raises_LockLost(self):
        inner = None
        with self.assertRaisesRegex(weblocks.LockLost, "'outer'"):
            async with self.locks.request("outer"):
                try:
                    async with self.locks.request("inner"):
                        cut = asyncio.create_task(self.cut())
                        await asyncio.sleep(1000)
                except BaseException as error:
                    inner = error
                    raise
        self.assertIsInstance(inner, asyncio.CancelledError)
        self.assertEqual(0, asyncio.current_task().cancelling())
        await cut

    async def test_the_inner_of_two_nested_locks_may_be_lost_alone(self):
        async with self.connect() as steady, steady.request("outer") as outer:
            with self.assertRaisesRegex(weblocks.LockLost, "'inner'"):
                async with self.locks.request("inner"):
                    cut = asyncio.create_task(self.cut())
                    await asyncio.sleep(1000)
            await cut
            await asyncio.sleep(0.01)
            outer.check()

    async def test_the_outer_of_two_nested_locks_may_be_lost_alone(self):
        async with self.connect() as steady:
            with self.assertRaisesRegex(weblocks.LockLost, "'outer'"):
                async with self.locks.request("outer"):
                    async with steady.request("inner"):
                        cut = asyncio.create_task(self.cut())
                        await asyncio.sleep(1000)
            await cut
            await self.until_held(steady)

    async def test_a_timeout_of_asyncio_around_the_block_still_raises_TimeoutError(self):
        with self.assertRaises(TimeoutError):
            async with asyncio.timeout(0.1):
                async with self.locks.request("db"):
                    await asyncio.sleep(1000)
        await self.expect_nothing_left()

    async def test_a_timeout_of_asyncio_in_the_block_does_not_take_the_loss_for_its_own(self):
        with self.assertRaises(weblocks.LockLost):
            async with self.locks.request("db"):
                cut = asyncio.create_task(self.cut())
                async with asyncio.timeout(60):
                    await asyncio.sleep(1000)
        await cut

    async def test_a_group_of_tasks_in_the_block_is_cancelled_with_it(self):
        ended = []

        async def work():
            try:
                await asyncio.sleep(1000)
            finally:
                ended.append(True)

        with self.assertRaises(weblocks.LockLost):
            async with self.locks.request("db"):
                cut = asyncio.create_task(self.cut())
                async with asyncio.TaskGroup() as group:
                    group.create_task(work())
                    group.create_task(work())
        self.assertEqual([True, True], ended)
        await cut

    async def test_a_block_that_swallows_the_cancellation_raises_LockLost_at_its_end(self):
        with self.assertRaises(weblocks.LockLost):
            async with self.locks.request("db"):
                cut = asyncio.create_task(self.cut())
                try:
                    await asyncio.sleep(1000)
                except asyncio.CancelledError:
                    pass
        self.assertEqual(0, asyncio.current_task().cancelling())
        await cut

    async def test_an_error_of_the_block_itself_comes_out_of_it_though_the_lock_is_lost(self):
        with self.assertRaisesRegex(KeyError, "mine"):
            async with self.locks.request("db"):
                cut = asyncio.create_task(self.cut())
                try:
                    await asyncio.sleep(1000)
                finally:
                    raise KeyError("mine")
        self.assertEqual(0, asyncio.current_task().cancelling())
        await cut

    async def test_a_request_that_waits_in_a_block_is_given_up_when_the_block_loses_its_lock(self):
        async with self.connect() as steady, steady.request("busy"):
            with self.assertRaises(weblocks.LockLost):
                async with self.locks.request("db"):
                    cut = asyncio.create_task(self.cut())
                    async with steady.request("other"):
                        async with steady.request("busy"):
                            self.fail("the lock was granted")
            await cut
            await self.until_held(steady, "busy")

    async def test_where_the_connection_is_lost_before_the_release_was_answered_the_block_raises_LockLost(self):
        with self.assertRaises(weblocks.LockLost):
            async with self.locks.request("db"):
                self.proxy.swallows = True
                cut = asyncio.create_task(self.cut())
        await cut


class LossesOverPolls(Losses, ServedCase):
    pass


class LossesOverPushes(Losses, ServedCase):
    pushes = True


if __name__ == "__main__":
    unittest.main()
