"""The form for threads."""

import os
import signal
import subprocess
import sys
import threading
import time
import unittest
from concurrent.futures import ThreadPoolExecutor

import weblocks
import weblocks.sync
from support import PACKAGE, SECONDS, BothServersCase, new_origin, proxied

INTERRUPTED = """
import random, signal, sys, time
import weblocks.sync

class Interrupted(Exception):
    pass

def interrupt(_number, _frame):
    if entering:
        raise Interrupted

signal.signal(signal.SIGALRM, interrupt)
held = left = 0
with weblocks.sync.connect(sys.argv[1], origin=sys.argv[2], poll_interval=0.005) as locks:
    end = time.monotonic() + 3
    while time.monotonic() < end:
        try:
            entering = True
            signal.setitimer(signal.ITIMER_REAL, random.uniform(0.00001, 0.002))
            with locks.request("db", timeout=30):
                entering = False
                held += 1
        except Interrupted:
            entering = False
            left += 1
    # A grant that was on its way to the last is released when it comes.
    with locks.request("db", timeout=30):
        pass
    print(held > 0, left > 0, locks.query().held)
"""
"""Takes a lock again and again, and is interrupted meanwhile, as by Ctrl-C, at any place of that."""


class Behaviour:
    """The tests; the classes below say over which server."""

    def setUp(self):
        self.origin = new_origin()

    def connect(self, **options):
        options.setdefault("origin", self.origin)
        return weblocks.sync.connect(options.pop("url", self.served.url), poll_interval=0.005, **options)

    def expect_nothing_left(self):
        with self.connect() as locks:
            snapshot = locks.query()
            self.assertEqual(([], []), (snapshot.held, snapshot.pending))

    def test_a_block_holds_its_lock_and_the_lock_has_name_and_mode(self):
        with self.connect() as locks, self.connect() as other:
            with locks.request("db", mode="shared") as lock:
                self.assertEqual(("db", "shared", None), (lock.name, lock.mode, lock.lost))
                self.assertEqual(["db"], [info.name for info in other.query().held])
            with other.request("db", if_available=True) as lock:
                self.assertIsNotNone(lock)

    def test_threading_code_can_use_one_manager_in_many_threads(self):
        inside = []
        most = []

        def work(locks):
            for _ in range(20):
                with locks.request("db"):
                    inside.append(None)
                    most.append(len(inside))
                    inside.pop()

        with self.connect() as locks, ThreadPoolExecutor(8) as pool:
            for done in [pool.submit(work, locks) for _ in range(8)]:
                done.result(SECONDS)
        self.assertEqual([1] * 160, most)
        self.expect_nothing_left()

    def test_a_timeout_raises_TimeoutError(self):
        with self.connect() as locks, locks.request("db"):
            with self.assertRaises(TimeoutError):
                with locks.request("db", timeout=0.2):
                    self.fail("the lock was granted")
            self.assertEqual([], locks.query().pending)

    def test_a_timeout_of_0_gets_a_lock_that_is_free_and_raises_TimeoutError_for_another(self):
        with self.connect() as locks, locks.request("db", timeout=0) as lock:
            self.assertEqual("db", lock.name)
            with self.assertRaises(TimeoutError):
                with locks.request("db", timeout=0):
                    self.fail("the lock was granted")

    def test_if_available_gives_None_where_the_lock_is_not_free(self):
        with self.connect() as locks, locks.request("db"):
            with locks.request("db", if_available=True) as lock:
                self.assertIsNone(lock)

    def test_a_stolen_lock_shows_in_lost_by_check_and_at_the_blocks_end(self):
        # A server that is polled tells of a theft with the reply to a heartbeat.
        with self.connect(heartbeat=1) as locks, self.connect() as other:
            with self.assertRaises(weblocks.LockStolen):
                with locks.request("db") as lock:
                    with other.request("db", steal=True):
                        self.wait_until(lambda: lock.lost is not None)
                    self.assertIsInstance(lock.lost, weblocks.LockStolen)
                    with self.assertRaises(weblocks.LockStolen):
                        lock.check()

    def test_a_theft_that_was_not_told_during_the_block_raises_at_its_end(self):
        with self.connect() as locks, self.connect() as other:
            with self.assertRaises(weblocks.LockStolen):
                with locks.request("db"):
                    with other.request("db", steal=True):
                        pass

    def test_a_lost_connection_shows_in_lost_and_the_manager_goes_on(self):
        with proxied(self.served.port) as proxy, self.connect(url=proxy.url) as locks:
            with self.assertLogs("weblocks"), self.assertRaises(weblocks.LockLost):
                with locks.request("db") as lock:
                    proxy.cut()
                    self.wait_until(lambda: lock.lost is not None)
            with self.assertLogs("weblocks"), locks.request("db", timeout=SECONDS) as lock:
                lock.check()

    def test_an_error_of_the_block_itself_comes_out_of_it(self):
        with self.connect() as locks, self.connect() as other:
            with self.assertRaisesRegex(KeyError, "mine"):
                with locks.request("db"):
                    with other.request("db", steal=True):
                        raise KeyError("mine")
        self.expect_nothing_left()

    def test_an_interrupt_while_the_lock_is_waited_for_leaves_nothing_behind(self):
        # Whatever runs the tests may ignore it, as shells have it for what they start with &.
        self.addCleanup(signal.signal, signal.SIGINT, signal.signal(signal.SIGINT, signal.default_int_handler))
        with self.connect() as locks, self.connect() as other, other.request("db"):
            interrupt = threading.Timer(0.5, os.kill, (os.getpid(), signal.SIGINT))
            interrupt.start()
            with self.assertRaises(KeyboardInterrupt):
                with locks.request("db"):
                    self.fail("the lock was granted")
            interrupt.join()
            self.wait_until(lambda: other.query().pending == [])

    def test_an_interruption_before_the_request_was_made_leaves_nothing_behind(self):
        with self.connect() as locks:
            loop, gate = locks._thread._loop, threading.Event()
            hand_over = loop.call_soon_threadsafe

            def hand_over_and_interrupt(*words, **options):
                loop.call_soon_threadsafe = hand_over
                hand_over(*words, **options)
                raise KeyboardInterrupt

            hand_over(gate.wait)
            loop.call_soon_threadsafe = hand_over_and_interrupt
            with self.assertRaises(KeyboardInterrupt):
                with locks.request("db"):
                    self.fail("the lock was granted")
            gate.set()
            self.assertEqual([], locks.query().held)

    def test_interruptions_at_any_place_leave_nothing_behind_and_the_manager_goes_on(self):
        ended = subprocess.run(
            [sys.executable, "-c", INTERRUPTED, self.served.url, self.origin], text=True, capture_output=True,
            env={**os.environ, "PYTHONPATH": str(PACKAGE / "src")}, timeout=SECONDS,
        )  # fmt: skip
        self.assertEqual(("True True []\n", "", 0), (ended.stdout, ended.stderr, ended.returncode))

    def test_in_a_forked_process_calls_raise_RuntimeError_and_the_parents_manager_stays(self):
        def ask(locks):
            for call in (locks.query, locks.request("db", timeout=1).__enter__):
                with self.assertRaisesRegex(RuntimeError, "forked process: connect anew there"):
                    call()
            locks.close()
            with self.connect() as anew, anew.request("db", if_available=True) as lock:
                self.assertIsNone(lock)

        with self.connect() as locks, locks.request("db") as lock:
            child = os.fork()
            if child == 0:
                try:
                    # By default it ends a process that hangs.
                    signal.alarm(20)
                    ask(locks)
                    os._exit(0)
                finally:
                    os._exit(1)
            self.assertEqual(0, os.waitstatus_to_exitcode(os.waitpid(child, 0)[1]))
            self.assertEqual(["db"], [info.name for info in locks.query().held])
            lock.check()

    def test_a_forked_process_that_leaves_the_blocks_by_an_error_leaves_the_lock_to_the_parent(self):
        child = None
        try:
            with self.connect() as locks, locks.request("db"):
                child = os.fork()
                if child == 0:
                    signal.alarm(20)
                    raise SystemExit(7)
                self.assertEqual(7, os.waitstatus_to_exitcode(os.waitpid(child, 0)[1]))
                self.assertEqual(["db"], [info.name for info in locks.query().held])
        except SystemExit as error:
            os._exit(error.code)
        finally:
            if child == 0:
                os._exit(1)

    def test_close_gives_up_what_other_threads_wait_for_by_Closed_and_what_they_hold_by_LockLost(self):
        ends = {}
        held = threading.Event()

        def hold(locks):
            try:
                with locks.request("db") as lock:
                    held.set()
                    self.wait_until(lambda: lock.lost is not None)
            except weblocks.Error as error:
                ends["holder"] = type(error)

        def wait(locks):
            try:
                with locks.request("db"):
                    pass
            except weblocks.Error as error:
                ends["waiter"] = type(error)

        with self.connect() as locks, self.connect() as other:
            threads = [threading.Thread(target=hold, args=(locks,)), threading.Thread(target=wait, args=(locks,))]
            threads[0].start()
            held.wait(SECONDS)
            threads[1].start()
            self.wait_until(lambda: len(other.query().pending) == 1)
            locks.close()
            for thread in threads:
                thread.join(SECONDS)
            self.assertEqual({"holder": weblocks.LockLost, "waiter": weblocks.Closed}, ends)
            with self.assertRaises(weblocks.Closed):
                locks.query()
            locks.close()
        self.expect_nothing_left()

    def test_connect_raises_as_the_form_for_asyncio_does_and_leaves_no_thread(self):
        before = threading.active_count()
        for options, error in (
            ({"url": "ws://127.0.0.1:1"}, weblocks.Disconnected),
            ({"url": "nowhere"}, ValueError),
            ({"origin": "no URL"}, weblocks.Refused),
        ):
            with self.assertRaises(error), self.connect(**options):
                pass
        self.assertEqual(before, threading.active_count())

    def test_a_manager_that_was_closed_leaves_no_thread(self):
        before = threading.active_count()
        with self.connect() as locks, locks.request("db"):
            self.assertEqual(before + 1, threading.active_count())
        self.assertEqual(before, threading.active_count())

    def wait_until(self, condition):
        end = time.monotonic() + SECONDS
        while not condition():
            self.assertLess(time.monotonic(), end)
            time.sleep(0.01)


class SyncOverPolls(Behaviour, BothServersCase):
    @property
    def served(self):
        return self.server


class SyncOverPushes(Behaviour, BothServersCase):
    @property
    def served(self):
        return self.daemon


if __name__ == "__main__":
    unittest.main()
