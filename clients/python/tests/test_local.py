"""A world in this process: its lines, its managers, and that its library is found."""

import asyncio
import gc
import os
import re
import subprocess
import sys
import tempfile
import time
import unittest
from pathlib import Path
from unittest import mock

import weblocks
from support import PACKAGE, TOP
from weblocks import library

SCRIPTS = sorted((TOP / "tests" / "scripts").glob("*.in"))
SEED = b"a seed of a test"
ORIGIN = "https://a.test"


def lines_of(script):
    """The lines of a script; what stands behind the last LF is one if it has a byte."""
    lines = script.split(b"\n")
    return lines if lines[-1] else lines[:-1]


@unittest.skipUnless(os.environ.get("WEBLOCKS_LIBRARY"), "the library isn't built here")
class Worlds(unittest.TestCase):
    """Lines, and their audit."""

    def test_a_worked_script_has_its_replies_and_its_audit(self):
        self.assertTrue(SCRIPTS)
        for path in SCRIPTS:
            with self.subTest(path.stem), weblocks.World(seed=SEED, keep_books=True) as world:
                replies = b"".join(world.answer(line) + b"\n" for line in lines_of(path.read_bytes()))
                self.assertEqual(path.with_suffix(".out").read_bytes(), replies)
                self.assertEqual(path.with_suffix(".audit").read_bytes(), world.audit())

    def test_a_line_that_is_none_leaves_the_world_as_it_was(self):
        with weblocks.World() as world:
            for line in (b"{\n}", b" " * 65537):
                self.assertRaises(ValueError, world.answer, line)
            self.assertRaises(ValueError, world.audit)
            opened = world.answer(b'{"agent":"a","id":1,"op":"open","url":"https://a.test/"}')
            self.assertEqual(b'{"id":1,"notices":[],"ok":{"client":"client-1"}}', opened)

    def test_a_line_is_bytes_and_nothing_else(self):
        with weblocks.World() as world:
            for line in ("{}", bytearray(b"{}"), 2, None):
                self.assertRaises(TypeError, world.answer, line)

    def test_a_closed_world_answers_nothing(self):
        world = weblocks.World()
        world.close()
        world.close()
        self.assertRaises(ValueError, world.answer, b"{}")

    def test_the_program_of_the_README_runs(self):
        blocks = re.findall(r"^```python\n(.*?)^```$", (PACKAGE / "README.md").read_text(), re.M | re.S)
        [program] = [it for it in blocks if "weblocks.local" in it]
        ended = subprocess.run([sys.executable, "-c", program], check=True, text=True, stdout=subprocess.PIPE)
        self.assertEqual("taken\n", ended.stdout)

    def test_a_seed_has_sixteen_bytes(self):
        self.assertRaises(ValueError, weblocks.World, seed=b"short")


class Libraries(unittest.TestCase):
    """Where the library is looked for."""

    def test_a_missing_library_is_told_with_how_to_build_it(self):
        with mock.patch.dict(os.environ, {"WEBLOCKS_LIBRARY": "/there/is/no/libweblocks.so"}):
            with self.assertRaisesRegex(weblocks.MissingLibrary, r"dist/libweblocks-.*\.so, and clients/c/build"):
                weblocks.local()

    def found(self, top, package, named=None):
        """What is found from a package in this folder below the top, by the top's own names."""
        environment = {"WEBLOCKS_LIBRARY": named} if named else {}
        place = mock.patch.object(library, "__file__", str(top / package / "library.py"))
        with place, mock.patch.dict(os.environ, environment):
            if not named:
                os.environ.pop("WEBLOCKS_LIBRARY", None)
            return library.find().replace(f"{top}/", "")

    def test_a_package_in_the_repository_finds_what_was_built_and_else_what_is_shipped(self):
        package, built = "clients/python/src/weblocks", "clients/c/out/libweblocks.so"
        shipped = "dist/libweblocks-x86_64-linux-gnu.so"
        with tempfile.TemporaryDirectory() as folder:
            top = Path(folder).resolve()
            self.assertEqual("libweblocks.so.1", self.found(top, package))
            for name in (shipped, built):
                (top / name).parent.mkdir(parents=True)
                (top / name).touch()
                self.assertEqual(name, self.found(top, package))
                self.assertEqual("elsewhere.so", self.found(top, package, "elsewhere.so"))
                self.assertEqual("libweblocks.so.1", self.found(top, "lib/python3/site-packages/weblocks"))
            (top / package).mkdir(parents=True)
            (top / package / "libweblocks.so").touch()
            self.assertEqual(f"{package}/libweblocks.so", self.found(top, package, "elsewhere.so"))

    def test_another_library_is_told(self):
        with self.assertRaises(weblocks.MissingLibrary):
            weblocks.World(library="libc.so.6")


@unittest.skipUnless(os.environ.get("WEBLOCKS_LIBRARY"), "the library isn't built here")
class Managers(unittest.IsolatedAsyncioTestCase):
    """Lock managers of one world."""

    async def test_a_lock_is_waited_for_and_granted_in_turn(self):
        order = []

        async def work(locks, name):
            async with locks.request("db"):
                order.append(name)
                await asyncio.sleep(0)

        with weblocks.local() as world:
            async with world.connect(origin=ORIGIN) as one, world.connect(origin=ORIGIN) as two:
                async with one.request("db"):
                    tasks = [asyncio.create_task(work(two, "two")), asyncio.create_task(work(one, "one"))]
                    await asyncio.sleep(0.01)
                    self.assertEqual([], order)
                    self.assertEqual(2, len((await two.query()).pending))
                await asyncio.gather(*tasks)
        self.assertEqual(["two", "one"], order)

    async def test_a_steal_is_told_to_who_held_the_lock(self):
        with weblocks.local() as world:
            async with world.connect(origin=ORIGIN) as one, world.connect(origin=ORIGIN) as two:
                with self.assertRaises(weblocks.LockStolen):
                    async with one.request("db"):
                        async with two.request("db", steal=True):
                            await asyncio.sleep(60)

    async def test_a_manager_that_can_not_be_opened_raises_why_and_nothing_else_is_told(self):
        told = []
        asyncio.get_running_loop().set_exception_handler(lambda _loop, context: told.append(context["message"]))
        closed, world = weblocks.local(), self.enterContext(weblocks.local())
        closed.close()
        with self.assertRaisesRegex(weblocks.Disconnected, "the world was closed"):
            async with closed.connect(origin=ORIGIN):
                self.fail("it was opened")
        with self.assertRaisesRegex(ValueError, "at most 65536 bytes"):
            async with world.connect(origin=ORIGIN + "/" + "a" * 65536):
                self.fail("it was opened")
        # What nobody took of a future is told once the future is gone.
        gc.collect()
        self.assertEqual([], told)

    def open_by_line(self, world):
        """Opens an agent of the managers' origin by a line, and answers what takes its further messages."""
        self.assertEqual(
            b'{"id":1,"notices":[],"ok":{"client":"client-2"}}',
            world.answer(b'{"agent":"z","id":1,"op":"open","url":"https://a.test/"}'),
        )
        return lambda id, rest: world.answer(b'{"agent":"z","id":%d,%s}' % (id, rest))

    async def test_a_release_by_a_line_grants_the_lock_to_a_manager_that_waits_without_a_timer(self):
        async def hold(locks):
            async with locks.request("db"):
                pass

        with weblocks.local() as world:
            async with world.connect(origin=ORIGIN) as locks:
                ask = self.open_by_line(world)
                requested = ask(2, b'"op":"request","name":"db"')
                self.assertEqual(
                    b'{"id":2,"notices":[{"phase":"granted","request":1}],"ok":{"request":1}}', requested
                )
                waiter = asyncio.create_task(hold(locks))
                await asyncio.sleep(0.01)
                self.assertEqual(1, len((await locks.query()).pending))
                released = ask(3, b'"op":"release","request":1')
                self.assertEqual(b'{"id":3,"notices":[],"ok":{"release":"released"}}', released)
                # A heartbeat comes after 10 seconds.
                await asyncio.wait_for(waiter, 5)

    async def test_a_steal_by_a_line_is_told_to_the_manager_that_held_the_lock_without_a_timer(self):
        with weblocks.local() as world:
            async with world.connect(origin=ORIGIN) as locks:
                ask = self.open_by_line(world)
                with self.assertRaises(weblocks.LockStolen):
                    async with locks.request("db"):
                        stolen = ask(2, b'"op":"request","name":"db","options":{"steal":true}')
                        self.assertEqual(
                            b'{"id":2,"notices":[{"phase":"granted","request":2}],"ok":{"request":2}}', stolen
                        )
                        await asyncio.sleep(5)
                        self.fail("the theft was not told")

    async def test_options_and_refusals_are_as_with_a_server(self):
        with weblocks.local() as world:
            async with world.connect(origin=ORIGIN) as one, world.connect(origin=ORIGIN) as two:
                async with one.request("db"):
                    async with two.request("db", if_available=True) as lock:
                        self.assertIsNone(lock)
                    for timeout in (0, 0.01):
                        with self.assertRaises(TimeoutError):
                            async with two.request("db", timeout=timeout):
                                pass
                async with two.request("db", timeout=0):
                    pass
                async with one.request("db", mode="shared"), two.request("db", mode="shared"):
                    self.assertEqual(2, len((await one.query()).held))
            with self.assertRaises(weblocks.Refused):
                async with world.connect(origin="no url"):
                    pass

    async def test_locks_have_no_fencing_tokens(self):
        with weblocks.local() as world:
            async with world.connect(origin=ORIGIN) as locks, locks.request("db") as lock:
                self.assertIsNone(lock.fence)

    async def test_the_end_of_a_manager_frees_its_locks(self):
        held = asyncio.Event()

        async def hold(locks):
            async with locks.request("db"):
                held.set()
                await asyncio.sleep(60)

        with weblocks.local() as world:
            async with world.connect(origin=ORIGIN) as two:
                async with world.connect(origin=ORIGIN) as one:
                    holder = asyncio.create_task(hold(one))
                    await held.wait()
                with self.assertRaises(weblocks.LockLost):
                    await holder
                async with two.request("db", if_available=True) as lock:
                    self.assertIsNotNone(lock)

    def test_an_event_loop_that_ends_while_a_task_holds_a_lock_ends_at_once_and_the_lock_is_free(self):
        async def hold(world, held):
            async with world.connect(origin=ORIGIN) as locks, locks.request("db"):
                held.set()
                await asyncio.sleep(60)

        async def leave(world, holders):
            held = asyncio.Event()
            holders.append(asyncio.create_task(hold(world, held)))
            await held.wait()

        async def look(world):
            async with world.connect(origin=ORIGIN) as locks, locks.request("db", if_available=True) as lock:
                self.assertIsNotNone(lock)

        begun, holders = time.monotonic(), []
        with weblocks.local() as world, self.assertNoLogs("weblocks"):
            asyncio.run(leave(world, holders))
            # A reply that nobody reads was waited for until the heartbeats were over, after 10 seconds or more.
            self.assertLess(time.monotonic() - begun, 9)
            self.assertTrue(holders[0].cancelled())
            asyncio.run(look(world))

    async def test_worlds_and_origins_are_apart(self):
        with weblocks.local() as world, weblocks.local() as other:
            async with (
                world.connect(origin=ORIGIN) as one,
                world.connect(origin="https://b.test") as two,
                other.connect(origin=ORIGIN) as three,
            ):
                async with one.request("db"), two.request("db"), three.request("db"):
                    pass

    async def test_the_audit_counts_what_the_managers_asked(self):
        with weblocks.local(keep_books=True) as world:
            async with world.connect(origin=ORIGIN) as locks, locks.request("db"):
                pass
            self.assertRegex(world.audit(), rb'^\{"entries":\d+,"legal":true,"origin":"https://a.test"\}\n$')

    async def test_a_world_that_ends_is_lost_to_its_managers(self):
        world = weblocks.local()
        with self.assertRaises(weblocks.LockLost):
            async with world.connect(origin=ORIGIN) as locks, locks.request("db"):
                world.close()
                await asyncio.sleep(60)
