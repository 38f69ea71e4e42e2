"""A test harness: tests that run side by side, in several processes, share one of a thing that there is only once.

It starts a server of its own, and has tests take turns at a database by a lock; readers go side by side. Run it by

    PYTHONPATH=clients/python/src python3 -m unittest examples/python/test_harness.py

with WEBLOCKS_PROGRAM as the program's path, if it isn't ./weblocks.
"""

import os
import subprocess
import sys
import tempfile
import unittest
from concurrent.futures import ProcessPoolExecutor
from pathlib import Path

import weblocks

PROGRAM = os.environ.get("WEBLOCKS_PROGRAM", str(Path(__file__).resolve().parents[2] / "weblocks"))
ORIGIN = "https://harness.test"


class LockServer:
    """A lock service for the time of a test run, on a free port; it ends with its input, and so with the tests."""

    def __enter__(self):
        command = [PROGRAM, "daemon", "--listen", "127.0.0.1:0", "--while-input", "--log", "warn"]
        self._process = subprocess.Popen(command, stdin=subprocess.PIPE, stdout=subprocess.PIPE, text=True)
        said, _space, place = self._process.stdout.readline().strip().partition(" ")
        if said != "listening":
            raise RuntimeError(f"{PROGRAM} doesn't listen")
        return f"ws://{place}"

    def __exit__(self, *_why):
        self._process.communicate()


def change(url, file, count):
    """One process's test: adds to a number in a file, which only works if nobody else does meanwhile."""
    with weblocks.sync.connect(url, origin=ORIGIN) as locks:
        for _ in range(count):
            with locks.request("database", timeout=60) as lock:
                number = int(file.read_text())
                lock.check()
                file.write_text(str(number + 1))


def look(url, file):
    """Another process's test: reads it, beside other readers."""
    with weblocks.sync.connect(url, origin=ORIGIN) as locks:
        with locks.request("database", mode="shared", timeout=60):
            return int(file.read_text())


class OneDatabase(unittest.TestCase):
    def test_processes_take_turns(self):
        with LockServer() as url, tempfile.TemporaryDirectory() as folder, ProcessPoolExecutor(4) as pool:
            file = Path(folder, "database")
            file.write_text("0")
            changes = [pool.submit(change, url, file, 25) for _ in range(4)]
            looks = [pool.submit(look, url, file) for _ in range(4)]
            for done in changes:
                done.result()
            self.assertTrue(all(0 <= done.result() <= 100 for done in looks))
            self.assertEqual("100", file.read_text())


if __name__ == "__main__":
    sys.exit(unittest.main())
