"""Tries edits of many crates, several crates side by side."""

from __future__ import annotations

import threading
from collections.abc import Callable
from concurrent.futures import ThreadPoolExecutor
from pathlib import Path

from edited import Edit
from prover import Lacking
from runs import Broken, Runs
from together import Together, Verdict

# It is told the seconds of a processor too.
Tell = Callable[[dict[Edit, Verdict], float], None]


def size(crate: Path) -> int:
    """How much code a crate has, by which the longest is tried first."""
    return sum(it.stat().st_size for it in (crate / "src").rglob("*.rt"))


class Trying:
    """The crates whose edits are to be tried over a folder, and whom to tell of each crate what came of its edits."""

    def __init__(self, top: Path, edits: list[Edit], runs: Runs, tell: Tell) -> None:
        self.runs, self.lock, self.tell = runs, threading.Lock(), tell
        self.together = Together(top, runs)
        self.edits, self.faults = edits, dict[str, None]()
        self.told: set[Edit] = set()
        crates = sorted({it.crate for it in edits}, key=lambda it: size(top / "crates" / it))
        self.waiting = [[edit for edit in edits if edit.crate == crate] for crate in crates]

    def work(self) -> None:
        """Tries what is left, crate by crate."""
        while True:
            with self.lock:
                if not self.waiting or self.runs.is_stopped:
                    return
                edits = self.waiting.pop()
            try:
                verdicts = self.together.try_all(edits)
                with self.lock:
                    self.told |= verdicts.keys()
                    self.tell(verdicts, self.runs.take_seconds())
            except Broken:
                self.runs.stop()
            except Lacking as why:
                with self.lock:
                    self.faults[str(why)] = None

    def run(self, jobs: int) -> None:
        """Tries all, so many crates at a time, and tells of which nothing is known, and what was in the way."""
        # (whoever is interrupted as he joins a thread may take it for ended: so the pool joins them)
        with ThreadPoolExecutor(jobs) as lanes:
            try:
                for ended in [lanes.submit(self.work) for _ in range(jobs)]:
                    ended.result()
            finally:
                self.runs.stop()
        untold = [f"{edit.name}: not tried" for edit in self.edits if edit not in self.told]
        for line in (*untold, *self.faults):
            print(line)
