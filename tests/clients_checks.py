"""tests/clients, over parts that pass, fail, can't be run, and leave processes."""

import os
import shutil
import time
from collections.abc import Callable, Iterator
from pathlib import Path

from build_checks import Kit
from checkouts import SHIPPED, Checkouts, run_in
from running import Ended, Wrong, expect
from standins import put

Checks = Iterator[tuple[str, Callable[[], None]]]

PASSES = "#!/bin/sh\necho \"it is given $1\"\n"
FAILS = "#!/bin/sh\necho one failed\nexit 1\n"
MISSES = "#!/bin/sh\necho 'not run: a browser: there is none'\nexit 3\n"
MISSES_UNSAID = "#!/bin/sh\nexit 3\n"
# Its process leaves the part's session and keeps its output open.
LEAVES = "#!/bin/sh\nsetsid sleep 1000 &\necho $! >left\n"
# A process whose parent ended is gone once it ends itself.
ORPHANS = """#!/bin/bash
orphan=$(sh -c 'sleep 1 >/dev/null & echo $!')
for turn in {1..100}; do
    [[ -e /proc/$orphan ]] || exit 0
    sleep 0.1
done
exit 1
"""
LEAVES_SHORTLY = "#!/bin/sh\nsleep 1 &\n"


def is_running(process: int) -> bool:
    return Path(f"/proc/{process}").exists()


def clients_checks(made: Checkouts, kit: Kit) -> Checks:
    def with_parts(parts: dict[str, str]) -> Path:
        top = made.fresh()
        shutil.rmtree(top / "tests/clients.d", ignore_errors=True)
        (top / "tests/clients.d").mkdir()
        for name, text in parts.items():
            put(top / "tests/clients.d" / name, text)
        return top

    def run(top: Path, *words: str) -> Ended:
        path = f"{kit.path[0]}:{os.environ['PATH']}"
        return run_in(top, ["tests/clients", *words, SHIPPED], env=kit.around(PATH=path), seconds=60)

    def tells(parts: dict[str, str], status: int, *last: str, words: tuple[str, ...] = ()) -> None:
        top = with_parts(parts)
        ended = run(top, *words)
        expect("standard error", ended.err, b"")
        expect("the status", ended.status, status)
        expect("its last lines", ended.out.decode().splitlines()[-len(last) :], list(last))

    def shows() -> None:
        top = with_parts({"one": PASSES})
        (top / "tests/clients.d/data.json").write_text("{}")
        lines = run(top).out.decode().splitlines()
        expect("what it says", lines[:2], ["clients: one begins", f"it is given {top / SHIPPED}"])
        if not lines[2].startswith("clients: one passed, "):
            raise Wrong(f"it doesn't say that the part passed but {lines[2]}")
        expect("its end", lines[3:], ["clients: 1 parts passed, 0 failed, 0 not run"])

    def ends_what_is_left() -> None:
        top = with_parts({"one": LEAVES, "two": PASSES})
        ended = run(top)
        expect("the status", ended.status, 1)
        if b"clients: one FAILED: it left running: sleep, " not in ended.out:
            raise Wrong(f"it doesn't say what was left but\n{ended.out.decode()}")
        expect("whether it runs", is_running(int((top / "left").read_text())), False)

    def waits_for_what_ends() -> None:
        begun = time.monotonic()
        tells({"one": LEAVES_SHORTLY}, 0, "clients: 1 parts passed, 0 failed, 0 not run")
        expect("whether it waited", time.monotonic() - begun >= 1, True)

    missing = ("clients: 1 parts passed, 0 failed, 1 not run", "clients: not run: two: a browser: there is none")
    unsaid = ("clients: 0 parts passed, 0 failed, 1 not run", "clients: not run: one: it doesn't say what")
    yield "tests/clients shows what a part says, and how it ended", shows
    yield "a part that fails", lambda: tells(
        {"one": FAILS, "two": PASSES}, 1, "clients: 1 parts passed, 1 failed, 0 not run"
    )
    yield "a part that can't be run", lambda: tells({"one": PASSES, "two": MISSES}, 1, *missing)
    yield "it may be missing", lambda: tells({"one": PASSES, "two": MISSES}, 0, *missing, words=("--allow-missing",))
    yield "a part that doesn't say what is missing", lambda: tells({"one": MISSES_UNSAID}, 1, *unsaid)
    yield "no part at all", lambda: tells({}, 1, "clients: 0 parts passed, 0 failed, 0 not run")
    yield "a part leaves a process", ends_what_is_left
    yield "a part's process ends shortly behind it", waits_for_what_ends
    yield "a part sees the end of its orphans", lambda: tells(
        {"one": ORPHANS}, 0, "clients: 1 parts passed, 0 failed, 0 not run"
    )
