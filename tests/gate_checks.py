"""./test itself, by commands that stand for rt, for the builds and for tests."""

import os
import re
import shutil
from collections.abc import Callable, Iterator
from pathlib import Path

from build_checks import Kit, in_time
from checkouts import Checkouts, run_in
from running import Ended, Wrong, expect, expect_end
from ship_checks import BUILT, NO_RECORD, OUT, SHIPS
from standins import put, stand_in

Checks = Iterator[tuple[str, Callable[[], None]]]

# A step that goes on once another has begun beside it: it leaves a file, and waits for the other's.
MEETS = """#!/bin/sh
touch {own}
for _ in $(seq 200); do
    [ ! -e {other} ] || exec {then}
    sleep 0.1
done
exit 9
"""

# A step that would go on for long.
STAYS = "#!/bin/sh\necho $$ >{file}\nexec sleep 300\n"

# The steps of ./test that have a stand-in here, beside rt.
STEPS = (
    *("try_edits", "read_proofs", "read_me", "using", "building"),
    *("must_fail", "refuse_growths", "run_scripts", "run_daemon", "embedding", "launching", "clients"),
)


def gate_checks(made: Checkouts, kit: Kit) -> Checks:
    """./test itself, over tests that pass."""

    def stubbed() -> Path:
        top = made.fresh()
        shutil.rmtree(top / "dist")
        for step in STEPS:
            put(top / "tests" / step, "#!/bin/sh\n")
        put(top / "clients/c/build", '#!/bin/sh\nmkdir -p "$2"\necho a library >"$2/libweblocks.so"\n')
        put(top / "clients/wasm/build", '#!/bin/sh\necho a module >"$2"\n')
        return top

    def test(top: Path, **more: str) -> Ended:
        """./test, where what rt builds answers as it must, and nothing but rt stands before the PATH."""
        program = stand_in(kit.notes / "program")
        path = f"{kit.path[0]}:{os.environ['PATH']}"
        return run_in(top, ["./test"], env=kit.around(RT_PROGRAM=str(program), PATH=path, **more))

    def passes_once_shipped() -> None:
        top = stubbed()
        expect("the status", test(top).status, 1)
        expect_end(kit.run(top, "tools/ship"), SHIPS.encode())
        ended = test(top)
        expect("standard error", ended.err, b"")
        expect("the status", ended.status, 0)
        took = r"^test: 'rt ci' took \d+:\d\d, and \d+:\d\d of a processor$"
        expect("the lines of what the proofs took", len(re.findall(took, ended.out.decode(), re.MULTILINE)), 1)

    def stops(step: str, status: int) -> None:
        """Nothing can be shipped then, though an earlier run had passed."""
        top = stubbed()
        test(top)
        put(top / step.partition(" ")[0], f"#!/bin/sh\nexit {status}\n")
        ended = test(top)
        told = f"test: stopped at '{step}', which ended with status {status}\n"
        expect("standard error", ended.err, told.encode())
        expect("the status", ended.status, status)
        expect_end(kit.run(top, "tools/ship"), b"", 1, NO_RECORD.encode())

    def stops_at_proofs() -> None:
        ended = test(stubbed(), RT_DOES="fail")
        expect("standard error", ended.err, b"test: stopped at 'rt ci', which ended with status 1\n")
        expect("the status", ended.status, 1)

    def goes_on_side_by_side() -> None:
        top = stubbed()
        library = top / "clients/c/build"
        shutil.move(library, library.with_name("builds"))
        daemon, built = top.parent / "daemon", top.parent / "built"
        put(top / "tests/run_daemon", MEETS.format(own=daemon, other=built, then="true"))
        put(library, MEETS.format(own=built, other=daemon, then='clients/c/builds "$@"'))
        # (the last step alone fails, since nothing is shipped yet)
        expect("the status", test(top).status, 1)
        expect_end(kit.run(top, "tools/ship"), SHIPS.encode())

    def ends_what_is_beside() -> None:
        top = stubbed()
        file = top.parent / "stays"
        put(top / "clients/c/build", STAYS.format(file=file))
        put(top / "tests/run_daemon", f"#!/bin/sh\nuntil [ -s {file} ]; do sleep 0.1; done\nexit 5\n")
        ended = test(top)
        told = f"test: stopped at 'tests/run_daemon {BUILT}', which ended with status 5\n"
        expect("standard error", ended.err, told.encode())
        expect("the status", ended.status, 5)
        process = Path("/proc", file.read_text().strip())
        in_time(lambda: not process.exists(), "what was beside it didn't end")

    def without_kit() -> None:
        """It says so before its first step."""
        top = stubbed()
        ended = run_in(top, ["./test"], env=kit.around(PATH=str(kit.path[1])))
        missing = "the command rt of the Rattle kit, which proves the crates, is not on the PATH"
        expect_end(ended, b"", 1, f"test: nothing is tested: {missing}\n".encode())

    def edited_meanwhile() -> None:
        top = stubbed()
        ended = test(top, RT_DOES="edit", RT_EDITS=str(top / "README.md"))
        said = "test: tools/ship will refuse this run, as these files changed meanwhile: README.md\n"
        if said not in ended.out.decode():
            raise Wrong(f"it doesn't say '{said}' but\n{ended.out.decode()}")
        expect_end(kit.run(top, "tools/ship"), b"", 1, NO_RECORD.encode())

    yield "./test passes once its program is shipped", passes_once_shipped
    of_built = (("launching", 4), ("run_scripts", 1), ("run_daemon", 5), ("clients --allow-missing", 1))
    stopped = [("tests/building", 3), ("tests/must_fail", 8)]
    stopped += [(f"tests/{step} {BUILT}", status) for step, status in of_built]
    stopped += [(f"clients/c/build --after-gate {OUT}", 2)]
    stopped += [(f"clients/wasm/build --after-gate {OUT}/weblocks.wasm", 7)]
    stopped += [(f"tests/embedding --library {OUT}", 6)]
    for step, status in stopped:
        yield f"./test stops at {step}", lambda it=step, number=status: stops(it, number)
    yield "./test stops at rt ci", stops_at_proofs
    yield "./test's steps go on side by side", goes_on_side_by_side
    yield "./test ends what goes on beside a step that fails", ends_what_is_beside
    yield "./test without the kit", without_kit
    yield "a file is edited while ./test runs", edited_meanwhile
