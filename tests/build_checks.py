"""./build, by a command that stands for rt."""

import os
import pty
import re
import signal
import subprocess
import time
from collections.abc import Callable, Iterator
from pathlib import Path

from checkouts import TOP, Checkouts, crates_of, digest_of_sources, path_is, run_in
from running import SECONDS, Ended, Wrong, expect, expect_end
from standins import RT, program_that_says, put

Checks = Iterator[tuple[str, Callable[[], None]]]

SAID = "what was just built answers this\n"
FIRST = "build: proving and building the program: {}\n"
PROGRESS = """\
build: wl_number_map was proved by an earlier run, 1 of 24 crates, 0 min
build: wl_types proved, 2 of 24 crates, 0 min
build: wl_machine proved, 3 of 24 crates, 0 min
"""
CORE = "build: wl_core proved, 4 of 24 crates, 0 min\n"
END = "build: the program is built, in 0 min\n"
NOT_BUILT = "build: the program is not built: rt ci ended with {}. Its words are in {}/.build/log, the last of them:\n"
CHANGED = (
    "weblocks: the sources aren't those that the shipped program was built from: ./build builds it anew\n"
)


def cost() -> str:
    """The time that docs/GATE.md says it takes, on four cores and on two."""
    sentence = r"(?m)^`\./build` takes (about \S+ minutes on four cores, \S+ on two)\."
    found = re.search(sentence, (TOP / "docs/GATE.md").read_text())
    if not found:
        raise Wrong("docs/GATE.md doesn't say how long ./build takes")
    return found[1]


class Kit:
    """The stand-in for the kit, and what it noted."""

    def __init__(self, place: Path, commands: Path):
        self.notes, self.temporary = place / "notes", place / "temporary"
        for it in (self.notes, self.temporary):
            it.mkdir()
        self.path = [put(place / "kit/rt", RT).parent, commands]
        self.program = program_that_says(place / "built", SAID)

    def around(self, **more: str) -> dict[str, str]:
        """The environment in which it does that."""
        places = {"RT_NOTES": self.notes, "RT_PROGRAM": self.program, "TMPDIR": self.temporary}
        own = {name: str(it) for name, it in places.items()}
        return {**os.environ, **own, "PATH": ":".join(map(str, self.path)), **more}

    def run(self, top: Path, *words: str, **more: str) -> Ended:
        """Runs the command, which leaves no temporary files."""
        ended = run_in(top, list(words), env=self.around(**more))
        expect("what is left of temporary files", list(self.temporary.iterdir()), [])
        return ended


def built(top: Path) -> list[str]:
    return sorted(it.name for it in (top / ".build").glob("weblocks-*"))


def result_checks(made: Checkouts, kit: Kit) -> Checks:
    """What ./build says and leaves."""

    def says_what_it_does() -> None:
        top = made.fresh()
        told = FIRST.format(cost()) + PROGRESS + CORE + END
        expect_end(kit.run(top, "./build"), b"", 0, told.encode())
        expect("what it leaves", built(top), [f"weblocks-{digest_of_sources(top)}"])
        if "== wl_core\nstatements std: " not in (top / ".build/log").read_text():
            raise Wrong("the prover's words aren't in .build/log")

    def gives_what_the_program_needs() -> None:
        top = made.fresh()
        kit.run(top, "./build")
        crates = crates_of(top)
        given = (kit.notes / "files").read_text().split()
        wanted = {"./HANDLES", "./crates.txt"}
        for crate in crates:
            files = [it for it in (top / "crates" / crate).rglob("*") if it.is_file()]
            wanted |= {f"./{it.relative_to(top)}" for it in files}
        expect("the files that were given", sorted(given), sorted(wanted))
        lines = (top / "crates.txt").read_text().splitlines()
        lines = [it for it in lines if re.split("[ :]", it)[0] in crates]
        expect("crates.txt", (kit.notes / "crates.txt").read_text().splitlines(), lines)

    def is_preferred() -> None:
        """This is how one does without the shipped program."""
        top = made.fresh()
        kit.run(top, "./build")
        expect_end(kit.run(top, "./weblocks", "run"), SAID.encode())
        (top / "crates/wl_types/src/added.rt").touch()
        (top / "crates/wl_types/src/added.rt").unlink()
        expect_end(kit.run(top, "./weblocks", "run"), SAID.encode())

    def is_called_for() -> None:
        """The words of ./build go to standard error, and the script is the program's."""
        top = made.fresh()
        (top / "crates/wl_types/src/added.rt").touch()
        ended = run_in(top, ["./weblocks", "run"], b"a script", env=kit.around())
        told = CHANGED + FIRST.format(cost()) + PROGRESS + CORE + END
        expect_end(ended, SAID.encode(), 0, told.encode())
        expect_end(kit.run(top, "./weblocks", "run"), SAID.encode())

    def is_there() -> None:
        top = made.fresh()
        kit.run(top, "./build")
        expect_end(kit.run(top, "./build"), b"", 0, b"build: the program of these sources is there\n")

    def one_is_left() -> None:
        top = made.fresh()
        kit.run(top, "./build")
        (top / "crates/wl_types/src/added.rt").touch()
        kit.run(top, "./build")
        expect("what is left", built(top), [f"weblocks-{digest_of_sources(top)}"])

    yield "./build says what it does", says_what_it_does
    yield "rt is given what the program needs", gives_what_the_program_needs
    yield "the program that was built is preferred to the shipped one", is_preferred
    yield "./weblocks has a program built", is_called_for
    yield "the program is there", is_there
    yield "one program is left", one_is_left


def fault_checks(made: Checkouts, kit: Kit) -> Checks:
    def no_kit() -> None:
        told = b"build: the program can't be built: the command rt of the Rattle kit is not on the PATH\n"
        with path_is(kit.path[1]):
            expect_end(run_in(made.fresh(), ["./build"]), b"", 1, told)

    def not_proved() -> None:
        top = made.fresh()
        told = FIRST.format(cost()) + PROGRESS + "build: wl_core NOT PROVED, 4 of 24 crates, 0 min\n"
        told += NOT_BUILT.format(1, top)
        told += """\
    ./proofs/one/Answers.antt:8:13: error: `returns`: expected another type
    fn wl_core::one: not proved
    rt: wl_core NOT PROVED
    rt: FAILED: wl_core wl_index
    2 passed, 2 failed
"""
        expect_end(kit.run(top, "./build", RT_DOES="fail"), b"", 1, told.encode())
        expect("what is left", built(top), [])

    def not_begun() -> None:
        top = made.fresh()
        told = FIRST.format(cost()) + NOT_BUILT.format(2, top)
        told += "    rt: no check reads odd.rt\n    0 passed, 1 failed\n"
        expect_end(kit.run(top, "./build", RT_DOES="stop"), b"", 1, told.encode())

    def not_run() -> None:
        """What isn't built isn't run, and nothing else in its place."""
        top = made.fresh()
        (top / "crates/wl_types/src/added.rt").touch()
        ended = kit.run(top, "./weblocks", "run", RT_DOES="fail")
        expect("standard output", ended.out, b"")
        expect("the status", ended.status, 1)

    def edited_meanwhile() -> None:
        top = made.fresh()
        edits = str(top / "crates/wl_types/src/lib.rt")
        told = FIRST.format(cost()) + PROGRESS + CORE
        told += "build: the program is built, but the sources have changed since it began: run it again\n"
        expect_end(kit.run(top, "./build", RT_DOES="edit", RT_EDITS=edits), b"", 1, told.encode())
        ended = kit.run(top, "./weblocks", "run")
        expect_end(ended, SAID.encode(), 0, (CHANGED + FIRST.format(cost()) + PROGRESS + CORE + END).encode())

    def cannot_be_written() -> None:
        top = made.fresh()
        (top / ".build").touch()
        told = f"build: the program can't be built: {top}/.build can't be written\n"
        expect_end(kit.run(top, "./build"), b"", 1, told.encode())

    def no_build_by_words() -> None:
        """Neither a question nor a slip begins a build, which takes long."""
        top = made.fresh()
        wrong = (["--often"], ["-h"], ["one", "two"], ["--after-gate", "--help"])
        for command, takes, more in (
            ("./build", "", (["one"], [""])),
            ("clients/c/build", " [--after-gate] [FOLDER]", ()),
            ("clients/wasm/build", " [--after-gate] [MODULE]", ()),
        ):
            usage = f"usage: {command}{takes}\n".encode()
            expect_end(kit.run(top, command, "--help"), usage)
            for words in (*wrong, *more):
                expect_end(kit.run(top, command, *words), b"", 2, usage)

    yield "words that the builds don't know", no_build_by_words
    yield "no rt on the PATH", no_kit
    yield "a crate isn't proved", not_proved
    yield "rt refuses to begin", not_begun
    yield "./weblocks runs nothing where the build fails", not_run
    yield "an edit meanwhile counts as not built", edited_meanwhile
    yield ".build can't be written", cannot_be_written


def in_time(holds: Callable[[], bool], what: str) -> None:
    until = time.monotonic() + SECONDS
    while not holds():
        if time.monotonic() > until:
            raise Wrong(f"{what} in {SECONDS} seconds")
        time.sleep(0.05)


def process_checks(made: Checkouts, kit: Kit) -> Checks:
    def ends_at(number: int, status: int) -> None:
        """It ends with rt, and leaves nothing."""
        top = made.fresh()
        (kit.notes / "process").unlink(missing_ok=True)
        how = {"stdin": subprocess.DEVNULL, "stderr": subprocess.PIPE, "start_new_session": True}
        with subprocess.Popen(["./build"], cwd=top, env=kit.around(RT_DOES="hang"), **how) as child:
            in_time(lambda: (kit.notes / "process").exists(), "rt wasn't called")
            in_time(lambda: "wl_core proved" in (top / ".build/log").read_text(), "rt didn't go on")
            os.killpg(child.pid, number)
            child.communicate(timeout=SECONDS)
        expect("the status", child.returncode, status)
        rt = int((kit.notes / "process").read_text())
        in_time(lambda: not Path(f"/proc/{rt}").exists(), "rt didn't end")
        expect("what is left of temporary files", list(kit.temporary.iterdir()), [])
        expect("what is left", built(top), [])

    def on_a_terminal() -> None:
        """The progress is one line, that is written over."""
        top = made.fresh()
        ours, its = pty.openpty()
        how = {"stdin": subprocess.DEVNULL, "stderr": its}
        with subprocess.Popen(["./build"], cwd=top, env=kit.around(), **how) as child:
            os.close(its)
            shown = b""
            # (at its end a terminal gives an error)
            try:
                while piece := os.read(ours, 4096):
                    shown += piece
            except OSError:
                pass
        os.close(ours)
        expect("the status", child.returncode, 0)
        lines = [line.split("\r\x1b[K")[-1] for line in shown.decode().split("\r\n")]
        expect("what is left on the terminal", lines, [FIRST.format(cost()).strip(), END.strip(), ""])
        if "\r\x1b[Kbuild: wl_core proved, 4 of 24 crates, 0 min" not in shown.decode():
            raise Wrong(f"the progress isn't shown in {shown!r}")

    yield "Ctrl-C", lambda: ends_at(signal.SIGINT, 130)
    yield "it is told to end", lambda: ends_at(signal.SIGTERM, 143)
    yield "the progress on a terminal", on_a_terminal


def lanes_checks(made: Checkouts, kit: Kit) -> Checks:
    """How many checks of ./test go side by side."""

    def say(wanted: str, asks: str, processors: int, free: int, **more: str) -> None:
        """On so many processors, with so much free memory, in kB."""
        machine = f"nproc() {{ echo {processors}; }}; free_memory() {{ echo {free}; }}"
        words = ["bash", "-c", f"source tools/lanes.bash; {machine}; {asks}"]
        around = {name: value for name, value in os.environ.items() if name != "RT_JOBS"}
        expect_end(run_in(made.fresh(), words, env=around | more), f"{wanted}\n".encode())

    def are(wanted: str, processors: int, each: int, **more: str) -> None:
        """By rt, where so much memory is free for each processor."""
        say(wanted, "choose_lanes; echo ${RT_JOBS-by rt}", processors, each * processors, **more)

    def counts(wanted: str, processors: int, free: int, **more: str) -> None:
        """By what comes behind it."""
        say(wanted, "count_lanes", processors, free, **more)

    yield "as many checks as there are processors", lambda: are("4", 4, 5_000_000)
    yield "with less memory rt chooses how many", lambda: are("by rt", 2, 4_999_999)
    yield "with more processors rt chooses how many", lambda: are("by rt", 5, 5_000_000)
    yield "RT_JOBS says how many", lambda: are("9", 4, 5_000_000, RT_JOBS="9")
    yield "as many tries of edits as there are processors", lambda: counts("5", 5, 90_000_000)
    yield "with less memory fewer tries", lambda: counts("2", 4, 14_999_999)
    yield "and one at least", lambda: counts("1", 4, 1_000)
    yield "RT_JOBS says how many tries", lambda: counts("9", 4, 1_000, RT_JOBS="9")
