"""tests/try_edits, by commands that stand for rt and the prover: what is on record afterwards, and by which checks."""

import signal
import subprocess
import time
from collections.abc import Callable, Iterator
from pathlib import Path

from build_checks import Kit
from checkouts import Checkouts
from edited_checkouts import Edited, reason, turned
from running import Wrong, expect
from standins import put

Checks = Iterator[tuple[str, Callable[[], None]]]


class Edits(Edited):
    """A copy of the checkout with further edits, and what is on record of them."""

    def __init__(self, top: Path, kit: Kit, crates: tuple[str, ...] = ("low",)) -> None:
        super().__init__(top, kit, crates)
        self.record = top / "tests/edits/TRIED"
        put(self.record, "")

    def has(self, *names: str, word: str = "wrong", crate: str = "low") -> None:
        """Edits of these functions, by this word, on record where they were refused over other sources."""
        for name in names:
            put(self.top / "tests/edits" / crate / f"{word}_{name}.edit", turned(name, word=word))
            self.record.write_text(self.record.read_text() + f"{crate}/{word}_{name} 0 {reason('five')}\n")

    def tried(self) -> dict[str, str]:
        """What is on record by this run, without the names of crates."""
        found = [it.split(" ", 2) for it in self.record.read_text().splitlines() if not it.startswith("#")]
        return {name.partition("/")[2]: told for name, digest, told in found if digest != "0"}


def edit_checks(made: Checkouts, kit: Kit) -> Checks:
    def edits_of(*names: str) -> Edits:
        edits = Edits(made.fresh(), kit)
        edits.has(*names)
        return edits

    def ends(edits: Edits, passed: int, failed: int, checks: list[str], *options: str, says: str = "", **more) -> None:
        edits.ends(["tests/try_edits", *options], passed, failed, checks, says, **more)

    both = {"wrong_one": reason("one"), "wrong_two": reason("two")}
    through = ["ci: low", "low: wrong one, wrong two"]

    def together() -> None:
        edits = edits_of("one", "two")
        ends(edits, 2, 0, through)
        expect("what is on record", edits.tried(), both)

    def those_that_are_due() -> None:
        edits = edits_of("one", "two")
        ends(edits, 2, 0, through)
        edits.has("four")
        ends(edits, 3, 0, [*through, "ci: low", "low: wrong four"])
        ends(edits, 3, 0, [*through, "ci: low", "low: wrong four"], says="0 of 3 edits to try")
        every = "low: wrong four, wrong one, wrong two"
        words = {*every.removeprefix("low: ").split(", ")}
        ended = edits.run("tests/try_edits", "--all")
        expect("the status", ended.status, 0)
        expect("the words of its check", {*edits.checks()[-1].removeprefix("low: ").split(", ")}, words)

    def not_refused(word: str, says: str) -> None:
        """It is on record no more."""
        edits = edits_of("one", "two")
        edits.has("four", word=word)
        checks = ["ci: low", f"low: wrong one, wrong two, {word} four", f"low: {word} four, in the whole"]
        ends(edits, 2, 1, checks, says=f"low/{word}_four: {says}")
        expect("what is on record", edits.tried(), both)
        if f"{word}_four" in edits.record.read_text():
            raise Wrong("it is still on record")

    def of_two_functions(word: str, told: str, is_refused: bool) -> None:
        edits = edits_of("one", "two")
        put(edits.top / "tests/edits/low/odd.edit", turned("three", "four", word=word))
        checks = [*through, f"low: {word} three, {word} four, in the whole"]
        ends(edits, 2 + is_refused, 1 - is_refused, checks, says=f"low/odd: {told}")
        expect("what is on record", edits.tried(), both | {"odd": reason("three", word)} if is_refused else both)

    def unproved() -> None:
        """What was on record before is left as it was."""
        edits = edits_of("one", "two")
        says = "rt: low NOT PROVED\nthe crates aren't proved as they stand, so no edit was tried\n"
        ends(edits, 0, 2, ["ci: low"], says=says, RT_DOES="doubt")
        expect("the record", edits.record.read_text().count(" 0 note"), 2)

    def of_one_crate() -> None:
        """The crates below it are there, and no other."""
        edits = Edits(made.fresh(), kit, ("low", "middle", "high"))
        edits.has("one", crate="high")
        edits.has("two", crate="middle")
        ends(edits, 1, 0, ["ci: low middle", "middle: wrong two"], "middle")

    def interrupted(number: signal.Signals) -> None:
        """One crate is through, and another's check goes on."""
        edits = Edits(made.fresh(), kit, ("low", "high"))
        edits.has("one", "two", crate="high")
        edits.has("one")
        put(edits.top / "crates/high/src/lib.rt", (edits.top / "crates/high/src/lib.rt").read_text() + "\n" * 9)
        words = ["tests/try_edits", "--jobs", "1"]
        streams = {"stdout": subprocess.PIPE, "stderr": subprocess.PIPE}
        with subprocess.Popen(words, cwd=edits.top, env=edits.around(RT_DOES="hang"), **streams) as ran:
            until = time.monotonic() + 20
            while "low: wrong one" not in edits.checks() and time.monotonic() < until:
                time.sleep(0.05)
            ran.send_signal(number)
            _, said = ran.communicate(timeout=20)
        expect("standard error", said, b"stopped: what was confirmed is on record\n")
        expect("the status", ran.returncode, 1)
        expect("what is left of temporary files", [*kit.temporary.iterdir()], [])
        expect("what is on record", edits.tried(), both)

    yield "further edits are tried together", together
    yield "those that are due, or all", those_that_are_due
    yield "one that is proved fails", lambda: not_refused("equal", "NOT REFUSED: its function is proved")
    named = "not refused at a goal of its function, but: ./proofs/four/Answers.antt:1:1: "
    yield "one that only a proof's names refuse fails", lambda: not_refused("named", named)
    refused = f"refused, as it must be: {reason('three')}"
    yield "one of two functions is tried by itself", lambda: of_two_functions("wrong", refused, True)
    proved = "NOT REFUSED: the crate is proved with this edit"
    yield "one of two functions that is proved fails", lambda: of_two_functions("equal", proved, False)
    yield "no edit of a crate that isn't proved is tried", unproved
    yield "further edits of one crate", of_one_crate
    for number in (signal.SIGINT, signal.SIGTERM):
        yield f"a run that {number.name} ends has on record what it confirmed", lambda it=number: interrupted(it)
