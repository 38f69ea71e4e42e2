"""tests/must_fail, by a command that stands for the prover: by which checks edits are refused, and what is told."""

import signal
import subprocess
import time
from collections.abc import Callable, Iterator

from build_checks import Kit
from checkouts import Checkouts
from edited_checkouts import Edited, reason, turned
from running import expect
from standins import put
from together import ASIDE, without_bodies
from turns import Place

Checks = Iterator[tuple[str, Callable[[], None]]]


class Edits(Edited):
    """A copy of the checkout whose edits the gate tries."""

    def has(self, *names: str, word: str = "wrong", crate: str = "low") -> None:
        """Edits of these functions, by this word."""
        for name in names:
            put(self.top / "tests/must-fail" / crate / f"{word}_{name}.edit", turned(name, word=word))


def must_fail_checks(made: Checkouts, kit: Kit) -> Checks:
    def edits_of(*names: str) -> Edits:
        edits = Edits(made.fresh(), kit)
        edits.has(*names)
        return edits

    def ends(edits: Edits, passed: int, failed: int, checks: list[str], *options: str, says: str = "") -> None:
        edits.ends(["tests/must_fail", *options], passed, failed, checks, says)

    both = "low: wrong one, wrong two"

    def together() -> None:
        """The third function calls the first."""
        told = f"low/wrong_three: refused, as it must be: {reason('three')}\n"
        ends(edits_of("one", "two", "three"), 3, 0, [f"{both}, wrong three"], says=told)

    def bodies_aside() -> None:
        """Each place stays in its line, and what others are made of as they are read keeps its body."""
        text = "fn one() {{\n    1\n}}\n\nfn two(\n    it: u8,\n) {{\n{}\n}}\n\n{}"
        kept = "#[cycle(odd)]\nfn three() {\n    even()\n}\n\nconst fn four() -> u8 {\n    4\n}\n\nfn five() { 5 }\n"
        tried, two = Place("src/lib.rt", 1, 3, "", "one"), Place("src/lib.rt", 5, 10, "", "two")
        before, after = text.format("    2\n    + 2", kept), text.format(f"{ASIDE}\n", kept)
        expect("the text", without_bodies("src/lib.rt", before, {tried}), (after, [two]))

    def two_of_one() -> None:
        edits = edits_of("one", "two")
        edits.has("two", word="worse")
        ends(edits, 3, 0, ["low: wrong one, worse two", "low: wrong two"])

    def leaning() -> None:
        ends(edits_of("one", "two", "five"), 3, 0, [f"{both}, wrong five", "low: wrong five, in the whole"])

    def not_refused(word: str, says: str) -> None:
        edits = edits_of("one", "two")
        edits.has("four", word=word)
        checks = [f"{both}, {word} four", f"low: {word} four, in the whole"]
        ends(edits, 2, 1, checks, says=f"low/{word}_four: {says}")

    def unread() -> None:
        edits = edits_of("one", "two")
        edits.has("four", word="broken")
        alone = [f"low: {it}, in the whole" for it in ("broken four", "wrong one", "wrong two")]
        ends(edits, 2, 1, [f"{both}, broken four", *alone], says="low/broken_four: its check came to no verdict:\nsrc/")

    def remembers() -> None:
        """Until the edit, its crate or one below is another."""
        edits = edits_of("one", "two")
        ends(edits, 2, 0, [both])
        ends(edits, 2, 0, [both], says="low/wrong_one: remembered as refused, as it must be: note: src/lib.rt:2:1: ")
        ends(edits, 2, 0, [both, both], "--anew")
        edits.has("two", word="worse")
        ends(edits, 3, 0, [both, both, "low: worse two"])
        put(edits.top / "crates/low/specs/Lib.antt", "-- another definition\n")
        ends(edits, 3, 0, [both, both, "low: worse two", "low: wrong one, worse two", "low: wrong two"])

    def forgets() -> None:
        """What wasn't refused is tried again."""
        edits = edits_of()
        edits.has("four", word="equal")
        for count in (1, 2):
            ends(edits, 0, 1, ["low: equal four", "low: equal four, in the whole"] * count)

    def of_one_crate() -> None:
        edits = Edits(made.fresh(), kit, ("low", "other"))
        (edits.top / "crates.txt").write_text("low:\nother:\n")
        edits.has("one")
        edits.has("two", crate="other")
        ends(edits, 1, 0, ["other: wrong two"], "other")

    def without_library() -> None:
        edits = Edits(made.fresh(), kit, ("low", "high"))
        edits.has("one", crate="high")
        says = f"high/wrong_one: not tried\nno library of low is in {edits.top}: run rt ci there\n"
        ends(edits, 0, 1, [], says=says)

    def not_one_body(texts: str, says: str) -> None:
        edits = edits_of("one")
        put(edits.top / "tests/must-fail/low/odd.edit", texts)
        ends(edits, 0, 1, [], says=says)

    def ended() -> None:
        edits = edits_of("one")
        words = ["tests/must_fail", "--jobs", "1"]
        streams = {"stdout": subprocess.PIPE, "stderr": subprocess.PIPE}
        with subprocess.Popen(words, cwd=edits.top, env=edits.around(RT_DOES="hang"), **streams) as ran:
            until = time.monotonic() + 20
            while not edits.checks() and time.monotonic() < until:
                time.sleep(0.05)
            ran.send_signal(signal.SIGTERM)
            _, said = ran.communicate(timeout=20)
        expect("standard error", said, b"stopped: what was refused is remembered\n")
        expect("the status", ran.returncode, 1)
        expect("what is left of temporary files", [*kit.temporary.iterdir()], [])

    yield "edits of the gate are tried together", together
    yield "the bodies of functions that aren't tried are put aside", bodies_aside
    yield "the second of a function is tried apart", two_of_one
    yield "one of which no goal is told beside another is tried by itself", leaning
    yield "one of the gate that is proved fails", lambda: not_refused("equal", "NOT REFUSED: its function is proved")
    named = "not refused at a goal of its function, but: ./proofs/four/Answers.antt:1:1: "
    yield "one of the gate that only a proof's names refuse fails", lambda: not_refused("named", named)
    yield "one that can't be read fails, and no other", unread
    yield "what was refused is remembered", remembers
    yield "what was not is tried again", forgets
    yield "edits of one crate", of_one_crate
    yield "edits over a library that isn't there", without_library
    yield "an edit of two functions", lambda: not_one_body(turned("one", "two"), "low/odd: what it turns is not in")
    yield "an edit of a text that isn't there", lambda: not_one_body(turned("six"), "low/odd: not just once in lib.rt")
    yield "a run over edits of the gate is ended", ended
