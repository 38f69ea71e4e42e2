"""Wrong bodies of a crate's functions, several tried by one check of these functions, from nothing.

Each function is proved by the contracts of what it calls, and by none of their bodies. So a check of a crate in which
many have a wrong body tells of each what it would tell of it alone; and the bodies of those that aren't tried are put
aside, since the checker would prove them too, as far as those that are tried call them, which takes longer than all the
rest. An edit counts as refused where its own function isn't proved, and a goal of that very function is told, by its
place in the code or by its proofs' folder. What is told of a function that calls one which isn't proved can lack that:
then the edit is tried by itself, over the crate as it stands.
"""

from __future__ import annotations

import shutil
import tempfile
from dataclasses import dataclass
from pathlib import Path

from edited import PARTS, Edit
from prover import check_words
from runs import Runs
from told import end_of, goal_of, is_refusal, reason_of, reasons
from turns import Place, Turn, bodies, texts_of, turned_by

# The body of a function that isn't tried. (With `#[tactic(none)]` before it the checker doesn't search for its proof,
# which spares a tenth; but then no goal is told of some functions that call it.)
ASIDE = "unreachable!()"
# What a function's folder below proofs/ can have.
WRITTEN = ("Answers.antt", "Invariants.antt")


@dataclass(frozen=True)
class Verdict:
    """Whether an edit was refused at a goal, and the goal, or what was said in its place."""

    is_refused: bool
    said: str

    def __str__(self) -> str:
        return f"refused, as it must be: {self.said}" if self.is_refused else self.said


def no_verdict(lines: list[str]) -> Verdict:
    return Verdict(False, "\n".join(["its check came to no verdict:", *lines[-6:]]))


def path_of(place: Place) -> str:
    """The end of the name under which the checker has the function."""
    modules = [it for it in Path(place.file).with_suffix("").parts[1:] if it not in ("lib", "main")]
    return "::".join([place.owner, place.name] if place.owner else [*modules, place.name])


def one_each(turns: list[Turn]) -> list[Turn]:
    """The first of these turns of each function."""
    return [*{turn.place: turn for turn in reversed(turns)}.values()][::-1]


def without_bodies(file: str, text: str, tried: set[Place]) -> tuple[str, list[Place]]:
    """The text, where a body is one expression that never is reached, but for those that are tried, and each function
    that was changed so. What is computed as the program is built keeps its body, and so do functions in a cycle."""
    lines = text.split("\n")
    aside: list[Place] = []
    for place, body in bodies(file, text):
        head = lines[place.first - 1 : body]
        is_kept = any("const fn" in line or "#[cycle" in line for line in head)
        if place not in tried and body < place.last - 1 and not is_kept:
            lines[body : place.last - 1] = [ASIDE, *[""] * (place.last - 2 - body)]
            aside.append(place)
    return "\n".join(lines), aside


def put_aside(folder: Path, tried: set[Place]) -> None:
    """Puts the bodies of the other functions of this copy of a crate aside, and what was written to prove them."""
    aside: list[Place] = []
    for path in sorted((folder / "src").rglob("*.rt")):
        text, found = without_bodies(path.relative_to(folder).as_posix(), path.read_text(), tried)
        path.write_text(text)
        aside += found
    proofs = folder / "proofs"
    for place in sorted({it.parent for name in WRITTEN for it in proofs.rglob(name)}):
        if any(it.is_at("::".join(place.relative_to(proofs).parts)) for it in aside):
            shutil.rmtree(place)


class Together:
    """Tries edits over a folder with the crates, whose out/ has the libraries that `rt ci` left there."""

    def __init__(self, top: Path, runs: Runs) -> None:
        self.top, self.runs = top, runs

    def check(self, crate: str, texts: dict[str, str], only: set[Place], is_whole: bool) -> tuple[int, list[str]]:
        """Checks a copy of a crate with these texts in the place of its own: these functions alone, if any are named,
        with the others' bodies put aside or not."""
        with tempfile.TemporaryDirectory(prefix="weblocks-edits-") as made:
            folder = Path(made)
            for part in PARTS:
                if (self.top / "crates" / crate / part).is_dir():
                    shutil.copytree(self.top / "crates" / crate / part, folder / part)
            for file, text in texts.items():
                (folder / file).write_text(text)
            if not is_whole:
                put_aside(folder, only)
            return self.runs.run(folder, *check_words(self.top, crate, sorted({path_of(it) for it in only})))

    def alone(self, turn: Turn) -> Verdict:
        """Tries what an edit turns by itself, over the crate as it stands."""
        status, lines = self.check(turn.edit.crate, texts_of([turn]), {turn.place}, is_whole=True)
        if is_refusal(status, lines, {turn.place.file}):
            goal, told = goal_of(turn.place, lines), reasons(lines) or lines
            return Verdict(bool(goal), goal or f"not refused at a goal of its function, but: {told[0]}")
        if end_of(turn.place, lines) == "proved":
            return Verdict(False, "NOT REFUSED: its function is proved with this edit")
        return no_verdict(lines)

    def whole(self, edit: Edit) -> Verdict:
        """Tries an edit that turns more than one function's body, over the crate as it stands."""
        texts = edit.applied()[0]
        status, lines = self.check(edit.crate, texts, set(), is_whole=True)
        if is_refusal(status, lines, {*texts}):
            reason, told = reason_of(lines), reasons(lines) or lines
            return Verdict(bool(reason), reason or f"not refused at a goal, but: {told[0]}")
        if status == 0:
            return Verdict(False, "NOT REFUSED: the crate is proved with this edit")
        return no_verdict(lines)

    def group(self, turns: list[Turn]) -> dict[Edit, Verdict]:
        """Tries turns of different functions by one check, and what that doesn't refuse by itself."""
        status, lines = self.check(turns[0].edit.crate, texts_of(turns), {it.place for it in turns}, is_whole=False)
        is_read = is_refusal(status, lines, {it.place.file for it in turns})
        goals = {it: goal_of(it.place, lines) if is_read else "" for it in turns}
        return {it.edit: Verdict(True, goals[it]) if goals[it] else self.alone(it) for it in turns}

    def try_all(self, edits: list[Edit]) -> dict[Edit, Verdict]:
        """Tries edits of one crate."""
        turns = [turn for edit in edits if (turn := turned_by(edit))]
        verdicts: dict[Edit, Verdict] = {}
        while turns:
            group = one_each(turns)
            turns = [it for it in turns if it not in group]
            verdicts |= self.group(group)
        return verdicts | {edit: self.whole(edit) for edit in edits if edit not in verdicts}
