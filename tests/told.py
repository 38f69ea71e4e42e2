"""What the checker tells of wrong bodies: whether it refused them, and at which goals."""

from __future__ import annotations

import re
from pathlib import Path

from turns import Place

# What a check tells of a place, and what it says of a function in the end.
PLACED = re.compile(r"(?:note: )?(?:\./)?(\S+?):(\d+):\d+:")
ENDED = re.compile(r"fn (\S+): (.*)")
# As `rt must-fail` reads it: a proof file names what an edit took away, or cites such a proof.
NAMES = re.compile(r"(\./)?proofs/.*(has no field|is not in scope|has no `|was not admitted)")
# A remark on how a proof was found, which names no goal.
REMARK = re.compile(r"\S+:\d+:\d+: note: large solution:")
STALE = re.compile(r"kept work of \S+ cannot be used|could not be used")
# So much of a line `rt must-fail` prints, and so much is on record.
WIDTH = 160
NOT_PROVED = ("not proved", "no proof")


def names(line: str, place: Place) -> bool:
    """Whether a line that a check tells is of this function: by its place in the code, or by its proofs' folder."""
    found = PLACED.match(line)
    if not found:
        return False
    file, number = Path(found[1]), int(found[2])
    if file.parts[0] == "proofs":
        return place.is_at("::".join(file.parts[1:-1]))
    return found[1] == place.file and place.first <= number <= place.last


def reasons(lines: list[str]) -> list[str]:
    """The lines in which a check tells why the crate isn't proved, as `rt must-fail` looks for them."""
    told = [it for it in lines if PLACED.match(it) and not REMARK.match(it)]
    return [it for it in told if ": error" in it or it.startswith("note: ")] or told


def is_refusal(status: int, lines: list[str], changed: set[str]) -> bool:
    """Whether the check reached the prover with all that was changed, and the crate isn't proved, or one of the
    functions that it was asked for. It is stricter than `rt must-fail`: any error in the code, in a definition or in a
    changed file counts as one of reading."""
    if status != 1 or not lines or not lines[-1].startswith(("logic=not-proved", "only=")):
        return False
    placed = (PLACED.match(it) for it in reasons(lines) if ": error" in it)
    unread = any(it and (it[1] in changed or it[1].startswith(("src/", "specs/"))) for it in placed)
    return not unread and not any(STALE.search(it) for it in lines)


def reason_of(lines: list[str]) -> str:
    """Where a check of a whole crate refused an edit, as `rt must-fail` would print it: the first line that isn't a
    proof's that names what the edit took away."""
    return next((it for it in reasons(lines) if not NAMES.match(it)), "")[:WIDTH].strip()


def end_of(place: Place, lines: list[str]) -> str:
    """What a check says of the function in the end; nothing where it says that of none, or of two."""
    ended = [found for found in map(ENDED.match, lines) if found]
    own = [it[2] for it in ended if place.is_at(it[1].partition("::")[2])]
    return own[0] if len(own) == 1 else ""


def goal_of(place: Place, lines: list[str]) -> str:
    """The first that a check tells of the function, as `rt must-fail` would print it, where in the end it isn't proved;
    nothing where it tells of none of its goals."""
    if not end_of(place, lines).startswith(NOT_PROVED):
        return ""
    told = next((it for it in reasons(lines) if names(it, place) and not NAMES.match(it)), "")
    return told[:WIDTH].strip()
