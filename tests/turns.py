"""What edits turn: the function of each, and the texts with several of them in place."""

from __future__ import annotations

import re
from dataclasses import dataclass
from pathlib import Path

from edited import TOP, Edit

# By the layout that the gate holds each file to, a function ends at the first brace that stands as far in as its head.
HEAD = re.compile(r"( *)(?:(?:pub(?:\([^)]*\))?|const|unsafe|async|ghost) )*fn (\w+)")
OWNER = re.compile(r"( *)(?:pub(?:\([^)]*\))? |unsafe )*(impl|trait)\b(.*)")
OWNERS_NAME = re.compile(r"(?:([\w:]+) for )?&?([\w:]+)")


@dataclass(frozen=True)
class Place:
    """A function: its file, where it begins and ends there, and the last names of its path: the owner's is those of the
    type and of the trait in one."""

    file: str
    first: int
    last: int
    owner: str
    name: str

    def is_at(self, path: str) -> bool:
        """Whether the checker's path, without the crate's name, may be this function's: its modules are those of its
        file, or, in an impl, those of its type, whichever these are."""
        modules = [it for it in Path(self.file).with_suffix("").parts[1:] if it not in ("lib", "main")]
        names = path.split("::")
        return names[-2:] == [self.owner, self.name] if self.owner else names == [*modules, self.name]


@dataclass(frozen=True, eq=False)
class Turn:
    """An edit that turns lines of one function's body."""

    edit: Edit
    place: Place
    lines: dict[int, str]


def owner_of(lines: list[str], at: int, indent: int) -> str:
    """The name under which the checker has what stands in an impl or a trait: of the type, and the trait's behind it.
    A type's parameters can be in that name too, which isn't followed here: such a function is never found."""
    for line in reversed(lines[:at]):
        found = OWNER.match(line)
        if found and len(found[1]) < indent:
            rest = found[3]
            while re.search(r"<[^<>]*>", rest):
                rest = re.sub(r"<[^<>]*>", "", rest)
            named = OWNERS_NAME.match(rest.strip())
            return "".join(it.rpartition("::")[2] for it in (named[2], named[1] or "")) if named else "?"
    return "?" if indent else ""


def bodies(file: str, text: str) -> list[tuple[Place, int]]:
    """The functions of a file, each with the line at which its body begins."""
    lines, found, at = text.split("\n"), [], 0
    while at < len(lines):
        head = HEAD.match(lines[at])
        indent = head[1] if head else ""
        numbers = range(at, len(lines))
        last = next((it for it in numbers if lines[it] == f"{indent}}}"), -1)
        opens = (it for it in numbers if lines[it] == f"{indent}{{" or lines[it].startswith(f"{indent})") or it == at)
        body = next((it for it in opens if lines[it].endswith("{")), last)
        # (a trait's function without a body has another's head before the next body)
        is_whole = not lines[at].endswith((";", "}")) and not any(map(HEAD.match, lines[at + 1 : body + 1]))
        if head and is_whole and body < last:
            first = at
            # The checker has a function begin at its attributes.
            while first and lines[first - 1].startswith(f"{indent}#["):
                first -= 1
            owner = owner_of(lines, at, len(indent))
            found.append((Place(file, first + 1, last + 1, owner, head[2]), body + 1))
            at = last
        at += 1
    return found


def turned_by(edit: Edit) -> Turn | None:
    """What the edit turns, if all of it is in one function's body."""
    texts, fault = edit.applied()
    if fault or len(texts) != 1:
        return None
    [(file, text)] = texts.items()
    before = (TOP / "crates" / edit.crate / file).read_text()
    old, new = before.split("\n"), text.split("\n")
    changed = {at: it for at, (was, it) in enumerate(zip(old, new), 1) if was != it}
    places = [place for place, body in bodies(file, before) if all(body < at < place.last for at in changed)]
    if len(old) != len(new) or not changed or len(places) != 1 or "?" in places[0].owner:
        return None
    return Turn(edit, places[0], changed)


def fault_of(edit: Edit) -> str | None:
    """Why the edit can't be tried beside those of other functions, if it can't."""
    apart = "what it turns is not in the body of one function"
    return edit.fault() or (None if turned_by(edit) else apart)


def texts_of(turns: list[Turn]) -> dict[str, str]:
    """The texts of the files that these turns change, with all of them in place."""
    files: dict[str, list[str]] = {}
    for turn in turns:
        place = TOP / "crates" / turn.edit.crate / turn.place.file
        lines = files.setdefault(turn.place.file, place.read_text().split("\n"))
        for at, line in turn.lines.items():
            lines[at - 1] = line
    return {file: "\n".join(lines) for file, lines in files.items()}
