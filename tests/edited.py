"""Edits of tests/must-fail and tests/edits: what each changes, what its crate reads, and what is on record of it."""

from __future__ import annotations

import hashlib
import subprocess
from dataclasses import dataclass
from pathlib import Path

TOP = Path(__file__).resolve().parent.parent
# Those that the gate tries, and the further ones.
MUST_FAIL = TOP / "tests" / "must-fail"
EDITS = TOP / "tests" / "edits"
RECORD = EDITS / "TRIED"
# What a check reads of a crate.
PARTS = ("src", "specs", "proofs")

HEAD = """\
# What tests/try_edits tried: an edit, a digest of all that its try read, and where the prover refused it.
# An edit that has no line here, or one with another digest than the sources now give, is due.
"""


@dataclass(frozen=True)
class Edit:
    """An edit of a crate's code, which the prover must refuse."""

    crate: str
    path: Path

    @property
    def name(self) -> str:
        return f"{self.crate}/{self.path.stem}"

    def applied(self) -> tuple[dict[str, str], str | None]:
        """The texts of the files that it changes, by their place in the crate, and why it can't be applied, if it
        can't: each old text must be in its file just once, as the pairs before it left that file."""
        texts: dict[str, str] = {}
        file, old, count = "", "", 0
        for line in self.path.read_text().splitlines():
            word, _, rest = line.partition(":")
            rest = rest.removeprefix(" ")
            if word == "file":
                file = rest.strip()
                place = TOP / "crates" / self.crate / file
                if not place.is_file():
                    return texts, f"there is no file {file}"
                texts.setdefault(file, place.read_text())
            elif word == "old":
                old = rest
            elif word == "new":
                if not file or not old:
                    return texts, "a new text stands before its file and its old text"
                if texts[file].count(old) != 1:
                    return texts, f"not just once in {Path(file).name}: {old.strip()}"
                texts[file] = texts[file].replace(old, rest)
                old, count = "", count + 1
        return texts, None if count else "it replaces nothing"

    def fault(self) -> str | None:
        return self.applied()[1]


def edits_of(crate: str, place: Path = EDITS) -> list[Edit]:
    """The further edits of a crate, or those of another place, by name."""
    return [Edit(crate, path) for path in sorted((place / crate).glob("*.edit"))]


def edited_crates(place: Path = EDITS) -> list[str]:
    """The crates that have further edits, or that have some in another place, by name."""
    return sorted(folder.name for folder in place.glob("*") if folder.is_dir())


def kit_logic() -> str:
    """The kit's logic, by which it proves and refuses, as its line names it: releases of one logic differ in the rest.
    Nothing where there is no kit."""
    try:
        line = subprocess.run(["rt", "version"], check=True, text=True, stdout=subprocess.PIPE).stdout
    except (OSError, subprocess.CalledProcessError):
        return ""
    return line.partition("logic")[2].strip()


class Digests:
    """Digests of all that the try of an edit reads: the kit's logic, the edit, its crate and those below it."""

    def __init__(self, top: Path = TOP) -> None:
        self.top, self.logic = top, kit_logic()
        self.lines: dict[str, tuple[str, list[str]]] = {}
        for line in (top / "crates.txt").read_text().splitlines():
            head, colon, below = line.partition("#")[0].partition(":")
            if colon:
                self.lines[head.split()[0]] = (" ".join(line.split()), below.split())
        self.crates: dict[str, str] = {}

    def of_crate(self, crate: str) -> str:
        """A digest of what a check of the crate reads, with the crates of the repository that it stands on."""
        if crate not in self.crates:
            line, below = self.lines[crate]
            digest = hashlib.sha256(line.encode())
            folder = self.top / "crates" / crate
            for file in sorted(file for part in PARTS for file in (folder / part).rglob("*") if file.is_file()):
                digest.update(f"\n{file.relative_to(folder).as_posix()} ".encode())
                digest.update(hashlib.sha256(file.read_bytes()).digest())
            for other in below:
                if other in self.lines:
                    digest.update(f"\n{other} {self.of_crate(other)}".encode())
            self.crates[crate] = digest.hexdigest()
        return self.crates[crate]

    def below(self, crate: str) -> list[str]:
        """The crates of the repository that this one stands on, lowest first."""
        found: list[str] = []
        for other in self.lines[crate][1]:
            if other in self.lines:
                found += [it for it in (*self.below(other), other) if it not in found]
        return found

    def of_edit(self, edit: Edit) -> str:
        handles = (self.top / "HANDLES").read_bytes()
        whole = (self.logic.encode(), handles, self.of_crate(edit.crate).encode(), edit.path.read_bytes())
        return hashlib.sha256(b"\0".join(whole)).hexdigest()[:32]


class Record:
    """What is on record: for each edit the digest at its last try, and where it was refused."""

    def __init__(self) -> None:
        self.tried = self.read()
        self.changed: dict[str, tuple[str, str] | None] = {}

    @staticmethod
    def read() -> dict[str, tuple[str, str]]:
        tried = {}
        for line in RECORD.read_text().splitlines() if RECORD.is_file() else ():
            if line and not line.startswith("#"):
                name, digest, place = line.split(" ", 2)
                tried[name] = digest, place
        return tried

    def is_due(self, edit: Edit, digest: str) -> bool:
        return self.tried.get(edit.name, ("", ""))[0] != digest

    def strangers(self, edits: list[Edit]) -> list[str]:
        """The names on record that no edit has."""
        return sorted({*self.tried} - {edit.name for edit in edits})

    def note(self, edit: Edit, digest: str, place: str) -> None:
        self.changed[edit.name] = digest, place

    def forget(self, name: str) -> None:
        self.changed[name] = None

    def write(self) -> None:
        """Writes what changed into the record, which another run may have changed meanwhile, then puts it in the place
        of the old one."""
        self.tried = {name: it for name, it in (self.read() | self.changed).items() if it is not None}
        lines = [f"{name} {digest} {place}\n" for name, (digest, place) in sorted(self.tried.items())]
        new = RECORD.with_name("TRIED.new")
        new.write_text(HEAD + "".join(lines))
        new.replace(RECORD)
