"""The kit's prover by itself, over the libraries that a whole `rt ci` has left in crates/*/out."""

from __future__ import annotations

import subprocess
from pathlib import Path

from edited import Digests


class Lacking(Exception):
    """A library that isn't there."""


def kit() -> Path:
    """The kit's folder, which `rt doc` names."""
    said = subprocess.run(["rt", "doc"], check=True, text=True, stdout=subprocess.PIPE).stdout
    return Path(said.strip()).parent


def check_words(top: Path, crate: str, only: list[str]) -> list[str]:
    """The words that check the crate of the current folder by one process, from nothing, as rt writes them but for what
    is kept and built. With `only` it checks these functions, and what they call."""
    crates, kit_folder = Digests(top), kit()
    rlibs = {it: top / "crates" / it / "out/rlib" for it in crates.below(crate)}
    lacking = [it for it, folder in rlibs.items() if not (folder / f"{it}.rlib/format").exists()]
    if lacking:
        raise Lacking(f"no library of {lacking[0]} is in {top}: run rt ci there")
    line, direct = crates.lines[crate]
    root = "src/main.rt" if (top / "crates" / crate / "src/main.rt").exists() else "src/lib.rt"
    words = [kit_folder / "bin/rattle", "check", "--jobs", "1", "--crate-name", crate, root]
    words += ["--crate-type", "staticlib"] * ("staticlib" in line.partition(":")[0].split())
    words += ["--antt-project", kit_folder / "rattle/logic/antt-project.json"]
    words += ["--logic-built", kit_folder / "logic_built", "-L", f"dependency={kit_folder / 'rlibs'}"]
    for it in ("std", *direct):
        words += ["--extern", f"{it}={rlibs.get(it, kit_folder / 'rlibs') / it}.rlib"]
    words += [word for folder in rlibs.values() for word in ("-L", f"dependency={folder}")]
    words += [word for path in only for word in ("--only", path)]
    return [str(it) for it in words]
