"""docs/MAP.md beside the crates: the files and functions of its ways, and the code's names in its glossary."""

import re
from collections.abc import Callable, Iterator
from pathlib import Path

TOP = Path(__file__).resolve().parent.parent
CRATES = TOP / "crates"
WAYS, WORDS = "| Stop | File | Function | What happens |", "| Word | Means | In the code also |"
NAMES_A_FILE = re.compile(r"[\w./]+\.(rt|antt)")

Check = tuple[str, Callable[[], str | None]]


def coded(text: str) -> list[str]:
    """What stands in backquotes."""
    return re.findall(r"`([^`]+)`", text)


def rows_below(page: str, head: str) -> Iterator[list[str]]:
    """The cells of each row of the tables with this head."""
    inside = False
    for line in page.splitlines():
        inside = line == head or inside and line.startswith("|")
        if inside and line != head and not line.startswith("|---"):
            yield [cell.strip() for cell in line.strip("|").split(" | ")]


def files_of(cell: str) -> list[Path]:
    """The files that a cell names: one without a folder stands in that of the one before it."""
    files: list[Path] = []
    for name in coded(cell):
        files.append(CRATES / name if "/src/" in name or not files else files[-1].parent / name)
    return files


def stop_fault(cells: list[str]) -> str | None:
    """What is wrong with a stop: a file that isn't there, or a function that none of its files has."""
    files = files_of(cells[1])
    if not files:
        return "it names no file"
    for file in files:
        if not file.is_file():
            return f"there is no {file.relative_to(TOP)}"
    text = "".join(file.read_text() for file in files)
    for name in coded(cells[2]):
        if not re.search(rf"\bfn {name}\b", text):
            return f"there is no fn {name} in it"
    return None


def path_fault(name: str, files: set[str]) -> str | None:
    """A file that is named in a sentence stands where it is said to, or, without a folder, in some crate's src."""
    path = name.removeprefix("crates/")
    if "/" in path and (CRATES / path).is_file() or any(it.endswith(f"/{path}") for it in files):
        return None
    return "there is no such file"


def map_checks(page: str) -> Iterator[Check]:
    """Each stop, each file that is named, and each name that the glossary says the code has."""
    stops = [*rows_below(page, WAYS)]
    yield "docs/MAP.md, its ways", lambda: None if stops else "there are none"
    for cells in stops:
        yield f"docs/MAP.md, stop {' | '.join(cells[:3])}", lambda c=cells: stop_fault(c)
    sources = [it for it in CRATES.rglob("*") if it.suffix in (".rt", ".antt") and "out" not in it.parts]
    files = {str(it.relative_to(CRATES)) for it in sources}
    for name in sorted({it for it in coded(page) if NAMES_A_FILE.fullmatch(it)}):
        yield f"docs/MAP.md, {name}", lambda n=name: path_fault(n, files)
    words = set(re.findall(r"\w+", "".join(it.read_text() for it in sources)))
    for cells in rows_below(page, WORDS):
        missing = [it for it in coded(cells[2]) if it not in words and not (CRATES / it).is_dir()]
        said = f"the code has no {', '.join(missing)}" if missing else None
        yield f"docs/MAP.md, the word {cells[0]}", lambda s=said: s
