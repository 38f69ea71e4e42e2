"""What a reader must believe for the headline: the definitions that its contract cites, and those that these cite.

It goes by names: a definition counts where its name stands in the text of one that counts. So it may count one too
many, where a definition's own words have the name of another, but never one too few.
"""

import re
from collections import defaultdict
from collections.abc import Callable, Iterable, Iterator
from pathlib import Path

TOP = Path(__file__).resolve().parent.parent
# The headline's contract, and the two traits whose ghost members and clauses it speaks of.
HEADLINE, HEAD = "crates/wl_script/src/running.rt", "pub fn run<"
STREAMS = "crates/wl_script/src/streams.rt"
TABLE = "| File of definitions | Says | Lines | Of them cited |"

USE = re.compile(r"\s*(?:ghost |pub )*use (Rattle[\w.]*?)(?:\.\{(.*)\}| as (\w+))?;?$")
BEGIN = re.compile(r"(?:(?:abbrev|unfoldable|pub|record|data) )+(\S+)")
WITHIN = re.compile(r"  pub (\S+) :")
TOKEN = re.compile(r"[^\s(){}\[\],;λ]+")


def plain(name: str) -> str:
    """A name as it stands in a formula: an operator without its places."""
    return name.replace("◌", "")


class Names:
    """The names that a file has from others, each with the module that says it and its name there."""

    def __init__(self):
        self.own: dict[str, tuple[str, str]] = {}
        self.modules: dict[str, str] = {}

    def add(self, found: re.Match) -> None:
        module, names, alias = found.groups()
        if alias:
            self.modules[alias] = module
        for name in re.split(r",\s*", names or ""):
            said, _, here = name.strip().partition(" as ")
            if said:
                self.own[plain(here or said)] = module, plain(said)

    def source_of(self, token: str) -> tuple[str, str] | None:
        first, _, rest = token.partition(".")
        if rest and first in self.modules:
            return self.modules[first], plain(rest.partition(".")[0])
        return self.own.get(token) or self.own.get(first)


class Definitions(Names):
    """A file of specs/: the lines of each definition, without its comments."""

    def __init__(self, path: Path):
        super().__init__()
        self.path, self.said = path, path.read_text().splitlines()
        self.lines: dict[str, dict[int, str]] = defaultdict(dict)
        current: dict[int, str] = {}
        is_mutual = is_module = False
        for number, line in enumerate(self.said):
            found = USE.match(line)
            if found:
                self.add(found)
                continue
            if not line.strip() or line.strip().startswith("--"):
                continue
            if not line.startswith(" "):
                is_module = line.startswith("module ")
            if is_module and not line.startswith(" "):
                # (its parameters are part of none of its definitions)
                current = {}
            elif begun := BEGIN.match(line.removeprefix("  ") if is_module else line):
                current, is_mutual = {}, begun[1] == "mutual"
                if not is_mutual:
                    self.lines[plain(begun[1])] = current
            elif is_mutual and (within := WITHIN.match(line)):
                self.lines[plain(within[1])] = current
            current[number] = line


def crates() -> list[str]:
    """Those of crates.txt."""
    lines = (TOP / "crates.txt").read_text().splitlines()
    return [line.partition(":")[0].split()[0] for line in lines if line and not line.startswith("#")]


def all_definitions() -> dict[str, Definitions]:
    """The files of specs/, by their modules."""
    found = {}
    for crate in crates():
        specs = TOP / "crates" / crate / "specs"
        for path in specs.rglob("*.antt"):
            place = ".".join(path.relative_to(specs).with_suffix("").parts)
            found[f"Rattle.{crate}.specs.{place}"] = Definitions(path)
    return found


def clauses(path: str, head: str = "") -> tuple[Names, list[str]]:
    """The clauses of the function that begins so, or all of a file, and the names that they may use."""
    names, lines, inside = Names(), [], not head
    for line in (TOP / path).read_text().splitlines():
        if found := USE.match(line):
            names.add(found)
        elif inside and head and line.startswith("{"):
            break
        elif inside or line.startswith(head):
            inside = True
            if not line.strip().startswith("//"):
                lines.append(line)
    return names, lines


def sources(names: Names, lines: Iterable[str]) -> Iterator[tuple[str, str]]:
    """What the lines cite of other files."""
    for token in {token for line in lines for token in TOKEN.findall(line)}:
        if found := names.source_of(token):
            yield found


class Cited:
    """What must be believed: of each file of specs/ how many lines it has and how many of them are cited, and of each
    crate the files of src/ whose types are spoken of."""

    def __init__(self):
        files = all_definitions()
        self.types: dict[str, set[str]] = defaultdict(set)
        self.lines: dict[str, tuple[int, int]] = {}
        for module, names in self.reach(files).items():
            lines = {number for name in names for number in files[module].lines[name]}
            self.lines[str(files[module].path.relative_to(TOP))] = len(files[module].said), len(lines)

    def reach(self, files: dict[str, Definitions]) -> dict[str, set[str]]:
        """The definitions of each module that the headline leads to."""
        reached: dict[str, set[str]] = defaultdict(set)
        due = [*sources(*clauses(HEADLINE, HEAD)), *sources(*clauses(STREAMS))]
        while due:
            module, name = due.pop()
            if ".declared." in module:
                self.note_type(module)
            elif module not in files and module.startswith("Rattle.wl_"):
                raise LookupError(f"there is no module {module}, of which {name} is cited")
            elif module in files and name not in files[module].lines:
                raise LookupError(f"{files[module].path.relative_to(TOP)} has no {name}, which is cited")
            elif module in files and name not in reached[module]:
                reached[module].add(name)
                due += cited_by(files[module], module, name)
        return {module: names for module, names in reached.items() if names}

    def note_type(self, module: str) -> None:
        crate, _, place = module.removeprefix("Rattle.").partition(".specs.declared.")
        if crate.startswith("wl_"):
            self.types[crate].add(place.partition(".")[0])


def cited_by(file: Definitions, module: str, name: str) -> Iterator[tuple[str, str]]:
    """What a definition cites, of other files and of its own."""
    text = file.lines[name].values()
    yield from sources(file, text)
    words = {token.partition(".")[0] for line in text for token in TOKEN.findall(line)}
    yield from ((module, word) for word in words if word in file.lines)


def lines_of_definitions() -> int:
    """How many lines the definitions of all crates have together, counted as those that are cited."""
    return sum(len({number for lines in it.lines.values() for number in lines}) for it in all_definitions().values())


def rows_of(page: str) -> dict[str, tuple[int, int]]:
    """The files of the table, with their lines and those of them that are cited."""
    lines = page.splitlines()
    if TABLE not in lines:
        return {}
    rows = {}
    for line in lines[lines.index(TABLE) + 2 :]:
        cells = [cell.strip() for cell in line.strip("|").split(" | ")]
        if not line.startswith("|") or len(cells) != 4:
            break
        rows[cells[0].strip("`")] = int(cells[2]), int(cells[3])
    return rows


def row_fault(path: str, said: tuple[int, int] | None, found: tuple[int, int] | None) -> str | None:
    """What is wrong with the row of a file, or with its absence."""
    if not found:
        return "the headline cites nothing of it"
    if said != found:
        return f"its row must say | {found[0]} | {found[1]} |, and doesn't" if said else "it has no row"
    return None


def sum_fault(page: str, found: dict[str, tuple[int, int]]) -> str | None:
    """The sentence that counts them together."""
    lines, cited = (sum(it[at] for it in found.values()) for at in (0, 1))
    said = f"these {len(found)} files, and of their {lines:,} lines {cited}."
    if said not in page:
        return f"it doesn't say '{said}'"
    return None if cited * 4 < lines_of_definitions() else "they are no less than a quarter of all"


def types_fault(page: str, crate: str, files: set[str]) -> str | None:
    """The files of a crate's src/ whose types the definitions speak of, in the order of the alphabet."""
    said = f"`{crate}` ({', '.join(f'`{name}`' for name in sorted(files))})"
    return None if said in page else f"it doesn't say {said}"


def belief_checks(page: str) -> Iterator[tuple[str, Callable[[], str | None]]]:
    """The table of docs/PROOFS.md has just the files of which something is cited, with their lines."""
    try:
        cited = Cited()
    except LookupError as why:
        told = str(why)
        yield "what must be believed", lambda: told
        return
    said, found = rows_of(page), cited.lines
    for path in sorted({*said, *found}):
        yield f"what must be believed, {path}", lambda p=path: row_fault(p, said.get(p), found.get(p))
    yield "what must be believed, together", lambda: sum_fault(page, found)
    for crate, files in sorted(cited.types.items()):
        yield f"what must be believed, types of {crate}", lambda c=crate, f=files: types_fault(page, c, f)
