"""What specs/ is for: the definitions that public clauses cite, those that docs/PROOFS.md claims, and what these cite.

All else, as invariants and what private functions say, stands in specs/inner of its crate. It goes by names, as
beliefs.py does: so it may count one too many, but never one too few.
"""

import re
from collections import defaultdict
from collections.abc import Iterator
from pathlib import Path

from beliefs import TOP, USE, Definitions, Names, all_definitions, cited_by, crates, sources

# Ghost members that say how a type is built, and not what its callers see.
BUILT = {"use", "view", "invariant", "coded"}
# A type whose invariant is what its callers know of it: who takes a manager's lock finds it.
SHARED = {("wl_manager", "Locked")}

CLAUSE = re.compile(r"\s*(?:requires|ensures)\b")
FUNCTION = re.compile(r"(\s*)((?:pub(?:\(\w+\))? )?)(?:unsafe )?(?:extern \"C\" )?fn (\w+)")
ITEM = re.compile(r"(pub(?:\(\w+\))? )?(?:unsafe )?(?:extern \"C\" )?(fn|struct|enum|trait|impl)\b(.*)")
GHOST = re.compile(r"\s*ghost (\w+)[ :]")


class Exports:
    """What a crate's src/lib.rt makes public: modules, whose public items are, and names."""

    def __init__(self, source: Path):
        lib = source / "lib.rt"
        text = lib.read_text() if lib.exists() else ""
        self.modules = {*re.findall(r"^pub mod (\w+);", text, re.M)}
        self.names: set[str] = set()
        for used in re.findall(r"^pub use ([^;]+);", text, re.M):
            group = re.search(r"\{(.*)\}", used, re.S)
            names = group[1].split(",") if group else [used.split("::")[-1]]
            self.names |= {name.strip() for name in names}

    def has(self, module: str, is_pub: bool, name: str) -> bool:
        return name in self.names or module in self.modules and is_pub


def target_of(text: list[str], at: int) -> tuple[str, bool]:
    """The type that an impl is of, and whether it is a trait's."""
    head = text[at]
    while "{" not in head and "where" not in head:
        at += 1
        head += " " + text[at].strip()
    for _ in range(3):
        head = re.sub(r"<[^<>]*>", "", head)
    head = re.split(r"\bwhere\b|\{", head.removeprefix("impl"))[0]
    trait, _, of = head.rpartition(" for ")
    found = re.search(r"\w+", of)
    return found[0] if found else "", bool(trait)


def clause_lines(text: list[str], at: int) -> Iterator[str]:
    """The clauses of the function that begins at this line."""
    is_begun = False
    for line in text[at:]:
        is_begun = is_begun or bool(CLAUSE.match(line))
        if line.strip() in ("", "{", "{}") or not is_begun and line.endswith(("{", ";")):
            return
        if is_begun:
            yield line


def ghost_lines(text: list[str], at: int) -> Iterator[str]:
    """The ghost member that begins at this line."""
    for line in text[at:]:
        yield line
        if line.endswith(";"):
            return


def public_lines(crate: str, path: Path, exports: Exports) -> Iterator[str]:
    """What a file says to callers of the crate: clauses of public functions, and ghost members of public types."""
    module = path.relative_to(TOP / "crates" / crate / "src").with_suffix("").parts[0]
    text, kind, is_public, is_shared, is_trait = path.read_text().splitlines(), "", False, False, False
    for at, line in enumerate(text):
        if item := ITEM.match(line):
            kind, is_trait = item[2], item[2] == "trait"
            if kind == "impl":
                name, is_trait = target_of(text, at)
            else:
                name = re.match(r"\s*(\w+)", item[3])[1]
            is_public = exports.has(module, kind == "impl" or (item[1] or "").strip() == "pub", name)
            is_shared = (crate, name) in SHARED
        if not is_public:
            continue
        function, ghost = FUNCTION.match(line), GHOST.match(line)
        if function and (is_trait or function[2].strip() == "pub" or kind == "fn"):
            yield from clause_lines(text, at)
        elif ghost and (ghost[1] not in BUILT or is_shared and ghost[1] == "invariant"):
            yield from ghost_lines(text, at)


def claimed_lines(text: list[str], names: list[str], clauses: set[str]) -> Iterator[str]:
    """The clauses and ghost members that a row of docs/PROOFS.md names, but for invariants."""
    inside = False
    for at, line in enumerate(text):
        if ITEM.match(line):
            inside = any(re.search(rf"\b{name}\b", line) for name in names if name[0].isupper())
        elif line.startswith("}"):
            inside = False
        function, ghost = FUNCTION.match(line), GHOST.match(line)
        if function and function[3] in names:
            wanted = False
            for said in clause_lines(text, at):
                if found := re.match(r"\s*((?:requires|ensures)(?: \w+)?)\b.*\{", said):
                    wanted = re.sub(r" \{.*", "", found[1]).strip() in clauses
                if wanted:
                    yield said
        elif inside and ghost and f"ghost {ghost[1]}" in clauses and ghost[1] != "invariant":
            yield from ghost_lines(text, at)


def names_of(text: list[str]) -> Names:
    """The names that a file has from others."""
    names = Names()
    for line in text:
        if found := USE.match(line):
            names.add(found)
    return names


def cited_in_public(claims: list[tuple[str, list[str], set[str]]]) -> Iterator[tuple[str, str]]:
    """What is cited to callers, and what is claimed: (file, names, clauses)."""
    for crate in crates():
        source = TOP / "crates" / crate / "src"
        exports = Exports(source)
        for path in sorted(source.rglob("*.rt")):
            yield from sources(names_of(path.read_text().splitlines()), public_lines(crate, path, exports))
    for file, names, clauses in claims:
        text = (TOP / file).read_text().splitlines()
        yield from sources(names_of(text), claimed_lines(text, names, clauses))


def reached(files: dict[str, Definitions], due: list[tuple[str, str]]) -> dict[str, set[str]]:
    """The definitions that these lead to."""
    found: dict[str, set[str]] = defaultdict(set)
    while due:
        module, name = due.pop()
        if module in files and name in files[module].lines and name not in found[module]:
            found[module].add(name)
            due += cited_by(files[module], module, name)
    return found


def outer_fault(file: Definitions, names: set[str]) -> str | None:
    """Definitions of a file of specs/ that nothing public leads to."""
    inner = sorted({*file.lines} - names)
    return f"nothing public leads to: {', '.join(inner)}" if inner else None


def outer_checks(claims: list[tuple[str, list[str], set[str]]]):
    """Each file of specs/, but for those of specs/inner, has what public clauses and claims lead to alone."""
    files = all_definitions()
    found = reached(files, [*cited_in_public(claims)])
    for module, file in sorted(files.items()):
        if ".specs.inner" not in module and file.path.name not in ("Lib.antt", "inner.antt"):
            where = file.path.relative_to(TOP)
            yield f"what {where} is for", lambda f=file, m=module: outer_fault(f, found.get(m, set()))
