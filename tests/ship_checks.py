"""tools/ship and the last step of ./test, by a command that stands for rt."""

import os
import shutil
import stat
import subprocess
from collections.abc import Callable, Iterator
from pathlib import Path

from build_checks import Kit
from checkouts import (
    KIT,
    LIBRARY,
    LIBRARY_PARTS,
    LINES,
    MODULE,
    SHIPPED,
    Checkouts,
    digest,
    run_in,
    ship,
    write_built,
)
from running import Ended, Wrong, expect, expect_end
from standins import put, stand_in

Checks = Iterator[tuple[str, Callable[[], None]]]

BUILT = "crates/weblocks/out/weblocks"
# Where ./test builds the library and the module, and their names there with those that they are shipped by.
OUT = ".build/library"
BESIDE = {"libweblocks.so": LIBRARY, "weblocks.wasm": MODULE}
SHIPS = "tools/ship: what is in dist/ is what ./test built\n"
NO_RECORD = "tools/ship: ./test has left no record that its steps passed: run ./test, and then this again\n"
CHANGED = "tools/ship: these files have changed since ./test passed on them: {}\n"


def build_beside(top: Path) -> Path:
    """Leaves a library and a module there, as ./test does."""
    for name in BESIDE:
        put(top / OUT / name, f"what is built as {name}\n")
    return top / OUT


def record(top: Path) -> None:
    """Leaves a program there, with the library and the module, and what ./test records of them."""
    stand_in(top / BUILT)
    build_beside(top)
    sourced = "source tools/sources.bash; source tools/passed.bash"
    words = f'{sourced}; record_passed {BUILT} {OUT} "$(sum_checkout)" "{KIT}"'
    subprocess.run(["bash", "-c", words], cwd=top, check=True)


def recorded(made: Checkouts) -> Path:
    """A copy in which ./test has passed, and nothing is shipped."""
    top = made.fresh()
    shutil.rmtree(top / "dist")
    record(top)
    return top


def shipping_checks(made: Checkouts, kit: Kit) -> Checks:
    def ships() -> None:
        top = recorded(made)
        expect_end(kit.run(top, "tools/ship"), SHIPS.encode())
        program = (top / BUILT).read_bytes()
        expect("the shipped program", (top / SHIPPED).read_bytes(), program)
        expect("its mode", stat.S_IMODE((top / SHIPPED).stat().st_mode), 0o755)
        for name, shipped in BESIDE.items():
            expect(f"the shipped {name}", (top / shipped).read_bytes(), (top / OUT / name).read_bytes())
            expect(f"the mode of {name}", stat.S_IMODE((top / shipped).stat().st_mode), 0o644)
        digests = "".join(f"{line} SHA256 {find(top)}\n" for line, find in LINES.items())
        expect("dist/BUILT", (top / "dist/BUILT").read_text(), f"{digests}kit {KIT}\n")
        names = sorted(it.name for it in (top / "dist").iterdir())
        expect("what is in dist/", names, sorted(Path(it).name for it in ("BUILT", SHIPPED, LIBRARY, MODULE)))

    def replaces() -> None:
        top = recorded(made)
        ship(top, put(top / ".build/other", "#!/bin/sh\n"), "another kit")
        expect_end(kit.run(top, "tools/ship"), SHIPS.encode())
        expect("the shipped program", (top / SHIPPED).read_bytes(), (top / BUILT).read_bytes())
        for name, shipped in BESIDE.items():
            expect(f"the shipped {name}", (top / shipped).read_bytes(), (top / OUT / name).read_bytes())

    def without_out() -> None:
        """What rt and the two builds make may be gone."""
        top = recorded(made)
        shutil.rmtree(top / "crates/weblocks/out")
        shutil.rmtree(top / OUT)
        expect_end(kit.run(top, "tools/ship"), SHIPS.encode())

    def by_git() -> None:
        """Git's own list counts, with what it would add, and without what it ignores."""
        top = made.fresh()
        for words in (["init", "-q"], ["add", "-A"]):
            subprocess.run(["git", *words], cwd=top, check=True)
        (top / "notes.log").write_text("which git ignores\n")
        record(top)
        (top / "notes.log").unlink()
        expect_end(kit.run(top, "tools/ship"), SHIPS.encode())
        (top / "added").touch()
        expect_end(kit.run(top, "tools/ship"), b"", 1, CHANGED.format("added").encode())

    yield "tools/ship ships what ./test built", ships
    yield "it replaces what was shipped", replaces
    yield "it needs no out/", without_out
    yield "it goes by git's list where there is git", by_git


def refusal_checks(made: Checkouts, kit: Kit) -> Checks:
    def refuses(top: Path, told: str) -> None:
        expect_end(kit.run(top, "tools/ship"), b"", 1, told.encode())
        expect("whether anything is shipped", (top / "dist").exists(), False)

    def no_record() -> None:
        top = recorded(made)
        shutil.rmtree(top / ".build")
        refuses(top, NO_RECORD)

    def changed(name: str) -> None:
        top = recorded(made)
        (top / name).write_text((top / name).read_text() + "\n")
        refuses(top, CHANGED.format(name))

    def several() -> None:
        top = recorded(made)
        (top / "crates/wl_types/src/lib.rt").unlink()
        (top / "docs/MORE.md").touch()
        refuses(top, CHANGED.format("crates/wl_types/src/lib.rt, docs/MORE.md"))

    def other_file(name: str, what: str) -> None:
        top = recorded(made)
        (top / name).write_text("#!/bin/sh\n")
        refuses(top, f"tools/ship: {name} isn't the {what} that ./test built\n")

    def broken_record(first: int, behind: int) -> None:
        """Without these lines."""
        top = recorded(made)
        file = top / ".build/passed/BUILT"
        lines = file.read_text().splitlines(keepends=True)
        file.write_text("".join(lines[:first] + lines[behind:]))
        refuses(top, "tools/ship: .build/passed/BUILT can't be read, which says what ./test built\n")

    yield "no record", no_record
    sources = [f"crates/{crate}/src/lib.rt" for crate in ("wl_types", "wl_test_support", "wl_c")]
    for name in (*sources, *LIBRARY_PARTS, "README.md", "tests/running.py"):
        yield f"{name} has changed since", lambda it=name: changed(it)
    yield "files were removed and added since", several
    for name in (BUILT, ".build/passed/weblocks"):
        yield f"{name} is another program", lambda it=name: other_file(it, "program")
    for name, what in (("libweblocks.so", "library"), ("weblocks.wasm", "module")):
        yield f"{name} is another {what}", lambda n=name, w=what: other_file(f".build/passed/{n}", w)
    for number, line in enumerate((*LINES, "kit")):
        yield f"a record without its line {line}", lambda it=number: broken_record(it, it + 1)
    yield "a record of a program alone", lambda: broken_record(2, 5)


def comparison_checks(made: Checkouts, kit: Kit) -> Checks:
    """The last step of ./test. It is given Python, which it is written in."""

    def compare(top: Path, program: Path) -> Ended:
        """With a library and a module built that are those that are shipped, unless they are built already."""
        for name, shipped in BESIDE.items():
            if not (top / OUT / name).exists() and (top / shipped).exists():
                put(top / OUT / name, (top / shipped).read_text())
        path = f"{kit.path[0]}:{os.environ['PATH']}"
        return run_in(top, ["tests/shipped", program, OUT], env=kit.around(PATH=path))

    def passes(top: Path, program: Path) -> str:
        ended = compare(top, program)
        expect("the status", ended.status, 0)
        expect("its last line", ended.out.splitlines()[-1], b"6 passed, 0 failed")
        return ended.out.decode()

    def fails(top: Path, program: Path, why: str) -> None:
        ended = compare(top, program)
        expect("the status", ended.status, 1)
        expect("its last line", ended.out.splitlines()[-1], b"what ./test built is shipped by tools/ship")
        if why not in ended.out.decode():
            raise Wrong(f"it doesn't say '{why}' but\n{ended.out.decode()}")

    def equal() -> None:
        top = made.fresh()
        passes(top, top / SHIPPED)

    def other_bytes() -> None:
        top = made.fresh()
        other = put(top / ".build/other", (top / SHIPPED).read_text() + "\n")
        why = f"{SHIPPED} isn't the program that was built"
        fails(top, other, f"FAILED the shipped program is the one that was built: {why}")

    def other_bytes_beside(name: str, what: str) -> None:
        top = made.fresh()
        put(top / OUT / name, "another\n")
        why = f"{BESIDE[name]} isn't the {what} that was built: their bytes differ"
        fails(top, top / SHIPPED, f"FAILED the shipped {what} is the one that was built: {why}")

    def changed(name: str, what: str) -> None:
        """A byte of what is shipped, which is then what was built, and still not what BUILT names."""
        top = made.fresh()
        data = bytearray((top / name).read_bytes())
        data[len(data) // 2] ^= 1
        (top / name).write_bytes(data)
        why = f"the digest of the shipped {what} is"
        fails(top, top / SHIPPED, f"FAILED the shipped {what} is the one that was built: {why}")

    def missing(name: str, what: str) -> None:
        top = made.fresh()
        build_beside(top)
        (top / name).unlink()
        fails(top, top / SHIPPED, f"FAILED the shipped {what} is the one that was built: there is no {name}")

    def stale(line: str, what: str) -> None:
        top = made.fresh()
        write_built(top, **{line: digest(b"other sources")})
        fails(top, top / SHIPPED, f"FAILED the sources are those that the shipped {what} was built from: the digest of")

    def other_sources(name: str, whats: tuple[str, ...]) -> None:
        top = made.fresh()
        (top / name).write_text((top / name).read_text() + "\n")
        for what in whats:
            fails(top, top / SHIPPED, f"FAILED the sources are those that the shipped {what} was built from")

    def other_kit() -> None:
        top = made.fresh()
        other = put(top / ".build/other", (top / SHIPPED).read_text() + "\n")
        write_built(top, "another kit")
        build_beside(top)
        said = f"the kit is '{KIT}', and dist/BUILT names 'another kit': no bytes are compared\n"
        if passes(top, other).count(said) != 3:
            raise Wrong("it doesn't say of each file that the kit is another")

    def nothing_shipped() -> None:
        top = made.fresh()
        program = stand_in(top / ".build/program")
        build_beside(top)
        shutil.rmtree(top / "dist")
        fails(top, program, "dist/BUILT can't be read: No such file or directory")

    def wrong_replies() -> None:
        top = made.fresh()
        ship(top, put(top / ".build/silent", "#!/bin/sh\n"))
        fails(top, top / SHIPPED, "FAILED a clean clone starts: standard output is")

    yield "the last step passes where all is equal", equal
    yield "it fails where the bytes differ", other_bytes
    of_library = [(it, ("library",)) for it in ("crates/wl_c/src/lib.rt", *LIBRARY_PARTS)]
    for name, whats in [("crates/wl_types/src/lib.rt", ("program", "library")), *of_library]:
        yield f"it fails where {name} differs", lambda n=name, w=whats: other_sources(n, w)
    for line, what in (("sources", "program"), ("library_sources", "library")):
        yield f"it fails where BUILT is stale of the {what}", lambda n=line, w=what: stale(n, w)
    for name, what in (("libweblocks.so", "library"), ("weblocks.wasm", "module")):
        yield f"it fails where the bytes of the {what} differ", lambda n=name, w=what: other_bytes_beside(n, w)
    for name, what in ((SHIPPED, "program"), (LIBRARY, "library"), (MODULE, "module")):
        yield f"it fails where a byte of the shipped {what} is changed", lambda n=name, w=what: changed(n, w)
    for name, what in ((LIBRARY, "library"), (MODULE, "module")):
        yield f"it fails where no {what} is shipped", lambda n=name, w=what: missing(n, w)
    yield "it goes by the sources under another kit", other_kit
    yield "it fails where nothing is shipped", nothing_shipped
    yield "it fails where a clean clone doesn't answer", wrong_replies
