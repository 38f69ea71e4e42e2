"""Fresh copies of the checkout, with a program and a library shipped in them, and a PATH without the kit."""

import hashlib
import os
import re
import shutil
import subprocess
import tempfile
from collections.abc import Callable, Iterator
from contextlib import contextmanager
from pathlib import Path

from running import SECONDS, Ended, Wrong

TOP = Path(__file__).resolve().parent.parent
SHIPPED = "dist/weblocks-x86_64-linux-gnu"
LIBRARY = "dist/libweblocks-x86_64-linux-gnu.so"
MODULE = "dist/weblocks.wasm"
# What else than crates the library and the module are built from.
LIBRARY_PARTS = ("clients/c/build", "clients/wasm/build", "clients/wasm/heap.c", "tools/static_library.bash")
NEEDS_THE_KIT = re.compile(r"rt|python.*|pypy.*")
# No kit has this name.
KIT = "rattle-kit-0 logic 0123456789abcdef"


def files_of_checkout() -> list[str]:
    """The files that a clean clone would have, by the same rule as tools/ship's."""
    words = ["bash", "-c", "source tools/sources.bash && list_checkout"]
    listed = subprocess.run(words, cwd=TOP, check=True, stdout=subprocess.PIPE).stdout
    return sorted(os.fsdecode(name) for name in listed.split(b"\0") if name)


def copy_checkout(to: Path) -> Path:
    """Copies these files to a folder that isn't there yet."""
    for name in files_of_checkout():
        place = to / name
        place.parent.mkdir(parents=True, exist_ok=True)
        shutil.copy(TOP / name, place)
    return to


def digest(data: bytes) -> str:
    return hashlib.sha256(data).hexdigest()


def crates_of(top: Path, first: str = "weblocks") -> list[str]:
    """This crate and those below it, by crates.txt."""
    below: dict[str, list[str]] = {}
    for line in (top / "crates.txt").read_text().splitlines():
        before, colon, after = line.partition("#")[0].partition(":")
        if colon:
            below[before.split()[0]] = after.split()
    found = [first]
    for crate in found:
        found += [it for it in below[crate] if it in below and it not in found]
    return found


def sources(top: Path, crate: str, *others: str) -> list[str]:
    """The files that the crate is built from, and these others, in the order of their names' bytes."""
    folders = [top / "crates" / it for it in crates_of(top, crate)]
    places = [folder / part for folder in folders for part in ("src", "specs", "proofs")]
    found = [str(file.relative_to(top)) for place in places for file in place.rglob("*") if file.is_file()]
    return sorted([*found, "HANDLES", "crates.txt", *others], key=os.fsencode)


def digest_of_files(top: Path, names: list[str]) -> str:
    """The digest of the names and contents of what something is built from: said here a second time."""
    lines = (f"{digest((top / name).read_bytes())}  {name}\0" for name in names)
    return digest("".join(lines).encode())


def digest_of_sources(top: Path) -> str:
    """The digest of what the program is built from."""
    return digest_of_files(top, sources(top, "weblocks"))


def digest_of_library_sources(top: Path) -> str:
    """The digest of what the library and the module are built from."""
    return digest_of_files(top, sources(top, "wl_c", *LIBRARY_PARTS))


# The lines of dist/BUILT before that of the kit, each with what it says of a copy where all is as it should be.
LINES: dict[str, Callable[[Path], str]] = {
    "program": lambda top: digest((top / SHIPPED).read_bytes()),
    "sources": digest_of_sources,
    "library": lambda top: digest((top / LIBRARY).read_bytes()),
    "module": lambda top: digest((top / MODULE).read_bytes()),
    "library-sources": digest_of_library_sources,
}


def write_built(top: Path, kit: str = KIT, **others: str) -> None:
    """Writes dist/BUILT as it should be, but for the digests that are named."""
    said = {line: others.get(line.replace("-", "_")) or find(top) for line, find in LINES.items()}
    lines = [f"{line} SHA256 {it}\n" for line, it in said.items()]
    (top / "dist/BUILT").write_text("".join([*lines, f"kit {kit}\n"]))


def ship(top: Path, program: Path, kit: str = KIT) -> None:
    """Ships this program in the copy, and a library and a module, as built from the copy's own sources."""
    shutil.rmtree(top / "dist", ignore_errors=True)
    (top / "dist").mkdir()
    shutil.copy(program, top / SHIPPED)
    (top / SHIPPED).chmod(0o755)
    (top / LIBRARY).write_text("a library\n")
    (top / MODULE).write_text("a module\n")
    write_built(top, kit)


def keep_few(top: Path) -> None:
    """Leaves two crates of the program, the library's and one of the tests, without their edits."""
    lines = ["wl_types:", "wl_test_support: wl_types", "wl_c staticlib: wl_types memchr", "weblocks: wl_types clap"]
    (top / "crates.txt").write_text("".join(f"{it}\n" for it in lines))
    kept = ("wl_types", "wl_test_support", "wl_c", "weblocks")
    gone = [it for it in (top / "crates").iterdir() if it.name not in kept]
    gone += [top / it for it in ("tests/must-fail", "tests/edits", "tests/scripts", "bench")]
    for it in gone:
        shutil.rmtree(it)


class Checkouts:
    """Copies of the checkout, whole or with a few crates alone, in which a program is shipped."""

    def __init__(self, room: Path, program: Path, is_small: bool = False):
        self.copies, self.count = room / "copies", 0
        self.first = copy_checkout(room / "first")
        if is_small:
            keep_few(self.first)
        ship(self.first, program)

    def fresh(self, name: str = "checkout") -> Path:
        self.count += 1
        place = self.copies / str(self.count) / name
        place.parent.mkdir(parents=True)
        subprocess.run(["cp", "-R", "--", self.first, place], check=True)
        return place

    def each_removed(self, checks: Iterator) -> Iterator:
        """These checks, where the copies that each made are removed behind it, before they reach the disk."""
        for it in checks:
            yield it
            shutil.rmtree(self.copies, ignore_errors=True)


def commands_without_kit(folder: Path) -> Path:
    """A folder with the commands of the PATH but rt and each python."""
    folder.mkdir()
    for place in os.get_exec_path():
        for command in Path(place).iterdir() if Path(place).is_dir() else ():
            if not NEEDS_THE_KIT.fullmatch(command.name) and not os.path.lexists(folder / command.name):
                (folder / command.name).symlink_to(command.absolute())
    return folder


@contextmanager
def path_is(*folders: Path | str) -> Iterator[None]:
    """Has all that is started meanwhile look for commands in these folders."""
    before = os.environ["PATH"]
    os.environ["PATH"] = ":".join(map(str, folders))
    try:
        yield
    finally:
        os.environ["PATH"] = before


@contextmanager
def room() -> Iterator[Path]:
    """A temporary folder, that others may look into."""
    with tempfile.TemporaryDirectory(prefix="weblocks-test-") as made:
        Path(made).chmod(0o755)
        yield Path(made)


def run_in(folder: Path, words: list, script: bytes = b"", seconds: int = SECONDS, **how) -> Ended:
    """Runs the command in that folder with this input."""
    try:
        ended = subprocess.run(words, cwd=folder, input=script, capture_output=True, timeout=seconds, **how)
    except subprocess.TimeoutExpired:
        raise Wrong(f"it did not end in {seconds} seconds") from None
    return Ended(ended.returncode, ended.stdout, ended.stderr)
