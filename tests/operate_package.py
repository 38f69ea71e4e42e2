"""deploy/package: what is in the package, that it is built of the shipped program alone, and its words."""

import hashlib
import os
import re
import shutil
import subprocess
from pathlib import Path

from checkouts import SHIPPED, TOP, digest, files_of_checkout, write_built
from operate_needs import Checks, Needs, ran
from running import Ended, Wrong, expect, run_on

EPOCH = "1767225600"
PARTS = ["LICENSE-MIT", "clients", "deploy", "docs", "tools"]
COMMANDS = ["run", "audit", "timeline", "serve", "client", "daemon"]
# A line of an option in a help text.
OPTION = re.compile(r"^ +(?:(-\w), )?(?: *)(--[a-z-]+)", re.MULTILINE)
FILES = [
    "etc/default/weblocks",
    "usr/bin/weblocks",
    "usr/lib/python3/dist-packages/weblocks/__main__.py",
    "usr/lib/python3/dist-packages/weblocks/py.typed",
    "usr/lib/systemd/system/weblocks.service",
    "usr/libexec/weblocks/lead",
    "usr/libexec/weblocks/lend-tokens",
    "usr/share/bash-completion/completions/weblocks",
    "usr/share/doc/weblocks/DEPLOY.md.gz",
    "usr/share/doc/weblocks/changelog.gz",
    "usr/share/doc/weblocks/copyright",
    "usr/share/doc/weblocks/examples/haproxy-pair.cfg",
    "usr/share/doc/weblocks/examples/haproxy-shards.cfg",
    "usr/share/doc/weblocks/examples/haproxy.cfg",
    "usr/share/doc/weblocks/examples/lead.conf",
    "usr/share/doc/weblocks/examples/nginx.conf",
    "usr/share/man/man1/weblocks.1.gz",
    "usr/share/nodejs/weblocks/package.json",
    "usr/share/nodejs/weblocks/src/session.js",
    "usr/share/nodejs/weblocks/weblocks.js",
    "usr/share/zsh/vendor-completions/_weblocks",
]


def run_package(top: Path, into: Path, **environment: str) -> Ended:
    """deploy/package of this copy of the checkout."""
    into.mkdir()
    clean = {name: value for name, value in os.environ.items() if name != "SOURCE_DATE_EPOCH"}
    ended = ran([top / "deploy/package"], 120, cwd=into, env={**clean, **environment})
    return Ended(ended.returncode, ended.stdout, ended.stderr)


def copy_parts(top: Path, program: Path) -> Path:
    """Copies what deploy/package reads, with this program in the place of the shipped one."""
    for name in files_of_checkout():
        if name.split("/")[0] in PARTS:
            (top / name).parent.mkdir(parents=True, exist_ok=True)
            shutil.copy(TOP / name, top / name)
    (top / "dist").mkdir()
    shutil.copy(program, top / SHIPPED)
    others = {it: digest(it.encode()) for it in ("sources", "library", "module", "library_sources")}
    write_built(top, program=digest(program.read_bytes()), **others)
    return top


class Built:
    """A package, and what is in it."""

    def __init__(self, place: Path, program: Path) -> None:
        self.place, self.program = place, program
        self.top = copy_parts(place / "checkout", program)
        ended = run_package(self.top, place / "package", SOURCE_DATE_EPOCH=EPOCH)
        if ended.status:
            raise Wrong(ended.err.decode())
        self.file = Path(ended.out.decode().strip())
        self.tree = place / "tree"
        subprocess.run(["dpkg-deb", "-x", self.file, self.tree], check=True)
        self.modules = self.tree / "usr/lib/python3/dist-packages"

    def help(self, *words: str) -> str:
        return run_on([self.program, *words, "--help"]).out.decode()

    def options(self, *words: str) -> list[str]:
        """The options that a help text has, by their lines."""
        found = [it for pair in OPTION.findall(self.help(*words)) for it in pair if it]
        expect(f"whether the help of {words} has options", bool(found), True)
        return sorted(found)

    def read(self, name: str) -> str:
        return (self.tree / name).read_text()

    def page(self) -> str:
        """The man page's text, as it is shown, without its line breaks."""
        words = ["man", "-E", "UTF-8", "-l", str(self.tree / "usr/share/man/man1/weblocks.1.gz")]
        shown = ran(words, env={**os.environ, "MANWIDTH": "10000"})
        return re.sub(".\b", "", shown.stdout.decode())


def is_the_same_again(built: Built) -> None:
    old = os.umask(0o077)
    try:
        other = {"SOURCE_DATE_EPOCH": EPOCH, "TZ": "Pacific/Apia", "LC_ALL": "C.UTF-8"}
        ended = run_package(built.top, built.place / "again", **other)
    finally:
        os.umask(old)
    expect("standard error", ended.err, b"")
    again = built.place / "again" / built.file.name
    expect("whether both are the same bytes", again.read_bytes() == built.file.read_bytes(), True)


def has_its_files(built: Built) -> None:
    expect("what is missing", [it for it in FILES if not (built.tree / it).is_file()], [])
    version = run_on([built.program, "--version"]).out.decode().split()[1]
    expect("its name", built.file.name, f"weblocks_{version}_amd64.deb")
    shipped = hashlib.sha256((built.tree / "usr/bin/weblocks").read_bytes()).hexdigest()
    expect("the SHA-256 of the program", shipped, hashlib.sha256(built.program.read_bytes()).hexdigest())
    listed = ran(["dpkg-deb", "-c", built.file]).stdout.decode()
    owners = {line.split()[1] for line in listed.splitlines()}
    expect("the owners", owners, {"root/root"})
    expect("what was compiled", [it for it in listed.split() if "__pycache__" in it], [])


def each_module_is_there(built: Built) -> None:
    for ours, theirs, kinds in (
        ("clients/python/src/weblocks", "usr/lib/python3/dist-packages/weblocks", (".py", ".typed")),
        ("clients/js/src", "usr/share/nodejs/weblocks/src", (".js",)),
    ):
        wanted = {it.name for it in (built.top / ours).iterdir() if it.suffix in kinds or it.name == "py.typed"}
        expect(f"the files of {theirs}", {it.name for it in (built.tree / theirs).iterdir()}, wanted)


def is_refused(built: Built, into: Path, why: str, **environment: str) -> None:
    ended = run_package(built.top, into, **environment)
    expect("standard error", ended.err.decode(), f"deploy/package: {why}\n")
    expect("the status", ended.status, 1)
    expect("what was written", list(into.iterdir()), [])


def another_program_is_refused(built: Built) -> None:
    """A byte more makes another program of it, which runs as well."""
    program = built.top / SHIPPED
    before = program.read_bytes()
    program.write_bytes(before + b"\0")
    try:
        why = f"{SHIPPED} isn't the program that dist/BUILT names, by its SHA-256"
        is_refused(built, built.place / "other", why, SOURCE_DATE_EPOCH=EPOCH)
    finally:
        program.write_bytes(before)


def no_time_is_refused(built: Built) -> None:
    """The copy of the checkout has no git, and so no last commit."""
    why = "git doesn't tell the time of the last commit, so set SOURCE_DATE_EPOCH: "
    is_refused(built, built.place / "timeless", why + "fatal: not a git repository: '/nowhere'", GIT_DIR="/nowhere")


def words_are_looked_at(built: Built) -> None:
    """Before anything is built."""
    usage = "usage: deploy/package [FOLDER]\n"
    nowhere = str(built.place / "nowhere")
    for words, out, err, status in (
        (["--help"], usage, "", 0),
        (["one", "two"], "", usage, 2),
        ([nowhere], "", f"deploy/package: there is no folder {nowhere}\n", 1),
    ):
        ended = ran([built.top / "deploy/package", *words])
        expect(f"what {words} prints", ended.stdout.decode(), out)
        expect(f"what is said of {words}", ended.stderr.decode(), err)
        expect(f"the status of {words}", ended.returncode, status)


def lintian_is_silent(built: Built) -> None:
    ended = ran(["lintian", "--allow-root", "--fail-on", "error,warning", built.file], 300)
    found = [it for it in ended.stdout.decode().splitlines() if it[:2] in ("E:", "W:")]
    expect("what lintian finds", found, [])
    expect("its status", ended.returncode, 0)


def page_has_all(built: Built) -> None:
    page = built.page()
    for command in COMMANDS:
        expect(f"whether the page has {command}", f"\n     {command} " in page, True)
        for option in built.options(command):
            expect(f"whether the page has {option} of {command}", re.search(rf"{option}\b", page) is not None, True)
    for option, limits in re.findall(r"^ +(--\S+).*?(\d+ to \d+|\[default: \S+\])", built.help("daemon"), re.MULTILINE):
        entry = page.split(f"     {option} ")[1].split("\n     --")[0]
        wanted = limits.removeprefix("[default: ").removesuffix("]")
        expect(f"whether the page says {wanted} of {option}", wanted in entry, True)


def bash_completes(built: Built, *before: str) -> list[str]:
    """What bash offers behind these words."""
    script = 'source "$1"; shift; COMP_WORDS=("$@" ""); COMP_CWORD=$#; _weblocks weblocks "" "${!#}"'
    words = ["bash", "-c", script + '; printf "%s\\n" "${COMPREPLY[@]}"', "bash"]
    file = built.tree / "usr/share/bash-completion/completions/weblocks"
    ended = run_on([*words, file, "weblocks", *before])
    expect("what bash says", ended.err, b"")
    return sorted(ended.out.decode().split())


# Its own functions are stood in for by some that print what they are given.
ZSH = """
_arguments() { print -rl -- "$@"; state=$wanted; line=($command_word); return 1; }
_describe() { print -rl -- ${(P)4}; }
wanted=$2 command_word=$3
complete_it() { local -A opt_args; source "$1"; }
complete_it $1
"""


def zsh_completes(built: Built, state: str, command: str = "") -> str:
    file = built.tree / "usr/share/zsh/vendor-completions/_weblocks"
    ended = run_on(["zsh", "-f", "-c", ZSH, "zsh", file, state, command])
    expect("what zsh says", ended.err, b"")
    return ended.out.decode()


def bash_knows_all(built: Built) -> None:
    expect("first words", bash_completes(built), sorted([*COMMANDS, "help", *built.options()]))
    for command in COMMANDS:
        expect(f"words of {command}", bash_completes(built, command), built.options(command))
    expect("words behind --log", len(bash_completes(built, "daemon", "--log")), 6)
    expect("words behind --listen", bash_completes(built, "daemon", "--listen"), [])


def zsh_knows_all(built: Built) -> None:
    commands = re.findall(r"^([a-z]+):", zsh_completes(built, "command"), re.MULTILINE)
    expect("first words", sorted(commands), sorted([*COMMANDS, "help"]))
    for command in COMMANDS:
        first = zsh_completes(built, "nothing")
        said = zsh_completes(built, "words", command).removeprefix(first)
        found = {it for it in re.findall(r"^(?:\([^)]*\)|\*)?(-[-\w]+)\[", said, re.MULTILINE)}
        expect(f"words of {command}", sorted(found), built.options(command))


def package_checks(built: Built, needs: Needs) -> Checks:
    yield "the package has its files", lambda: has_its_files(built)
    yield "each module of the clients is in it", lambda: each_module_is_there(built)
    yield "the package is the same again", lambda: is_the_same_again(built)
    yield "another program is refused", lambda: another_program_is_refused(built)
    yield "a checkout without a time is refused", lambda: no_time_is_refused(built)
    yield "the words of deploy/package are looked at", lambda: words_are_looked_at(built)
    page = "the man page has all options"
    yield from needs.each(page, ["man-db"], lambda: iter([(page, lambda: page_has_all(built))]))
    yield "bash completes all words", lambda: bash_knows_all(built)
    zsh = "zsh completes all words"
    yield from needs.each(zsh, ["zsh"], lambda: iter([(zsh, lambda: zsh_knows_all(built))]))
    lintian = "lintian finds no error and no warning"
    yield from needs.each(lintian, ["lintian"], lambda: iter([(lintian, lambda: lintian_is_silent(built))]))
