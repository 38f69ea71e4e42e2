"""The unit of systemd: how exposed it leaves the service, and that the daemon serves within what it allows."""

import os
import re
from pathlib import Path
from typing import Any, Protocol

from daemon_server import Daemon
from operate_needs import PYTHON, Checks, Needs, ran, text_of
from operate_package import Built
from running import Wrong, expect

UNIT = "usr/lib/systemd/system/weblocks.service"
# What has the service run `lead`, beside the unit.
LEAD = "usr/share/doc/weblocks/examples/lead.conf"
MOST_EXPOSED = 2.0
FILTER = Path(__file__).resolve().parent / "operate_filter.py"


def settings(built: Built, *more: str) -> dict[str, list[str]]:
    """What the unit sets, and further files of it, by name."""
    found: dict[str, list[str]] = {}
    for line in "".join(map(built.read, [UNIT, *more])).splitlines():
        name, equals, value = line.partition("=")
        if equals and not line.startswith("#"):
            found.setdefault(name, []).append(value)
    return found


def run_analyze(*words: str) -> str:
    ended = ran(["systemd-analyze", "--no-pager", *words])
    if ended.returncode:
        raise Wrong(f"systemd-analyze {words[0]} has status {ended.returncode}:\n{text_of(ended)}")
    return text_of(ended)


def unit_is_hard(built: Built) -> None:
    said = run_analyze("security", "--offline=yes", str(built.tree / UNIT))
    level = re.search(r"Overall exposure level for weblocks.service: ([0-9.]+)", said)
    if level is None:
        raise Wrong(said)
    print(f"exposure level: {level[1]}", flush=True)
    expect(f"whether the exposure of {level[1]} is at most {MOST_EXPOSED}", float(level[1]) <= MOST_EXPOSED, True)


def is_started_again(built: Built) -> None:
    """Whatever ends it, a signal that systemd counts as a clean end too, but for words that can't be understood."""
    for more in ((), (LEAD,)):
        found = settings(built, *more)
        restarts = found["Restart"][-1], found["RestartPreventExitStatus"][-1]
        expect(f"when it is started again, with {more}", restarts, ("always", "2"))


def members(group: str) -> set[str]:
    """The system calls of a group, those of the groups in it among them."""
    found: set[str] = set()
    for line in run_analyze("syscall-filter", group).splitlines()[1:]:
        word = line.strip()
        if word.startswith("@"):
            found |= members(word)
        elif word and not word.startswith("#"):
            found.add(word)
    return found


def calls_left(built: Built, *more: str) -> set[str]:
    """The system calls that the unit, with further files, leaves: an allow list, from which others are taken."""
    left = members("@default")
    for line in settings(built, *more)["SystemCallFilter"]:
        names = line.removeprefix("~").split()
        group = {call for it in names for call in (members(it) if it.startswith("@") else {it})}
        left = left - group if line.startswith("~") else left | group
    return left


def daemon_serves_within(built: Built) -> None:
    """Under the unit's filters a client gets a lock, and another is told of its grant."""
    left = calls_left(built)
    if "io_uring_setup" in left or "ptrace" in left or "read" not in left:
        raise Wrong(f"the unit leaves these calls: {sorted(left)}")
    file = built.place / "calls"
    file.write_text("\n".join(sorted(left)))
    families = settings(built)["RestrictAddressFamilies"]
    expect("the families", families, ["AF_INET AF_INET6 AF_UNIX"])
    variables = settings(built)["Environment"]
    expect("its variables", variables, ["MALLOC_ARENA_MAX=1"])
    path = built.place / "socket"
    words = ["--listen", f"unix:{path}"]
    before = ["env", *variables, PYTHON, FILTER, file]
    with Daemon(built.tree / "usr/bin/weblocks", *words, before=before) as daemon:
        hand_over(daemon)
        expect("what is held over its socket", hold_over(path, built.modules), "held")


def hold_over(path: Path, modules: Path) -> str:
    """What a command says that runs under a lock, which the clients' command line has over a Unix socket."""
    words = ["with", "db", "--url", f"unix:{path}", "--origin", "https://a.test", "--", "echo", "held"]
    there = {**os.environ, "PYTHONPATH": str(modules), "PYTHONDONTWRITEBYTECODE": "1"}
    return text_of(ran([PYTHON, "-m", "weblocks", *words], env=there)).strip()


class Server(Protocol):
    """A daemon, or a proxy in front of one."""

    def opened(self, url: str, *headers: str) -> Any: ...


def hand_over(daemon: Server) -> None:
    """Two peers want one lock: the second is told of it without asking."""
    push = "Sec-WebSocket-Protocol: weblocks.push"
    ours, theirs = (daemon.opened("https://a.test/", push) for _ in range(2))
    said = ours.ask('{"id":1,"op":"request","name":"db"}')
    expect("whether it is granted", '"phase":"granted"' in said, True)
    said = theirs.ask('{"id":1,"op":"request","name":"db"}')
    expect("whether the other is granted it too", '"phase"' in said, False)
    ours.ask('{"id":2,"op":"release","request":1}')
    expect("the push", '"phase":"granted"' in theirs.get(), True)


def filter_bites(built: Built) -> None:
    """What is forbidden is refused, so that the filter of the check before is one."""
    for what, program, why in (
        ("a socket of the kernel", "from socket import *; socket(AF_NETLINK)", "Address family not supported"),
        ("another root", "import os; os.chroot('/')", "Operation not permitted"),
        ("memory for code", "import mmap; mmap.mmap(-1, 4096, prot=7)", "Operation not permitted"),
    ):
        ended = ran([PYTHON, FILTER, built.place / "calls", PYTHON, "-c", program])
        expect(f"whether {what} is refused", why in text_of(ended), True)


def service_checks(built: Built, needs: Needs) -> Checks:
    def with_systemd() -> Checks:
        yield "the unit leaves little exposed", lambda: unit_is_hard(built)

    def with_seccomp() -> Checks:
        yield "the daemon serves under the unit's filter", lambda: daemon_serves_within(built)
        yield "the unit's filter refuses the rest", lambda: filter_bites(built)

    yield "the unit is started again", lambda: is_started_again(built)
    yield from needs.each("the unit's exposure", ["systemd"], with_systemd)
    packages = ["systemd", "python3-seccomp", "python3-websockets"]
    yield from needs.each("the unit's filter", packages, with_seccomp)
