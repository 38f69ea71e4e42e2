"""What tests/operate needs of the machine: what isn't here is installed, or what needs it fails or is skipped."""

import os
import subprocess
from collections.abc import Callable, Iterator, Sequence
from functools import partial
from pathlib import Path
from typing import Any

from checkouts import TOP
from running import Wrong

Checks = Iterator[tuple[str, Callable[[], None]]]

# Debian's own Python, for which its packages are.
PYTHON = "/usr/bin/python3"
# What an installation may take, in seconds; tools/packages.bash gives up before.
MOST = 3600
NODE = "process.exit(process.versions.node.split('.')[0] >= 18 ? 0 : 1)"
# By Debian's package: the command that tells whether what is needed of it is here.
SIGNS = {
    "man-db": ["man", "--version"],
    "lintian": ["lintian", "--version"],
    "systemd": ["systemd-analyze", "--version"],
    "openssl": ["openssl", "version"],
    "nginx-light": ["nginx", "-v"],
    "haproxy": ["haproxy", "-v"],
    "prometheus": ["promtool", "--version"],
    "etcd-server": ["etcd", "--version"],
    "etcd-client": ["etcdctl", "version"],
    "curl": ["curl", "--version"],
    "procps": ["pgrep", "--version"],
    "zsh": ["zsh", "--version"],
    "python3-websockets": [PYTHON, "-c", "import websockets"],
    "python3-seccomp": [PYTHON, "-c", "import seccomp"],
    "nodejs": ["node", "-e", NODE],
    "node-ws": ["node", "-e", "require('ws')"],
    "chromium": ["chromium", "--version"],
}


def environment() -> dict[str, str]:
    """That of the tests, in which Node finds Debian's packages, and servers that live where only root looks."""
    return {**os.environ, "NODE_PATH": "/usr/share/nodejs", "PATH": f"{os.environ['PATH']}:/usr/sbin:/sbin"}


def ask_directly() -> None:
    """From here on nothing asks a server of this machine through a proxy, which the environment may name."""
    named = os.environ.get("no_proxy") or os.environ.get("NO_PROXY")
    for name in ("no_proxy", "NO_PROXY"):
        os.environ[name] = ",".join(filter(None, [named, "localhost", "127.0.0.1"]))


def as_root() -> list[str]:
    """The words before a command that only root may call."""
    return [] if os.geteuid() == 0 else ["sudo", "-n"]


def ran(words: Sequence[str | Path], seconds: int = 60, **how: Any) -> subprocess.CompletedProcess[bytes]:
    """What a command that had no input, unless one is given, ended with."""
    given: dict[str, Any] = {"env": environment(), **how}
    if "input" not in given:
        given["stdin"] = subprocess.DEVNULL
    return subprocess.run(words, capture_output=True, check=False, timeout=seconds, **given)


def text_of(ended: subprocess.CompletedProcess[bytes]) -> str:
    """All that it wrote."""
    return (ended.stdout + ended.stderr).decode()


def serves(words: list[str]) -> bool:
    try:
        return ran(words).returncode == 0
    except (OSError, subprocess.TimeoutExpired):
        return False


def install(package: str) -> None:
    """Installs a package as the clients' tests do; whether that did it is seen by its sign."""
    words = ["bash", "-c", 'source tools/packages.bash && install_package "$1"', "bash", package]
    ran(words, MOST, cwd=TOP)


def told(checks: Checks) -> Checks:
    """The checks, where a command that fails or takes too long is a fault like others."""

    def run(check: Callable[[], None]) -> None:
        try:
            check()
        except subprocess.SubprocessError as why:
            raise Wrong(str(why)) from why

    for name, check in checks:
        yield name, partial(run, check)


def fail(text: str) -> None:
    raise Wrong(text)


class Needs:
    """What is here, what was installed, and what can't be had."""

    def __init__(self, allow_missing: bool) -> None:
        self.allow_missing = allow_missing
        self.known: dict[str, bool] = {}

    def has(self, package: str) -> bool:
        if package not in self.known:
            words = SIGNS[package]
            if not serves(words):
                install(package)
            self.known[package] = serves(words)
        return self.known[package]

    def lack(self, what: str, checks: str) -> Checks:
        """What comes in the place of checks that can't be made here."""
        if self.allow_missing:
            print(f"skipped, not installed: {what} ({checks})", flush=True)
        else:
            yield checks, lambda: fail(f"not installed: {what}, and it can't be had here")

    def each(self, checks: str, packages: list[str], make: Callable[[], Checks]) -> Checks:
        """The checks, where all of these packages are here."""
        missing = [it for it in packages if not self.has(it)]
        yield from self.lack(", ".join(missing), checks) if missing else make()
