"""The package installed: into a copy of this machine's root by dpkg, and into a root with only the C library."""

import os
import re
import shutil
import subprocess
import textwrap
import time
from pathlib import Path

from daemon_server import Daemon, until_true
from operate_needs import PYTHON, Checks, Needs, as_root, ran, text_of
from operate_package import Built
from operate_service import LEAD, hand_over
from running import SECONDS, Ended, Wrong, expect, read_line

# What a service with DynamicUser has as its number, one of systemd's own range.
USER = 61999
# What the client for Node wants.
NODE = ["nodejs", "node-ws"]
# A group whose members may come in by a socket, and the number of a program's user.
GROUP, OTHER = 61998, 61997
# It lives in a space of mounts of its own, and so is gone with the process that holds it. What is written is in memory.
MAKE_ROOT = """
set -eu
mount -t tmpfs tmpfs "$1"
mkdir "$1/upper" "$1/work" "$1/root"
mount -t overlay overlay -o "lowerdir=/,upperdir=$1/upper,workdir=$1/work" "$1/root"
for it in run tmp; do mount -t tmpfs tmpfs "$1/root/$it"; done
for it in proc dev; do mount --rbind "/$it" "$1/root/$it"; done
cp -- "$2" "$1/root/tmp/weblocks.deb"
echo "ready $$"
exec sleep 1000
"""
ENTERED = "import asyncio, sys, weblocks\n\n\nasync def main(url, token):\n"
# A lock is held while the tokens are changed and a further client comes in.
HOLDS = ENTERED + textwrap.indent(
    textwrap.dedent(
        """
        async with weblocks.connect(url, origin="https://a.test", token=token) as locks:
            async with locks.request("db"):
                print("held", flush=True)
                await asyncio.to_thread(sys.stdin.readline)
        print("kept", flush=True)
        """
    ),
    "    ",
) + "\n\nasyncio.run(main(*sys.argv[1:]))\n"
JAVASCRIPT = """
import { connect } from "weblocks";

const locks = await connect({ url: process.argv[2], origin: "https://a.test" });
await locks.request("db", (lock) => console.log(`${lock.name} is held`));
await locks.close();
"""


class Root:
    """A copy of this machine's root, in which what is done is undone at the end."""

    def __init__(self, place: Path, package: Path) -> None:
        place.mkdir()
        self.place = place
        words = [*as_root(), "unshare", "--mount", "sh", "-c", MAKE_ROOT, "sh", str(place), str(package)]
        self.child = subprocess.Popen(
            words, stdin=subprocess.DEVNULL, stdout=subprocess.PIPE, stderr=subprocess.PIPE
        )
        assert self.child.stdout is not None
        said = read_line(self.child.stdout.fileno(), time.monotonic() + SECONDS).decode().split()
        self.fault = ""
        if said[:1] != ["ready"]:
            self.fault = self.child.communicate(timeout=SECONDS)[1].decode().strip() or "it can't be made"
        # (the child may be sudo, which stays outside)
        self.holder = "" if self.fault else said[1]
        self.enter = [*as_root(), "nsenter", "--mount", f"--target={self.holder}", "--"]

    def inside(self, *before: str) -> list[str]:
        """The words before a command that is to be run in it."""
        return [*self.enter, "chroot", *before, str(self.place / "root")]

    def run(self, *words: str, script: str = "", status: int | None = 0) -> Ended:
        ended = ran([*self.inside(), *words], 120, input=script.encode())
        if status is not None and ended.returncode != status:
            raise Wrong(f"{' '.join(words)} ended with status {ended.returncode}:\n{text_of(ended)}")
        return Ended(ended.returncode, ended.stdout, ended.stderr)

    def shell(self, script: str, status: int | None = 0) -> str:
        ended = self.run("sh", "-euc", script, status=status)
        return (ended.out + ended.err).decode().strip()

    def left(self) -> list[str]:
        """What has the package's name in it among what was written since."""
        found = ran([*self.enter, "find", self.place / "upper", "-name", "*weblocks*", "!", "-type", "c"])
        if found.returncode:
            raise Wrong(text_of(found))
        return sorted(it.removeprefix(str(self.place / "upper")) for it in found.stdout.decode().split())

    def end(self) -> None:
        if self.holder:
            ran([*as_root(), "kill", self.holder])
            self.child.communicate(timeout=SECONDS)


def is_installed(root: Root) -> None:
    root.run("dpkg", "--no-triggers", "-i", "/tmp/weblocks.deb")
    said = root.shell("dpkg-query -W -f '${Status}' weblocks")
    expect("its status", said, "install ok installed")
    wants = "/etc/systemd/system/multi-user.target.wants/weblocks.service"
    expect("whether it is enabled", root.shell(f"readlink -f {wants}"), "/usr/lib/systemd/system/weblocks.service")
    options = root.shell('. /etc/default/weblocks; echo "$OPTIONS"')
    expect("the options that it comes with", options, "--listen 127.0.0.1:8080 --epoch-file epoch")
    expect("what debsums would find", root.shell("cd / && md5sum -c --quiet /var/lib/dpkg/info/weblocks.md5sums"), "")
    compiled = "ls /usr/lib/python3/dist-packages/weblocks/__pycache__ | wc -l"
    expect("whether its modules are compiled", int(root.shell(compiled)) > 0, True)


def unit_is_understood(root: Root) -> None:
    """As it is, and with what has it run `lead`."""
    place = "/etc/systemd/system/weblocks.service.d"
    for script in ("true", f"install -D -m 644 /{LEAD} {place}/lead.conf"):
        root.shell(script)
        ended = root.run("systemd-analyze", "verify", "--man=no", "weblocks.service")
        expect("what systemd says of the unit", [it for it in ended.err.decode().splitlines() if "weblocks" in it], [])
    root.shell(f"rm -r {place}")


def gives_locks(root: Root) -> None:
    """The installed daemon, and the installed clients: Python's, the shell's and Node's."""
    with Daemon("/usr/bin/weblocks", before=root.inside()) as daemon:
        url = f"ws://127.0.0.1:{daemon.port}"
        words = ["with", "db", "--url", url, "--origin", "https://a.test", "--", "echo", "held"]
        expect("what the command prints", root.run(PYTHON, "-m", "weblocks", *words).out, b"held\n")
        root.run(PYTHON, "-", url, "", script=HOLDS.replace("token=token", "token=None"))
        expect("the status", daemon.end()[0], 0)


def node_gets_locks(root: Root) -> None:
    root.shell("mkdir -p /tmp/project/node_modules && ln -s /usr/share/nodejs/weblocks /tmp/project/node_modules")
    root.run("tee", "/tmp/project/job.mjs", script=JAVASCRIPT)
    with Daemon("/usr/bin/weblocks", before=root.inside()) as daemon:
        said = root.run("node", "/tmp/project/job.mjs", f"ws://127.0.0.1:{daemon.port}").out
        expect("what the program prints", said, b"db is held\n")


def start_as_systemd(root: Root) -> None:
    """The service's folder as systemd makes it, for its user alone."""
    root.shell(f"rm -rf /run/weblocks && install -d -o {USER} -g {USER} -m 700 /run/weblocks")


def lend(root: Root, tokens: str, mode: int = 600, status: int = 0) -> str:
    root.shell("install -d /etc/weblocks")
    root.run("tee", "/etc/weblocks/tokens", script=tokens)
    root.shell(f"chmod {mode} /etc/weblocks/tokens")
    return root.shell("/usr/libexec/weblocks/lend-tokens", status=status)


def tokens_are_lent(root: Root) -> None:
    start_as_systemd(root)
    root.shell("rm -rf /etc/weblocks; /usr/libexec/weblocks/lend-tokens")
    expect("what is lent where there is nothing", root.shell("ls -A /run/weblocks/"), "")
    lend(root, "first\n")
    told = root.shell("stat -c '%u %g %a' /run/weblocks/tokens; cat /run/weblocks/tokens; ls -A /run/weblocks/")
    expect("the copy", told.split(), [str(USER), str(USER), "600", "first", "tokens"])
    why = lend(root, "second\n", 644, status=1)
    expect("whether it says why", "may be read by others than its owner: chmod 600" in why, True)
    expect("the copy that stays", root.shell("cat /run/weblocks/tokens"), "first")
    root.shell("rm /etc/weblocks/tokens; /usr/libexec/weblocks/lend-tokens")
    expect("the copy of tokens that are gone", root.shell("ls -A /run/weblocks/"), "")


def links_lead_nowhere(root: Root) -> None:
    """A service that was taken over can't have root write elsewhere."""
    start_as_systemd(root)
    root.shell("echo untouched >/tmp/treasure; chmod 600 /tmp/treasure")
    for name in ("tokens", "tokens.new"):
        root.shell(f"ln -sf /tmp/treasure /run/weblocks/{name}")
        lend(root, "first\n")
        expect("what a link leads to", root.shell("stat -c %a /tmp/treasure; cat /tmp/treasure"), "600\nuntouched")
    expect("the copy", root.shell("cat /run/weblocks/tokens"), "first")


def tokens_change_under_a_lock(root: Root) -> None:
    """A reload lets a new token in within seconds, keeps an old one out, and ends no lock."""
    start_as_systemd(root)
    lend(root, "first\n")
    before = root.inside(f"--userspec={USER}:{USER}")
    with Daemon("/usr/bin/weblocks", "--token-file", "/run/weblocks/tokens", before=before) as daemon:
        def enters(token: str) -> bool:
            return daemon.peer(f"Authorization: Bearer {token}").status == 101

        expect("who comes in", [enters("first"), enters("second"), daemon.peer().status], [True, False, 401])
        url = f"ws://127.0.0.1:{daemon.port}"
        words = [*root.inside(), PYTHON, "-c", HOLDS, url, "first"]
        with subprocess.Popen(words, stdin=subprocess.PIPE, stdout=subprocess.PIPE) as holder:
            assert holder.stdout is not None
            expect("the holder's line", holder.stdout.readline(), b"held\n")
            lend(root, "second\n")
            until_true("the new token comes in", lambda: enters("second"))
            expect("whether the old one does", enters("first"), False)
            expect("what the holder says", holder.communicate(b"\n", timeout=SECONDS)[0], b"kept\n")


def socket_is_its_groups(root: Root) -> None:
    """Who is of the service's group reaches the socket in its folder, and nobody else; so after a restart too."""
    root.shell(f"rm -rf /run/weblocks && install -d -o {USER} -g {GROUP} -m 710 /run/weblocks")
    before = [*root.inside(f"--userspec={USER}:{GROUP}"), "sh", "-c", 'umask 077; exec "$@"', "sh"]
    words = ["with", "db", "--url", "unix:/run/weblocks/socket", "--origin", "https://a.test", "--", "echo", "held"]
    for _ in range(2):
        with Daemon("/usr/bin/weblocks", "--listen", "unix:/run/weblocks/socket", before=before):
            expect("the socket's mode", root.shell("stat -c '%u %g %a' /run/weblocks/socket"), f"{USER} {GROUP} 660")
            for groups, status, said in ((f"{GROUP}", 0, "held"), ("", 69, "Permission denied")):
                inside = root.inside(f"--userspec={OTHER}:{OTHER}", f"--groups={groups}")
                ended = ran([*inside, PYTHON, "-m", "weblocks", *words])
                expect(f"the status of whoever has the groups {groups!r}", ended.returncode, status)
                expect("whether it says why", said in text_of(ended), True)


def stays_as_it_was_set(root: Root) -> None:
    """An upgrade, here to the same version, leaves the administrator's options, tokens and disabled service."""
    root.shell('echo "OPTIONS=\\"--idle 60\\"" >/etc/default/weblocks')
    lend(root, "first\n")
    root.run("systemctl", "disable", "weblocks.service")
    root.run("dpkg", "--no-triggers", "-i", "/tmp/weblocks.deb")
    expect("the options", root.shell("cat /etc/default/weblocks"), 'OPTIONS="--idle 60"')
    expect("the tokens", root.shell("stat -c %a /etc/weblocks/tokens; cat /etc/weblocks/tokens"), "600\nfirst")
    wants = "/etc/systemd/system/multi-user.target.wants/weblocks.service"
    expect("whether it stays disabled", root.shell(f"test ! -e {wants} && echo disabled"), "disabled")


def is_removed(root: Root) -> None:
    root.run("dpkg", "--no-triggers", "-r", "weblocks")
    expect("whether the program is gone", root.shell("test ! -e /usr/bin/weblocks && echo gone"), "gone")
    expect("whether the options stay", root.shell("test -e /etc/default/weblocks && echo there"), "there")
    modules = "test ! -e /usr/lib/python3/dist-packages/weblocks && echo gone"
    expect("whether the modules are gone", root.shell(modules), "gone")


def is_purged(root: Root) -> None:
    lend_folder = "install -d /etc/weblocks /var/lib/private/weblocks && ln -s private/weblocks /var/lib/weblocks"
    root.shell(f"{lend_folder} && echo first >/etc/weblocks/tokens")
    root.run("dpkg", "--no-triggers", "-P", "weblocks")
    expect("what is left of it", root.left(), [])


def serves_in_an_empty_root(built: Built) -> None:
    """The package, the C library that it depends on, and nothing else."""
    root = built.place / "empty"
    subprocess.run(["dpkg-deb", "-x", built.file, root], check=True)
    program = root / "usr/bin/weblocks"
    listed = ran(["ldd", program]).stdout.decode()
    for library in re.findall(r"(/\S+) \(0x", listed):
        (root / library[1:]).parent.mkdir(parents=True, exist_ok=True)
        shutil.copy(library, root / library[1:])
    before = [*as_root(), "chroot", str(root)]
    with Daemon("/usr/bin/weblocks", before=before) as daemon:
        hand_over(daemon)
        words = ["with", "db", "--url", f"ws://127.0.0.1:{daemon.port}", "--origin", "https://a.test"]
        alone = {**os.environ, "PYTHONPATH": str(built.modules), "PYTHONDONTWRITEBYTECODE": "1"}
        ended = ran([PYTHON, "-m", "weblocks", *words, "--", "echo", "held"], env=alone)
        expect("what the client prints", (ended.stdout, ended.stderr), (b"held\n", b""))


def root_checks(built: Built, needs: Needs) -> Checks:
    def empty() -> Checks:
        yield "the package serves in an empty root", lambda: serves_in_an_empty_root(built)

    def installed() -> Checks:
        # What is installed once the root is there isn't seen in it.
        for it in ("systemd", *NODE):
            needs.has(it)
        root = Root(built.place / "overlay", built.file)
        try:
            if root.fault:
                yield from needs.lack(f"a root of its own: {root.fault}", "the package is installed")
                return
            yield "the package is installed", lambda: is_installed(root)
            if needs.has("systemd"):
                yield "systemd understands the unit", lambda: unit_is_understood(root)
            yield "the installed daemon gives locks", lambda: gives_locks(root)
            node = "the installed client for Node gets locks"
            yield from needs.each(node, NODE, lambda: iter([(node, lambda: node_gets_locks(root))]))
            yield "the service's user is lent the tokens", lambda: tokens_are_lent(root)
            yield "links lead root nowhere", lambda: links_lead_nowhere(root)
            yield "tokens change under a lock", lambda: tokens_change_under_a_lock(root)
            yield "a socket is its group's", lambda: socket_is_its_groups(root)
            yield "an upgrade leaves what was set", lambda: stays_as_it_was_set(root)
            yield "the package is removed", lambda: is_removed(root)
            yield "the package is purged", lambda: is_purged(root)
        finally:
            root.end()

    yield from needs.each("an empty root", ["python3-websockets"], empty)
    yield from needs.each("the package installed", ["python3-websockets"], installed)
