"""deploy/haproxy-shards.cfg: the origins are shared out among three pairs of daemons under deploy/lead."""

import json
import signal
import subprocess
import threading
import urllib.request
from collections.abc import Iterator
from contextlib import ExitStack, contextmanager
from functools import partial
from pathlib import Path
from tempfile import TemporaryDirectory
from urllib.parse import quote

from checkouts import TOP
from daemon_server import Closed
from network import free_port
from operate_candidates import MORE, TTL, Candidate, Etcd, until
from operate_needs import PYTHON, Checks, Needs, environment
from operate_package import Built
from operate_pair import HOST, MISSED, SEEN, haproxy_of, words_of
from operate_proxies import Certificate, Haproxy, TlsPeer, without_ipv6
from running import SECONDS, Wrong, expect

# What has a daemon take the targets of its own origins alone.
SHARDED = ("--sharded",)
SHARDS, ORIGINS = 3, 300
# The longest that a client of clients/python waits before it tries again.
AGAIN = 5
# A client of clients/python for each origin, which holds a lock for as long as it can.
CLIENTS = """
import asyncio, sys, weblocks


async def hold(url, origin, connecting):
    async with connecting:
        manager = weblocks.connect(url, origin=origin)
        locks = await manager.__aenter__()
    while True:
        try:
            async with locks.request("db"):
                print("held", origin, flush=True)
                await asyncio.Event().wait()
        except weblocks.LockLost:
            print("lost", origin, flush=True)


async def main(url, count):
    connecting = asyncio.Semaphore(20)
    await asyncio.gather(*(hold(url, f"https://a{it}.test", connecting) for it in range(count)))


asyncio.run(main(sys.argv[1], int(sys.argv[2])))
"""


def target_of(origin: str) -> str:
    return f"/?origin={quote(origin, safe='')}"


class Shard:
    """A pair of candidates, of which the first leads."""

    def __init__(self, built: Built, etcd: int, number: int) -> None:
        words = (built.program, etcd, TTL, "--status-host", HOST, *SHARDED)
        with ExitStack() as begun:
            self.leader = Candidate(*words, name=f"shard-{number}")
            begun.callback(self.leader.end)
            self.leader.lead(3 * SECONDS)
            self.other = Candidate(*words, name=f"shard-{number}")
            begun.callback(self.other.end)
            self.end = begun.pop_all().close

    def take_over(self) -> None:
        """The leader is killed, and the other one leads."""
        self.leader.kill_all(signal.SIGKILL)
        self.leader, self.other = self.other.lead(TTL + MORE), self.leader

    def origins(self) -> set[str]:
        """Whose locks its leader has."""
        with urllib.request.urlopen(f"http://127.0.0.1:{self.leader.status}/locks", timeout=SECONDS) as answer:
            said = json.load(answer)
        expect("how many managers are left out", said["left_out"]["managers"], 0)
        return {it["origin"] for it in said["managers"]}


class Clients:
    """The clients of all origins, in a process of their own, and which of them hold their lock or have lost it."""

    def __init__(self, url: str, certificate: Certificate) -> None:
        there = {**environment(), "PYTHONPATH": str(TOP / "clients/python/src"), "SSL_CERT_FILE": str(certificate.file)}
        pipes = {"stdin": subprocess.DEVNULL, "stdout": subprocess.PIPE, "stderr": subprocess.DEVNULL}
        self.child = subprocess.Popen([PYTHON, "-c", CLIENTS, url, str(ORIGINS)], env=there, text=True, **pipes)
        self.held, self.lost = set[str](), set[str]()
        # (for a thread of another kind Python waits before it ends)
        self.hearing = threading.Thread(target=self.hear, daemon=True)
        self.hearing.start()
        with ExitStack() as begun:
            begun.callback(self.end)
            self.until_held(ORIGINS, 6 * SECONDS)
            begun.pop_all()

    def hear(self) -> None:
        assert self.child.stdout
        for line in self.child.stdout:
            word, origin = line.split()
            if word == "held":
                self.held.add(origin)
            else:
                self.held.discard(origin)
                self.lost.add(origin)

    def until_held(self, count: int, seconds: float) -> None:
        until(lambda: len(self.held) == count, seconds, f"after {seconds} seconds {len(self.held)} of {count} are held")

    def end(self) -> None:
        self.child.kill()
        self.hearing.join()
        self.child.communicate()


class Shards:
    """Three shards, whose candidates are started one after the other."""

    def __init__(self, built: Built, room: Path) -> None:
        self.certificate, self.port, self.all = Certificate(room), free_port(), list[Shard]()
        with ExitStack() as begun:
            etcd = Etcd(room)
            begun.callback(etcd.end)
            for number in range(SHARDS):
                self.all.append(Shard(built, etcd.port, number))
                begun.callback(self.all[-1].end)
            self.end = begun.pop_all().close

    def words(self, room: Path) -> list[str]:
        """How HAProxy is started with the repository's two files."""
        front, line, _ = (TOP / "deploy/haproxy.cfg").read_text().partition("    default_backend weblocks\n")
        expect("whether there is the line that is replaced", bool(line), True)
        text = without_ipv6(front) + (TOP / "deploy/haproxy-shards.cfg").read_text()
        proxy = Haproxy(room, self.certificate)
        more = [*proxy.pairs, (":443 ", f":{self.port} "), *proxy.bounds(2 * ORIGINS)]
        return words_of(room, text, [it for shard in self.all for it in (shard.leader, shard.other)], *more)

    def peer(self, target: str) -> TlsPeer:
        return TlsPeer(self.port, self.certificate.context, target=target)

    def until_answered(self, target: str, status: int, seconds: float) -> None:
        until(lambda: self.peer(target).status == status, seconds, f"after {seconds} seconds {target} isn't {status}")

    def shared_out(self) -> list[set[str]]:
        """Which origins each shard has: all have some, and each is one's alone."""
        found = [it.origins() for it in self.all]
        expect("whether each shard has origins", all(found), True)
        expect("how many origins all have", sum(map(len, found)), ORIGINS)
        expect("how many there are", len(set[str]().union(*found)), ORIGINS)
        return found


@contextmanager
def shards_of(built: Built) -> Iterator[tuple[Shards, Clients]]:
    """The shards, HAProxy in front, and a client of each origin that holds a lock."""
    with TemporaryDirectory() as name:
        room = Path(name)
        shards = Shards(built, room)
        try:
            with haproxy_of(shards.words(room), shards.port, room / "said"):
                for number in range(3 * SHARDS):
                    shards.until_answered(target_of(f"https://a{number}.test"), 101, SEEN + SECONDS)
                clients = Clients(f"wss://localhost:{shards.port}/", shards.certificate)
                try:
                    yield shards, clients
                finally:
                    clients.end()
        finally:
            shards.end()


def are_shared_out(built: Built) -> None:
    """Each origin is one shard's, which its target alone leads to; and only its own URLs can be opened by that."""
    with shards_of(built) as (shards, _):
        shards.shared_out()
        first, second = (quote(f"https://a{it}.test", safe="") for it in (0, 1))
        for odd in ("/", "/?", "/?origin=", f"/?x=;origin={first}&origin={second}", f"/?origin={first}&origin={second}",
                    f"/?origin={first.replace('%3A', '%3a')}", "/?origin=https://a0.test", f"/locks?origin={first}",
                    f"/?origin={first}%2F", f"/?origin={first}&", f"//?origin={first}", f"/?Origin={first}"):
            expect(f"the status of {odd}", shards.peer(odd).status, 400)
        peer = shards.peer(f"/?origin={first}")
        try:
            peer.ask('{"id":0,"op":"open","url":"https://a1.test/"}')
            raise Wrong("it opened a URL of another origin than its target's")
        except Closed as why:
            expect("the close code", why.code, 1008)


def leader_is_killed(built: Built) -> None:
    """Its clients are served by the other one of its shard, and nobody else notices."""
    with shards_of(built) as (shards, clients):
        own, *others = shards.shared_out()
        shards.all[0].take_over()
        until(lambda: clients.lost == own, MISSED, "its clients, or others too, never lost their locks")
        clients.until_held(ORIGINS, SEEN + MISSED + AGAIN + SECONDS)
        expect("what is served now", shards.shared_out() == [own, *others], True)
        expect("whether others lost their locks", clients.lost == own, True)


def both_are_down(built: Built) -> None:
    """The origins of that shard get 503, and the other ones go on."""
    with shards_of(built) as (shards, clients):
        own, *others = shards.shared_out()
        shards.all[0].other.kill_all(signal.SIGKILL)
        shards.all[0].leader.kill_all(signal.SIGKILL)
        for origin in sorted(own)[:3]:
            shards.until_answered(target_of(origin), 503, SEEN + MISSED)
        until(lambda: clients.lost == own, MISSED, "its clients, or others too, never lost their locks")
        for served in others:
            for origin in sorted(served)[:3]:
                expect("the status of another shard's", shards.peer(target_of(origin)).status, 101)
        expect("what the others serve", [it.origins() for it in shards.all[1:]] == others, True)
        expect("how many hold their locks", len(clients.held), ORIGINS - len(own))


def shard_checks(built: Built, needs: Needs) -> Checks:
    def checks() -> Checks:
        yield "shards behind HAProxy: the origins are shared out", partial(are_shared_out, built)
        yield "shards behind HAProxy: a leader is killed", partial(leader_is_killed, built)
        yield "shards behind HAProxy: both of one are down", partial(both_are_down, built)

    packages = ["etcd-server", "etcd-client", "curl", "haproxy", "openssl", "python3-websockets"]
    yield from needs.each("shards behind HAProxy", packages, checks)
