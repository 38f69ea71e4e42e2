"""deploy/haproxy-pair.cfg: two daemons under deploy/lead behind HAProxy, which has clients reach the one that leads."""

import signal
import socket
import subprocess
import time
from collections.abc import Iterator, Sequence
from contextlib import ExitStack, contextmanager
from functools import partial
from pathlib import Path
from tempfile import TemporaryDirectory

from checkouts import TOP
from daemon_server import handshake
from network import free_port
from operate_candidates import MORE, TTL, Candidate, Client, Etcd
from operate_needs import Checks, Needs, environment, ran, text_of
from operate_package import Built
from operate_proxies import replaced, served
from running import SECONDS, Wrong

# The most that HAProxy takes to see that a server is there, and that one isn't: two checks, a second apart, of three
# seconds each.
SEEN, MISSED = 2, 2 * (1 + 3)
HOST = "locks.example.com"
# What haproxy.cfg has in front, without TLS.
FRONT = """
global
    maxconn 1000
defaults
    mode http
    timeout connect 5s
    timeout client 10s
    timeout server 10s
    timeout http-request 10s
    timeout tunnel 180s
    timeout client-fin 10s
frontend locks
    bind 127.0.0.1:{port}
    default_backend weblocks
"""


def words_of(room: Path, text: str, candidates: Sequence[Candidate], *more: tuple[str, str]) -> list[str]:
    """How HAProxy is started with this file, whose servers are these candidates, and in which more is replaced."""
    pairs = [(f"192.0.2.{n}:8080\n", f"127.0.0.1:{it.listen} check port {it.status}\n")
             for n, it in enumerate(candidates, 1)]
    file = room / "haproxy.cfg"
    file.write_text(replaced(text, [*pairs, ("default-server check port 8081", "default-server check"), *more]))
    tried = ran(["haproxy", "-c", "-f", str(file)])
    if tried.returncode or "warn" in text_of(tried).lower():
        raise Wrong(f"HAProxy says of its file:\n{text_of(tried)}")
    return ["haproxy", "-db", "-f", str(file)]


@contextmanager
def haproxy_of(words: list[str], port: int, said: Path) -> Iterator[subprocess.Popen[bytes]]:
    """HAProxy's process, which takes connections there."""
    with said.open("wb") as out:
        child = subprocess.Popen(words, stdin=subprocess.DEVNULL, stdout=out, stderr=out, env=environment())
    with served(child, port, said):
        yield child


class Pair:
    """Two candidates, of which the first leads, and a client that reaches them by HAProxy."""

    def __init__(self, built: Built, room: Path) -> None:
        self.port = free_port()
        with ExitStack() as begun:
            etcd = Etcd(room)
            begun.callback(etcd.end)
            words = (built.program, etcd.port, TTL, "--status-host", HOST)
            first = Candidate(*words)
            begun.callback(first.end)
            first.lead(3 * SECONDS)
            second = Candidate(*words)
            begun.callback(second.end)
            self.candidates = (first, second)
            self.end = begun.pop_all().close

    def words(self, room: Path) -> list[str]:
        """How HAProxy is started with the repository's file."""
        text = FRONT.format(port=self.port) + (TOP / "deploy/haproxy-pair.cfg").read_text()
        return words_of(room, text, self.candidates, ("maxconn 10000", "maxconn 1000"))


@contextmanager
def pair_of(built: Built) -> Iterator[tuple[Pair, Candidate, Candidate]]:
    """The pair, who leads and who doesn't, and HAProxy in front."""
    with TemporaryDirectory() as name:
        room = Path(name)
        pair = Pair(built, room)
        try:
            with haproxy_of(pair.words(room), pair.port, room / "said"):
                yield pair, *pair.candidates
        finally:
            pair.end()


def status_of(port: int) -> int:
    """What a handshake is answered by."""
    with socket.create_connection(("127.0.0.1", port), SECONDS) as it:
        it.sendall(handshake())
        return int(it.recv(4096).split()[1])


def until_answered(port: int, status: int, seconds: float) -> None:
    end = time.monotonic() + seconds
    while (found := status_of(port)) != status:
        if time.monotonic() > end:
            raise Wrong(f"after {seconds} seconds a handshake is answered by {found}, and not {status}")
        time.sleep(0.1)


def changes_over(built: Built, number: signal.Signals) -> None:
    """The leader is killed or stopped: its client is cut off from it, and is served by the other one."""
    with pair_of(built) as (pair, leader, other):
        until_answered(pair.port, 101, SEEN + SECONDS)
        client = Client(pair.port)
        try:
            leader.kill_all(number)
            other.lead(TTL + MORE)
            until_answered(pair.port, 101, SEEN + MISSED)
            client.ask()
        finally:
            client.end()


def both_are_down(built: Built) -> None:
    with pair_of(built) as (pair, leader, other):
        until_answered(pair.port, 101, SEEN + SECONDS)
        other.kill_all(signal.SIGKILL)
        leader.kill_all(signal.SIGKILL)
        until_answered(pair.port, 503, SEEN + MISSED)


def pair_checks(built: Built, needs: Needs) -> Checks:
    def checks() -> Checks:
        yield "a pair behind HAProxy: the leader is killed", partial(changes_over, built, signal.SIGKILL)
        yield "a pair behind HAProxy: the leader is stopped", partial(changes_over, built, signal.SIGSTOP)
        yield "a pair behind HAProxy: both are down", partial(both_are_down, built)

    packages = ["etcd-server", "etcd-client", "curl", "haproxy", "python3-websockets"]
    yield from needs.each("a pair behind HAProxy", packages, checks)
