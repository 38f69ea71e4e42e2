"""What deploy/lead is tried with: an etcd, connections that can be cut, candidates, and a client that asks again."""

import json
import os
import signal
import socket
import subprocess
import threading
import time
from collections.abc import Callable, Sequence
from contextlib import ExitStack
from pathlib import Path

from checkouts import TOP
from daemon_server import Peer
from network import free_port
from operate_needs import PYTHON, environment
from operate_proxies import ASKS_AGAIN
from running import SECONDS, Wrong, expect, read_line

# After how many seconds etcd gives the lead to another one, and what may be added to it until that one serves.
TTL, MORE = 4, 2
FENCES = "Sec-WebSocket-Protocol: weblocks.fence"
URL = "https://a.test/"


def until(holds: Callable[[], bool], seconds: float, otherwise: str) -> None:
    end = time.monotonic() + seconds
    while not holds():
        if time.monotonic() > end:
            raise Wrong(otherwise)
        time.sleep(0.05)


def is_reached(port: int) -> bool:
    try:
        socket.create_connection(("127.0.0.1", port), 1).close()
    except OSError:
        return False
    return True


class Etcd:
    """One etcd on free ports. Its data outlives an end."""

    def __init__(self, room: Path) -> None:
        self.room, self.port, self.other = room, free_port(), free_port()
        self.start()

    def start(self) -> None:
        clients, peers = f"http://127.0.0.1:{self.port}", f"http://127.0.0.1:{self.other}"
        words = ["etcd", "--data-dir", f"{self.room}/etcd", "--listen-client-urls", clients]
        words += ["--advertise-client-urls", clients, "--listen-peer-urls", peers]
        words += ["--initial-advertise-peer-urls", peers, "--initial-cluster", f"default={peers}"]
        quiet = {"stdin": subprocess.DEVNULL, "stdout": subprocess.DEVNULL, "stderr": subprocess.DEVNULL}
        self.child = subprocess.Popen(words, env=environment(), **quiet)
        with ExitStack() as begun:
            begun.callback(self.end)
            until(lambda: is_reached(self.port), 3 * SECONDS, "etcd never answered")
            begun.pop_all()

    def end(self) -> None:
        self.child.kill()
        self.child.wait()


class Relay:
    """Hands connections on to a port, which may change, until it is cut off."""

    def __init__(self, target: int | None) -> None:
        self.target, self.pairs = target, list[socket.socket]()
        self.listener = socket.create_server(("127.0.0.1", 0))
        self.port = int(self.listener.getsockname()[1])
        threading.Thread(target=self.accept, daemon=True).start()

    def accept(self) -> None:
        while True:
            try:
                near, _ = self.listener.accept()
            except OSError:
                return
            try:
                far = socket.create_connection(("127.0.0.1", self.target or 1), SECONDS)
            except OSError:
                near.close()
                continue
            far.settimeout(None)
            self.pairs += [near, far]
            for source, sink in ((near, far), (far, near)):
                threading.Thread(target=copy, args=(source, sink), daemon=True).start()

    def drop(self) -> None:
        """Ends all connections that there are."""
        for it in self.pairs:
            end(it)
        self.pairs = []

    def cut(self) -> None:
        """Takes no further ones either, which whoever waits for one has to be told."""
        if self.listener.fileno() >= 0:
            self.listener.shutdown(socket.SHUT_RDWR)
            self.listener.close()
        self.drop()


def copy(source: socket.socket, sink: socket.socket) -> None:
    """Where one side ends or is reset the other one is told."""
    try:
        while data := source.recv(65536):
            sink.sendall(data)
    except OSError:
        pass
    finally:
        end(sink)


def end(it: socket.socket) -> None:
    try:
        it.shutdown(socket.SHUT_RDWR)
    except OSError:
        pass


class Candidate:
    """deploy/lead with a daemon of its own, in a group of processes of its own."""

    def __init__(
        self,
        program: Path,
        etcd: int,
        ttl: int,
        *options: str,
        name: str = "locks",
        shown_at: str = "127.0.0.1",
        before: Sequence[str | Path] = (),
    ) -> None:
        self.listen, self.status = free_port(), free_port()
        words = [*before, TOP / "deploy/lead", "--ttl", str(ttl), name, "--", program, "daemon", *options]
        words += ["--listen", f"127.0.0.1:{self.listen}", "--status", f"{shown_at}:{self.status}"]
        there = {**environment(), "ETCDCTL_ENDPOINTS": f"http://127.0.0.1:{etcd}"}
        pipes = {"stdin": subprocess.DEVNULL, "stdout": subprocess.PIPE, "stderr": subprocess.PIPE}
        self.child = subprocess.Popen(words, env=there, start_new_session=True, **pipes)
        self.port = 0

    def lead(self, seconds: float) -> "Candidate":
        """Waits until its daemon serves."""
        assert self.child.stdout
        line = read_line(self.child.stdout.fileno(), time.monotonic() + seconds).decode()
        if not line.startswith("listening "):
            raise Wrong(f"after {seconds} seconds it wrote {line!r}")
        self.port = int(line.rpartition(":")[2])
        return self

    def daemon(self) -> int:
        """The daemon's number."""
        words = ["pgrep", "--parent", str(self.child.pid), "--full", " daemon "]
        found = subprocess.run(words, capture_output=True).stdout.split()
        if len(found) != 1:
            raise Wrong(f"it has {len(found)} daemons")
        return int(found[0])

    def kill_all(self, number: signal.Signals) -> None:
        try:
            os.killpg(self.child.pid, number)
        except ProcessLookupError:
            pass

    def end(self) -> None:
        self.kill_all(signal.SIGCONT)
        self.kill_all(signal.SIGKILL)
        self.child.communicate()

    def ends_within(self, seconds: float) -> None:
        try:
            self.child.wait(seconds)
        except subprocess.TimeoutExpired:
            raise Wrong(f"it went on for {seconds} seconds") from None

    def peer(self) -> Peer:
        peer = Peer(self.port, FENCES)
        peer.ask('{"id":0,"op":"open","url":"%s"}' % URL)
        return peer

    def token(self) -> str:
        """That of a lock, once it is granted: it may still be held by a peer that was just dropped."""
        peer = self.peer()
        text = peer.ask('{"id":1,"op":"request","name":"db"}')
        while "fences" not in json.loads(text):
            text = peer.get()
        peer.drop()
        return token_in(text)


def token_in(text: str) -> str:
    return str(json.loads(text)["fences"][0]["fence"])


class Client:
    """A client of clients/python, which asks for a lock, and once more when it is told to."""

    def __init__(self, port: int) -> None:
        words = [PYTHON, "-c", ASKS_AGAIN, f"ws://127.0.0.1:{port}/"]
        there = {**environment(), "PYTHONPATH": str(TOP / "clients/python/src")}
        pipes = {"stdin": subprocess.PIPE, "stdout": subprocess.PIPE, "stderr": subprocess.DEVNULL}
        self.child = subprocess.Popen(words, env=there, **pipes)
        with ExitStack() as begun:
            begun.callback(self.end)
            self.hear("held")
            begun.pop_all()

    def hear(self, words: str) -> None:
        assert self.child.stdout
        line = read_line(self.child.stdout.fileno(), time.monotonic() + 3 * SECONDS).decode().strip()
        expect("what the client says", line, words)

    def ask(self) -> None:
        assert self.child.stdin
        self.child.stdin.write(b"\n")
        self.child.stdin.flush()
        self.hear("held again")

    def end(self) -> None:
        self.child.kill()
        self.child.communicate()
