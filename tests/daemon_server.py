"""The built program as a daemon, and peers that speak WebSocket (RFC 6455) to it over plain sockets."""

import base64
import glob
import os
import socket
import struct
import subprocess
import time

from running import SECONDS, Wrong, expect, read_line

PUSH = "Sec-WebSocket-Protocol: weblocks.push"
TEXT, BYTES, CLOSE, PING, PONG = 1, 2, 8, 9, 10
FINAL, MASKED = 0x80, 0x80
LONGEST_MESSAGE = 65536
# What stands before the path of a socket, where it is an endpoint.
UNIX = "unix:"
MEGABYTE = 2**20
# What a check that measures a time allows a loaded machine beyond it; connections are looked at twice a second.
SLACK = 10.0


class Daemon:
    """The daemon on a free port of the loopback address, or at other endpoints, until its input ends."""

    def __init__(self, program, *options, listen="127.0.0.1:0", before=()):
        endpoints = [listen] if isinstance(listen, str) else listen
        places = [word for it in endpoints for word in ("--listen", it)]
        words = [*before, program, "daemon", *places, "--while-input", *options]
        pipes = dict(stdin=subprocess.PIPE, stdout=subprocess.PIPE, stderr=subprocess.PIPE)
        self.child = subprocess.Popen(words, **pipes)
        self.endpoints = [self.read_place() for _ in endpoints]
        ports = [it.rpartition(":") for it in self.endpoints if not it.startswith(UNIX)]
        paths = [it.removeprefix(UNIX) for it in self.endpoints if it.startswith(UNIX)]
        self.host, self.port = (ports[0][0], int(ports[0][2])) if ports else ("", None)
        self.path = paths[0] if paths else None

    def read_place(self):
        """Where it listens, by the next of its lines."""
        line = read_line(self.child.stdout.fileno(), time.monotonic() + SECONDS).decode()
        if not line.startswith("listening "):
            out, err = self.child.communicate(timeout=SECONDS)
            raise Wrong(f"the daemon wrote {line!r}, and then {out!r} and {err!r}")
        return line.removeprefix("listening ").removesuffix("\n")

    def peer(self, *headers, **how):
        """A peer over the socket at the path `unix`, if one is given, or over TCP; without a port over its own."""
        if self.port is None:
            how.setdefault("unix", self.path)
        return Peer(self.port, *headers, host=self.host.strip("[]"), **how)

    def opened(self, url="https://a.test/", *headers, **how):
        """A peer that opened, and has read the reply."""
        peer = self.peer(*headers, **how)
        peer.ask('{"id":0,"op":"open","url":"%s"}' % url)
        return peer

    def states(self):
        """What its threads do now, by the letters of proc(5)."""
        for it in glob.glob(f"/proc/{self.child.pid}/task/*/stat"):
            with open(it) as file:
                yield file.read().rpartition(")")[2].split()[0]

    def memory(self):
        """The bytes that it has in memory now."""
        with open(f"/proc/{self.child.pid}/statm") as file:
            return int(file.read().split()[1]) * os.sysconf("SC_PAGE_SIZE")

    def unsent(self, peer):
        """The bytes that wait in the system to be sent to a peer, and have been sent but not taken."""
        theirs = peer.sock.getsockname()[1]
        with open("/proc/net/tcp") as file:
            for line in list(file)[1:]:
                _, local, remote, _, queues, *_ = line.split()
                if int(local.split(":")[1], 16) == self.port and int(remote.split(":")[1], 16) == theirs:
                    return int(queues.split(":")[0], 16)
        return 0

    def is_asleep(self):
        """Whether no thread of it runs, or would if a processor were free."""
        for path in glob.glob(f"/proc/{self.child.pid}/task/*/stat"):
            with open(path) as file:
                if file.read().rpartition(") ")[2][0] != "S":
                    return False
        return True

    def fill(self, peer, messages):
        """Sends a peer's messages, and waits until the daemon can send no more replies, which the peer doesn't read."""
        peer.sock.sendall(messages)
        since, last = time.monotonic(), -1
        end = since + 6 * SECONDS
        while time.monotonic() - since < 1:
            if time.monotonic() > end:
                raise Wrong("the daemon's replies never filled the stream")
            if self.unsent(peer) != last or not last or not self.is_asleep():
                since, last = time.monotonic(), self.unsent(peer)
            time.sleep(0.05)

    def files(self):
        return len(os.listdir(f"/proc/{self.child.pid}/fd"))

    def end(self):
        """Ends its input, and answers its status and what it wrote to standard error."""
        try:
            _, err = self.child.communicate(timeout=SECONDS)
        except subprocess.TimeoutExpired:
            raise Wrong(f"the daemon did not end in {SECONDS} seconds")
        return self.child.returncode, err.decode()

    def __enter__(self):
        return self

    def __exit__(self, *_):
        if self.child.poll() is None:
            self.child.kill()
            self.child.communicate()


class Closed(Wrong):
    """The server sent a close frame with this code, or ended the stream, which is code 0."""

    def __init__(self, code, reason=""):
        super().__init__(f"closed with code {code}, {reason!r}")
        self.code, self.reason = code, reason


def handshake(*headers, path="/"):
    key = base64.b64encode(os.urandom(16)).decode()
    lines = [
        f"GET {path} HTTP/1.1",
        "Host: localhost",
        "Upgrade: websocket",
        "Connection: Upgrade",
        f"Sec-WebSocket-Key: {key}",
        "Sec-WebSocket-Version: 13",
        *headers,
    ]
    return "".join(line + "\r\n" for line in [*lines, ""]).encode()


def framed(body, kind=TEXT, final=FINAL, mask=MASKED):
    """A frame, whose mask of four zero bytes leaves its body as it is."""
    body = body.encode() if isinstance(body, str) else body
    length = len(body)
    if length < 126:
        head = bytes([final | kind, mask | length])
    elif length < 65536:
        head = bytes([final | kind, mask | 126]) + struct.pack(">H", length)
    else:
        head = bytes([final | kind, mask | 127]) + struct.pack(">Q", length)
    return head + (b"\0\0\0\0" if mask else b"") + body


class Peer:
    """A peer, after its handshake was answered with `status`. It answers pings, unless it is told not to.

    It comes over the socket at the path `unix`, where one is given, and else over TCP."""

    def __init__(
        self, port, *headers, host="127.0.0.1", unix=None, path="/", before=b"", source=None, room=None, timeout=SECONDS
    ):
        over_ip = socket.AF_INET6 if ":" in host else socket.AF_INET
        self.sock = socket.socket(socket.AF_UNIX if unix else over_ip)
        self.sock.settimeout(timeout)
        if room:
            self.sock.setsockopt(socket.SOL_SOCKET, socket.SO_RCVBUF, room)
        if source:
            self.sock.bind((source, 0))
        self.sock.connect(unix or (host, port))
        if not unix:
            self.sock.setsockopt(socket.IPPROTO_TCP, socket.TCP_NODELAY, 1)
        self.buffer, self.pings, self.answers_pings, self.reason = b"", 0, True, ""
        self.sock.sendall(before + handshake(*headers, path=path))
        self.head = self.until(b"\r\n\r\n").decode()
        self.status = int(self.head.split(" ")[1])

    def more(self):
        try:
            got = self.sock.recv(65536)
        except socket.timeout:
            raise Wrong("nothing came for too long") from None
        if not got:
            raise Closed(0)
        self.buffer += got

    def until(self, end):
        while end not in self.buffer:
            self.more()
        at = self.buffer.index(end) + len(end)
        taken, self.buffer = self.buffer[:at], self.buffer[at:]
        return taken

    def exactly(self, count):
        while len(self.buffer) < count:
            self.more()
        taken, self.buffer = self.buffer[:count], self.buffer[count:]
        return taken

    def frame(self):
        """The next frame: its kind and its body. A server masks none and, here, sends each message as one."""
        first, second = self.exactly(2)
        if not first & FINAL or second & MASKED:
            raise Wrong(f"a frame begins with {first:#x} {second:#x}")
        length = second
        if length == 126:
            length = struct.unpack(">H", self.exactly(2))[0]
        elif length == 127:
            length = struct.unpack(">Q", self.exactly(8))[0]
        return first & 15, self.exactly(length)

    def get(self):
        """The next text."""
        while True:
            kind, body = self.frame()
            if kind == PING:
                self.pings += 1
                if self.answers_pings:
                    self.send(body, PONG)
            elif kind == CLOSE:
                raise Closed(struct.unpack(">H", body[:2])[0] if body else 1005, body[2:].decode())
            elif kind == TEXT:
                return body.decode()
            elif kind != PONG:
                raise Wrong(f"a frame of kind {kind} came")

    def send(self, body, kind=TEXT, final=FINAL, mask=MASKED):
        self.sock.sendall(framed(body, kind, final, mask))

    def ask(self, text):
        self.send(text)
        return self.get()

    def widen(self):
        """From now on more may come before it is read."""
        self.sock.setsockopt(socket.SOL_SOCKET, socket.SO_RCVBUF, 4 * 2**20)

    def has_nothing(self, seconds=0.3):
        """Sees that no text comes for so long."""
        self.sock.settimeout(seconds)
        try:
            raise Wrong(f"{self.get()!r} came")
        except Wrong as why:
            if str(why) != "nothing came for too long":
                raise
        finally:
            self.sock.settimeout(SECONDS)

    def close_code(self):
        """The code with which the server closes, 0 where it sends none; what comes before is passed over."""
        try:
            while True:
                self.get()
        except Closed as closed:
            self.reason = closed.reason
            return closed.code
        except ConnectionError:
            return "reset"

    def leave(self):
        """Ends by a close frame, and waits until the server has ended the connection."""
        self.send(struct.pack(">H", 1000), CLOSE)
        expect("the code of the close frame that answers", self.close_code(), 1000)
        self.sock.close()

    def drop(self):
        """Ends without a word."""
        self.sock.close()


def run_at_once(threads):
    """Runs threads until all have ended, and raises the first fault that one of them kept."""
    for it in threads:
        it.start()
    for it in threads:
        it.join()
    for it in threads:
        if it.fault:
            raise it.fault


def until_true(what, holds, seconds=SECONDS):
    """Waits until something holds."""
    end = time.monotonic() + seconds
    while not holds():
        if time.monotonic() > end:
            raise Wrong(f"{what}: not so after {seconds} seconds")
        time.sleep(0.02)


def within(what, seconds, least, most):
    """Sees that it took at least so long, and no longer than a loaded machine is allowed."""
    if not least - 0.1 <= seconds <= most + SLACK:
        raise Wrong(f"{what} took {seconds:.1f} s, and not {least} to {most}")
