"""A daemon that shows its status, and what it answers over HTTP to plain sockets."""

import socket
import time

from daemon_server import Daemon
from running import SECONDS, Wrong, expect, read_line


class Shown(Daemon):
    """A daemon that shows its status on a free port."""

    def __init__(self, program, *options, status="127.0.0.1:0", **how):
        super().__init__(program, "--status", status, *options, **how)
        line = read_line(self.child.stdout.fileno(), time.monotonic() + SECONDS).decode()
        if not line.startswith("status "):
            raise Wrong(f"the second line is {line!r}")
        self.status_host, _, port = line.removeprefix("status ").strip().rpartition(":")
        self.status_port = int(port)

    def connect(self, timeout=SECONDS):
        host = self.status_host.strip("[]")
        host = {"0.0.0.0": "127.0.0.1", "::": "::1"}.get(host, host)
        return socket.create_connection((host, self.status_port), timeout)

    def local(self):
        return f"localhost:{self.status_port}"

    def get(self, target="/health", *headers, method="GET", host=None, version="1.1"):
        """The answer to a request. Without a host it names this machine; an empty one leaves the header out."""
        host = self.local() if host is None else host
        named = [f"Host: {host}"] if host else []
        lines = [f"{method} {target} HTTP/{version}", *named, *headers, "Connection: close", "", ""]
        return self.send("\r\n".join(lines).encode(), method)

    def send(self, data, method="GET"):
        with self.connect() as sock:
            sock.sendall(data)
            return Answer(read_all(sock), method)


def read_all(sock):
    data = b""
    while piece := sock.recv(65536):
        data += piece
    return data


class Answer:
    """An answer's status, its headers, with names in small letters, and its body."""

    def __init__(self, data, method="GET"):
        head, found, self.body = data.partition(b"\r\n\r\n")
        if not found:
            raise Wrong(f"the answer is {data!r}")
        first, *lines = head.decode().split("\r\n")
        self.status = int(first.split()[1])
        self.headers = {}
        for line in lines:
            name, _, value = line.partition(":")
            if name.lower() in self.headers:
                raise Wrong(f"the answer has {name} twice")
            self.headers[name.lower()] = value.strip()
        length = int(self.headers.get("content-length", 0))
        expect("the body's length", len(self.body), 0 if method == "HEAD" else length)


def expect_status(daemon, wanted, *request, **how):
    found = daemon.get(*request, **how)
    expect(f"the status of {request} {how}", found.status, wanted)
    return found


def expect_guards(answer):
    """That nobody keeps an answer or takes it for another type, and that it runs no script but the page's own."""
    expect("Cache-Control", answer.headers.get("cache-control"), "no-store")
    expect("X-Content-Type-Options", answer.headers.get("x-content-type-options"), "nosniff")
    policy = answer.headers.get("content-security-policy", "")
    rules = dict(rule.strip().partition(" ")[::2] for rule in policy.split(";"))
    expect("default-src", rules.get("default-src"), "'none'")
    expect("whether one script may run", rules.get("script-src", "").startswith("'sha256-"), True)
    expect("whether it is the only one", " " in rules.get("script-src", ""), False)
    expect("frame-ancestors", rules.get("frame-ancestors"), "'none'")
