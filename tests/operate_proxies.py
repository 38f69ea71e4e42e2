"""deploy/nginx.conf and deploy/haproxy.cfg, with another name, certificate and port, in front of a daemon."""

import os
import re
import select
import signal
import socket
import ssl
import subprocess
import time
from collections.abc import Iterator
from contextlib import ExitStack, contextmanager, suppress
from functools import partial
from pathlib import Path

from daemon_admission import bearer, may, origin, protocols
from daemon_server import PING, PONG, Daemon, Peer, handshake, until_true
from network import free_port
from operate_needs import PYTHON, Checks, Needs, environment, ran, text_of
from operate_package import Built
from operate_service import hand_over
from running import SECONDS, Wrong, expect

NAME = "locks.example.com"
TOKEN = "a-token"
# What stands in the place of the 180 seconds that a proxy waits for a silent peer, and the daemon's own 30.
PATIENCE, IDLE = 3, 1
# Root alone may start it as another user.
HAPROXYS_USER = "    user haproxy\n    group haproxy\n"
ASKS_AGAIN = """
import asyncio, sys, weblocks


async def main(url):
    async with weblocks.connect(url, origin="https://a.test") as locks:
        async with locks.request("db"):
            pass
        print("held", flush=True)
        await asyncio.to_thread(sys.stdin.readline)
        async with locks.request("db"):
            print("held again", flush=True)


asyncio.run(main(sys.argv[1]))
"""
NGINX = """
{user}
pid {room}/nginx.pid;
error_log {room}/error.log;
events {{ }}
http {{
    client_body_temp_path {room}/body;
    proxy_temp_path {room}/proxy;
    fastcgi_temp_path {room}/fastcgi;
    scgi_temp_path {room}/scgi;
    uwsgi_temp_path {room}/uwsgi;
    include {room}/weblocks.conf;
}}
"""


class Certificate:
    """A certificate for localhost that nobody has signed, and how a client trusts it."""

    def __init__(self, room: Path) -> None:
        self.file, self.key, self.both = room / "cert.pem", room / "key.pem", room / "both.pem"
        words = ["openssl", "req", "-x509", "-newkey", "ec", "-pkeyopt", "ec_paramgen_curve:prime256v1", "-nodes"]
        words += ["-days", "2", "-subj", "/CN=localhost", "-addext", "subjectAltName=DNS:localhost"]
        words += ["-keyout", str(self.key), "-out", str(self.file)]
        ran(words)
        self.both.write_bytes(self.file.read_bytes() + self.key.read_bytes())
        self.context = ssl.create_default_context(cafile=str(self.file))


class TlsPeer(Peer):
    """A peer that speaks TLS with the proxy."""

    def __init__(
        self, port: int, context: ssl.SSLContext, *headers: str, target: str = "/", source: str = "127.0.0.1"
    ) -> None:
        host = "::1" if ":" in source else "127.0.0.1"
        plain = socket.create_connection((host, port), SECONDS, (source, 0))
        plain.setsockopt(socket.IPPROTO_TCP, socket.TCP_NODELAY, 1)
        self.sock = context.wrap_socket(plain, server_hostname="localhost")
        self.buffer, self.pings, self.answers_pings, self.reason = b"", 0, True, ""
        self.sock.sendall(handshake(*headers, path=target))
        self.head = self.until(b"\r\n\r\n").decode()
        self.status = int(self.head.split(" ")[1])


class Front:
    """A daemon as one comes to it through the proxy."""

    def __init__(self, port: int, certificate: Certificate, child: subprocess.Popen[bytes]) -> None:
        self.port, self.certificate, self.child = port, certificate, child
        self.url = f"wss://localhost:{port}/"

    def workers(self) -> set[str]:
        """The processes that serve for the proxy's first one."""
        return set(Path(f"/proc/{self.child.pid}/task/{self.child.pid}/children").read_text().split())

    def peer(self, *headers: str, **how: str) -> TlsPeer:
        return TlsPeer(self.port, self.certificate.context, *headers, **how)

    def opened(self, url: str, *headers: str) -> TlsPeer:
        peer = self.peer(*headers)
        peer.ask('{"id":0,"op":"open","url":"%s"}' % url)
        return peer


def replaced(text: str, pairs: list[tuple[str, str]]) -> str:
    """The text with each first replaced by the second, which it must have."""
    for old, new in pairs:
        if old not in text:
            raise Wrong(f"there is no {old!r} in it")
        text = text.replace(old, new)
    return text


def without_ipv6(text: str) -> str:
    """A machine may have no IPv6."""
    try:
        with socket.socket(socket.AF_INET6) as it:
            it.bind(("::1", 0))
        return text
    except OSError:
        return re.sub(r" +listen \[::\].*\n", "", text).replace("bind :::", "bind :").replace(" v4v6", "")


class Nginx:
    """As root it would have its workers be another user, and without root it may not."""

    name, file, reload = "nginx", "nginx.conf", signal.SIGHUP

    def __init__(self, room: Path, certificate: Certificate) -> None:
        self.room = room
        self.pairs = [
            (f"/etc/ssl/certs/{NAME}.pem", str(certificate.file)),
            (f"/etc/ssl/private/{NAME}.key", str(certificate.key)),
            (f"server_name {NAME}", "server_name localhost"),
            ("/var/log/nginx/weblocks.log", str(room / "access.log")),
        ]
        self.patience = "180s"

    def bounds(self, most: int) -> list[tuple[str, str]]:
        return [("limit_conn weblocks 256", f"limit_conn weblocks {most}")]

    def ports(self, port: int, daemon: int) -> list[tuple[str, str]]:
        return [(":443 ssl", f":{port} ssl"), (" 443 ssl", f" {port} ssl"), ("127.0.0.1:8080", f"127.0.0.1:{daemon}")]

    def socket(self, daemon: int, path: Path) -> list[tuple[str, str]]:
        return [(f"proxy_pass http://127.0.0.1:{daemon};", f"proxy_pass http://unix:{path};")]

    def commands(self, text: str) -> tuple[list[str], list[str]]:
        """What checks the file, and what serves by it."""
        (self.room / "weblocks.conf").write_text(text)
        main = self.room / "main.conf"
        main.write_text(NGINX.format(room=self.room, user="user root;" if os.geteuid() == 0 else ""))
        words = ["nginx", "-p", str(self.room), "-c", str(main)]
        return [*words, "-t"], [*words, "-g", "daemon off;"]


class Haproxy:
    """It wants certificate and key in one file."""

    name, file, reload = "haproxy", "haproxy.cfg", signal.SIGUSR2

    def __init__(self, room: Path, certificate: Certificate) -> None:
        self.room = room
        # (a machine of tests may not let it have files for 10,000)
        self.pairs = [(f"/etc/haproxy/{NAME}.pem", str(certificate.both)), ("maxconn 10000", "maxconn 1000")]
        if os.geteuid() != 0:
            self.pairs += [(HAPROXYS_USER, "")]
        self.patience = "tunnel 180s"

    def bounds(self, most: int) -> list[tuple[str, str]]:
        """So many connections of a client, and twice as many until none is answered."""
        return [("gt 256", f"gt {most}"), ("gt 320", f"gt {2 * most}")]

    def ports(self, port: int, daemon: int) -> list[tuple[str, str]]:
        return [(":443 ", f":{port} "), ("127.0.0.1:8080", f"127.0.0.1:{daemon}")]

    def socket(self, daemon: int, path: Path) -> list[tuple[str, str]]:
        """Its own user may not reach the socket, which is in a folder of the tests' user alone."""
        pairs = [(f"server daemon 127.0.0.1:{daemon} ", f"server daemon unix@{path} ")]
        return pairs + [(HAPROXYS_USER, "")] * (os.geteuid() == 0)

    def commands(self, text: str) -> tuple[list[str], list[str]]:
        (self.room / "haproxy.cfg").write_text(text)
        words = ["haproxy", "-f", str(self.room / "haproxy.cfg")]
        return [*words, "-c"], [*words, "-W", "-db"]


Proxy = Nginx | Haproxy


def is_there(port: int) -> bool:
    """Whether connections are taken. The one that is made for this has ended behind it, and counts no more."""
    with socket.socket() as it:
        it.settimeout(SECONDS)
        if it.connect_ex(("127.0.0.1", port)):
            return False
        it.shutdown(socket.SHUT_WR)
        with suppress(ConnectionError):
            it.recv(1)
        return True


@contextmanager
def served(child: subprocess.Popen[bytes], port: int, said: Path) -> Iterator[None]:
    """The proxy, from when it takes connections to its end."""
    try:
        until = time.monotonic() + SECONDS
        while not is_there(port):
            if child.poll() is not None or time.monotonic() > until:
                raise Wrong(f"it takes no connections: {said.read_text()}")
            time.sleep(0.05)
        yield
    finally:
        child.send_signal(signal.SIGTERM)
        child.wait(SECONDS)


@contextmanager
def front_of(
    built: Built, proxy: Proxy, certificate: Certificate, daemon: int, *more: tuple[str, str]
) -> Iterator[Front]:
    """The proxy with the repository's file, after a name, a certificate, ports and more were replaced in it."""
    port = free_port()
    text = without_ipv6((built.tree / "usr/share/doc/weblocks/examples" / proxy.file).read_text())
    text = replaced(text, [*proxy.pairs, *proxy.ports(port, daemon), *more])
    check, serve = proxy.commands(text)
    tried = ran(check)
    if tried.returncode or "warn" in text_of(tried).lower():
        raise Wrong(f"{proxy.name} says of its file:\n{text_of(tried)}")
    said = proxy.room / "said"
    with said.open("wb") as out:
        child = subprocess.Popen(serve, stdin=subprocess.DEVNULL, stdout=out, stderr=out, env=environment())
    with served(child, port, said):
        yield Front(port, certificate, child)


def hands_over(built: Built, proxy: Proxy, certificate: Certificate) -> None:
    with Daemon(built.program) as daemon, front_of(built, proxy, certificate, daemon.port) as front:
        hand_over(front)


def hands_over_a_socket(built: Built, proxy: Proxy, certificate: Certificate) -> None:
    """The daemon listens on a Unix socket, which the file then names."""
    path = proxy.room / "socket"
    with Daemon(built.program, "--listen", f"unix:{path}") as daemon:
        with front_of(built, proxy, certificate, daemon.port, *proxy.socket(daemon.port, path)) as front:
            hand_over(front)


def passes_headers(built: Built, proxy: Proxy, certificate: Certificate) -> None:
    """What a client says of its origin and its token comes to the daemon, and what was selected comes back."""
    tokens = proxy.room / "tokens"
    tokens.write_text(f"{TOKEN}\n")
    tokens.chmod(0o600)
    with (
        Daemon(built.program, "--token-file", str(tokens)) as daemon,
        front_of(built, proxy, certificate, daemon.port) as front,
    ):
        page, token = origin("https://a.test"), bearer(TOKEN)
        expect("whether a page may open its own origin", may(front, "https://a.test/", page, token), True)
        expect("whether it may open another", may(front, "https://b.test/", page, token), False)
        both = front.peer(protocols("weblocks.push", f"weblocks.bearer.{TOKEN}"))
        expect("the status of a token as a subprotocol", both.status, 101)
        selected = re.findall(r"(?im)^sec-websocket-protocol: *(\S+)", both.head)
        expect("the selected subprotocol", selected, ["weblocks.push"])
        for other in ((), (bearer("another"),), (protocols("weblocks.push", "weblocks.bearer.another"),)):
            expect(f"the status with {other}", front.peer(*other).status, 401)
    said = "".join(it.read_text() for it in (proxy.room / "access.log", proxy.room / "said") if it.exists())
    expect("whether a token was logged", TOKEN in said, False)


def outlasts_silence(built: Built, proxy: Proxy, certificate: Certificate) -> None:
    """A client that says nothing but its answers to pings stays, for longer than the proxy's patience."""
    shorter = (proxy.patience, proxy.patience.replace("180s", f"{PATIENCE}s"))
    with (
        Daemon(built.program, "--idle", str(IDLE)) as daemon,
        front_of(built, proxy, certificate, daemon.port, shorter) as front,
    ):
        peer = front.opened("https://a.test/")
        until = time.monotonic() + 3 * PATIENCE
        while time.monotonic() < until:
            expect("what comes", peer.frame()[0], PING)
            peer.send(b"", PONG)
        expect("its reply", peer.ask('{"id":1,"op":"poll"}'), '{"id":1,"notices":[],"ok":{}}')


def bounds_clients(built: Built, proxy: Proxy, certificate: Certificate) -> None:
    """A client has so many connections at once as the file says, here 2; its place is free again once one ended."""
    fewer = proxy.bounds(2)
    with Daemon(built.program) as daemon, front_of(built, proxy, certificate, daemon.port, *fewer) as front:
        first, second = front.opened("https://a.test/"), front.opened("https://a.test/")
        expect("the status of a third", front.peer().status, 503)
        first.leave()
        until_true("a place is free again", lambda: front.peer().status == 101)
        expect("what the second is told", second.ask('{"id":1,"op":"poll"}'), '{"id":1,"notices":[],"ok":{}}')


def counts_the_silent(built: Built, proxy: Proxy, certificate: Certificate) -> None:
    """Connections that send nothing count too, and where there are twice as many as may be a further one is ended."""
    with (
        Daemon(built.program) as daemon,
        front_of(built, proxy, certificate, daemon.port, *proxy.bounds(2)) as front,
        ExitStack() as there,
    ):
        def silent(count: int) -> list[socket.socket]:
            made = [there.enter_context(socket.socket()) for _ in range(count)]
            for it in made:
                # (one that is ended may be so before its call is over)
                it.connect_ex(("127.0.0.1", front.port))
            return made

        first = silent(2)
        expect("the status of a third", front.peer().status, 503)
        others = silent(6)
        until_true("four of eight are ended", lambda: len(select.select(others, [], [], 0)[0]) >= 4)
        expect("which of the first two are", select.select(first, [], [], 0)[0], [])


def reload_keeps_locks(built: Built, proxy: Proxy, certificate: Certificate) -> None:
    """A reload of the proxy, as for a new certificate, ends no connection, and so no lock."""
    with Daemon(built.program) as daemon, front_of(built, proxy, certificate, daemon.port) as front:
        holder, other = front.opened("https://a.test/"), front.opened("https://a.test/")
        wish = '{"id":1,"name":"db","op":"request","options":{"ifAvailable":true}}'
        expect("whether it is granted", '"phase":"granted"' in holder.ask(wish), True)
        before = front.workers()
        end = time.monotonic() + SECONDS
        while not front.workers() - before:
            if time.monotonic() > end:
                raise Wrong(f"no other process serves after {SECONDS} seconds")
            # (HAProxy's first process, while it starts, may lose a signal)
            front.child.send_signal(proxy.reload)
            time.sleep(1)
        # An old process that gave up its connections would do so soon.
        time.sleep(1)
        expect("whether it is free", '"phase":"unavailable"' in other.ask(wish), True)
        late = front.opened("https://a.test/")
        expect("whether a new client is told so too", '"phase":"unavailable"' in late.ask(wish), True)
        expect("the holder's reply", holder.ask('{"id":2,"op":"poll"}'), '{"id":2,"notices":[],"ok":{}}')


def is_patient(proxy: Proxy, text: str) -> None:
    """The proxy waits for longer than it takes the daemon to end a silent peer, which is twice its 30 seconds."""
    seconds = [int(it) for it in re.findall(r"(?:proxy_(?:read|send)_timeout|timeout tunnel) +(\d+)s", text)]
    expect(f"whether {proxy.name} waits for {seconds}", bool(seconds) and min(seconds) > 60, True)


def asks_again(built: Built, proxy: Proxy, certificate: Certificate) -> None:
    """A client outlives a daemon that was stopped and started: it asks the new one, by the same proxy."""
    port = free_port()
    environ = {**os.environ, "PYTHONPATH": str(built.modules), "SSL_CERT_FILE": str(certificate.file)}
    environ["PYTHONDONTWRITEBYTECODE"] = "1"
    listen = f"127.0.0.1:{port}"
    with front_of(built, proxy, certificate, port) as front:
        with Daemon(built.program, listen=listen) as daemon:
            words, pipe = [PYTHON, "-c", ASKS_AGAIN, front.url], subprocess.PIPE
            with subprocess.Popen(words, env=environ, stdin=pipe, stdout=pipe, stderr=subprocess.STDOUT) as client:
                assert client.stdout is not None
                try:
                    expect("its first line", client.stdout.readline(), b"held\n")
                    daemon.child.kill()
                    daemon.child.wait(SECONDS)
                    with Daemon(built.program, listen=listen):
                        said, _ = client.communicate(b"\n", timeout=SECONDS)
                    expect("its last line", said.splitlines()[-1:], [b"held again"])
                finally:
                    client.kill()


def names_certificate(built: Built, proxy: Proxy, certificate: Certificate) -> None:
    """A client that doesn't know the certificate says so, and one that does comes in."""
    with Daemon(built.program) as daemon, front_of(built, proxy, certificate, daemon.port) as front:
        words = [PYTHON, "-m", "weblocks", "with", "db", "--url", front.url, "--origin", "https://a.test", "--", "true"]
        there = {**environment(), "PYTHONPATH": str(built.modules), "PYTHONDONTWRITEBYTECODE": "1"}
        why = f"weblocks: the server at {front.url} has a certificate that isn't trusted"
        for trusted, status, said in (({}, 69, why), ({"SSL_CERT_FILE": str(certificate.file)}, 0, "")):
            ended = ran(words, env={**there, **trusted})
            expect("what the client says", text_of(ended).partition(": self")[0], said)
            expect("its status", ended.returncode, status)


def checks_of(kind: type[Nginx] | type[Haproxy], built: Built) -> Checks:
    room = built.place / kind.name
    room.mkdir()
    certificate = Certificate(room)
    proxy = kind(room, certificate)
    text = (built.top / "deploy" / proxy.file).read_text()
    yield f"{kind.name} waits for long enough", lambda: is_patient(proxy, text)
    for name, check in (
        ("a lock goes from hand to hand", hands_over),
        ("headers go through", passes_headers),
        ("silence is outlasted", outlasts_silence),
        ("a client has so many connections", bounds_clients),
        ("a reload keeps locks", reload_keeps_locks),
        ("a client asks again after a restart", asks_again),
        ("a certificate that isn't trusted is named", names_certificate),
    ):
        yield f"{name}, by {kind.name}", partial(check, built, proxy, certificate)
    if kind is Haproxy:
        yield "connections that send nothing count, by haproxy", partial(counts_the_silent, built, proxy, certificate)
    over = partial(hands_over_a_socket, built, proxy, certificate)
    yield f"a lock goes from hand to hand over a Unix socket, by {kind.name}", over


def proxy_checks(built: Built, needs: Needs) -> Checks:
    others = ["openssl", "python3-websockets"]
    yield from needs.each("nginx in front", ["nginx-light", *others], partial(checks_of, Nginx, built))
    yield from needs.each("haproxy in front", ["haproxy", *others], partial(checks_of, Haproxy, built))
