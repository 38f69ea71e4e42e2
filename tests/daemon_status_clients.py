"""What the status of a daemon makes of slow and hostile clients, and of a loop that hangs."""

import ctypes
import os
import socket
import time

from daemon_admission import OPENED, open_of
from daemon_server import SLACK, until_true
from running import Wrong, expect
from status_server import Answer, Shown, expect_status, read_all

READING = 10
PLACES = 16
PTRACE_DETACH, PTRACE_SEIZE, PTRACE_INTERRUPT = 17, 0x4206, 0x4207
ANY_THREAD = 0x40000000


# ---- slow and hostile clients


def slow_client(program):
    """A request has 10 seconds, however slowly it comes, and others are answered meanwhile."""
    with Shown(program) as daemon, daemon.connect(READING + SLACK) as sock:
        begun = time.monotonic()
        while True:
            try:
                sock.sendall(b"G" if time.monotonic() - begun < 1 else b"")
                sock.settimeout(0.5)
                if sock.recv(1) == b"":
                    break
            except TimeoutError:
                expect_status(daemon, 200)
            except ConnectionError:
                break
            if time.monotonic() - begun > READING + SLACK:
                raise Wrong("it is there still")
        expect("whether it had its time", time.monotonic() - begun > READING - 1, True)


def endless_head(program):
    with Shown(program) as daemon:
        request = b"GET /health HTTP/1.1\r\nHost: " + daemon.local().encode() + b"\r\n"
        for data in [request + b"x: " + b"y" * 20000, request + b"x: y\r\n" * 4000, b"GET /" + b"x" * 20000]:
            with daemon.connect() as sock:
                try:
                    sock.sendall(data)
                    answer = Answer(read_all(sock))
                    expect("whether it is refused", answer.status in (414, 431), True)
                except ConnectionError:
                    pass
        expect_status(daemon, 200)


def endless_stream(program):
    """A client that never stops sending is let go, and takes no memory."""
    with Shown(program) as daemon, daemon.connect() as sock:
        before, begun = daemon.memory(), time.monotonic()
        try:
            while time.monotonic() - begun < READING + SLACK:
                sock.sendall(b"\0" * 65536)
            raise Wrong("it is read still")
        except ConnectionError:
            pass
        expect("whether memory stays", daemon.memory() - before < 2**22, True)
        expect_status(daemon, 200)


def many_clients(program):
    """Connections that ask for nothing have all places, and lose them to others: these don't wait for 10 seconds."""
    with Shown(program) as daemon:
        silent = [daemon.connect() for _ in range(40)]
        expect("a reply", daemon.peer().ask(open_of("https://a.test/")), OPENED)
        begun = time.monotonic()
        for _ in range(3):
            expect_status(daemon, 200)
        expect("whether they came in time", time.monotonic() - begun < READING - 2, True)
        for sock in silent:
            sock.close()


def many_viewers(program):
    """As many as there are places ask now and then, as the page does, and have a place between their questions: others
    are answered beside them, and who has lost its place connects again, as browsers do."""
    with Shown(program) as daemon:
        request = f"GET /locks HTTP/1.1\r\nHost: {daemon.local()}\r\n\r\n".encode()
        viewers = [daemon.connect() for _ in range(PLACES)]
        begun, lost = time.monotonic(), 0
        for _ in range(4):
            for place, viewer in enumerate(viewers):
                try:
                    viewer.sendall(request)
                    came = viewer.recv(65536)
                except ConnectionError:
                    came = b""
                if not came:
                    lost += 1
                    viewers[place] = daemon.connect()
            expect_status(daemon, 200)
            time.sleep(0.5)
        expect("whether others had places of theirs", lost > 0, True)
        expect("whether all went on", time.monotonic() - begun < READING - 2, True)
        for viewer in viewers:
            viewer.close()


def viewers_that_do_not_read(program):
    """As many as there are places ask for more than the system keeps for them, and take nothing: they lose their places
    to others, long before the 30 seconds that an answer has to leave."""
    with Shown(program) as daemon:
        request = f"GET / HTTP/1.1\r\nHost: {daemon.local()}\r\n\r\n".encode()
        viewers = [daemon.connect() for _ in range(PLACES)]
        for viewer in viewers:
            viewer.setblocking(False)
            try:
                while True:
                    viewer.send(request * 100)
            except BlockingIOError:
                pass
        begun = time.monotonic()
        for _ in range(3):
            expect_status(daemon, 200)
        expect("whether they came in time", time.monotonic() - begun < SLACK, True)
        for viewer in viewers:
            viewer.close()


def one_connection(program):
    """Requests come one after another on a connection, and together."""
    with Shown(program) as daemon, daemon.connect() as sock:
        request = f"GET /health HTTP/1.1\r\nHost: {daemon.local()}\r\n\r\n".encode()
        sock.sendall(request * 3)
        sock.sendall(request.replace(b"\r\n\r\n", b"\r\nConnection: close\r\n\r\n"))
        expect("the answers", read_all(sock).count(b"HTTP/1.1 200 OK\r\n"), 4)


def broken_requests(program):
    with Shown(program) as daemon:
        for data in [b"x\r\n\r\n", b"\x16\x03\x01\0\0", b"GET / HTTP/2.0\r\n\r\n", b"PRI * HTTP/2.0\r\n\r\nSM\r\n\r\n"]:
            with daemon.connect() as sock:
                sock.sendall(data)
                sock.shutdown(socket.SHUT_WR)
                expect(f"the status of {data!r}", Answer(read_all(sock)).status, 400)
        expect_status(daemon, 200)


def end_with_clients(program):
    """The daemon ends, whoever is connected to its status."""
    with Shown(program) as daemon:
        with daemon.connect() as silent, daemon.connect() as half:
            half.sendall(b"GET / HTTP/1.1\r\n")
            time.sleep(0.2)
            begun = time.monotonic()
            expect("the status", daemon.end()[0], 0)
            expect("whether it ended at once", time.monotonic() - begun < SLACK, True)
            expect("whether the stream ended", silent.recv(1), b"")


# ---- a loop that hangs


class Stopped:
    """One thread of a process, which a tracer stops. A signal would stop all of them."""

    def __init__(self, thread):
        self.thread, self.libc = thread, ctypes.CDLL(None, use_errno=True)
        self.libc.ptrace.argtypes = [ctypes.c_long, ctypes.c_int, ctypes.c_void_p, ctypes.c_void_p]
        self.libc.ptrace.restype = ctypes.c_long

    def trace(self, what):
        if self.libc.ptrace(what, self.thread, None, None) != 0:
            raise Wrong(f"a thread can't be traced: {os.strerror(ctypes.get_errno())}")

    def __enter__(self):
        self.trace(PTRACE_SEIZE)
        self.trace(PTRACE_INTERRUPT)
        os.waitpid(self.thread, ANY_THREAD)
        return self

    def __exit__(self, *_):
        self.trace(PTRACE_DETACH)


def hung_loop(program):
    with Shown(program, "--loops", "2") as daemon:
        expect_status(daemon, 200)
        threads = sorted(int(it) for it in os.listdir(f"/proc/{daemon.child.pid}/task"))
        # The first waits for input, the loops begin before the status, and what writes the log comes last.
        expect("the number of threads", len(threads), 5)
        for thread in threads[1:3]:
            with Stopped(thread):
                answer = expect_status(daemon, 503)
                expect("the body", answer.body, b"an event loop hangs\n")
                expect_status(daemon, 200, "/")
            until_true("it goes on", lambda: daemon.get().status == 200)
        expect("the status at its end", daemon.end()[0], 0)


def status_client_checks(program):
    for name, check in [
        ("a slow client of the status", slow_client),
        ("a head without an end", endless_head),
        ("a client that sends without an end", endless_stream),
        ("silent clients of the status", many_clients),
        ("viewers of the status", many_viewers),
        ("viewers of the status that don't read", viewers_that_do_not_read),
        ("requests on one connection", one_connection),
        ("broken requests", broken_requests),
        ("a daemon ends with clients of its status", end_with_clients),
        ("a loop that hangs", hung_loop),
    ]:
        yield name, lambda c=check: c(program)
