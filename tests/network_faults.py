"""How the built program says why a server or a client ended early: a line on standard error for each fault."""

import base64
import hashlib
import os
import resource
import socket
import subprocess
import threading
from contextlib import contextmanager
from pathlib import Path

from network import Serving, free_port
from running import SECONDS, expect, expect_end, run_on, run_whole

OPEN = b'{"id":1,"op":"open","url":"https://a.test/"}\n'
OPENED = b'{"id":1,"notices":[],"ok":{"client":"client-1"}}\n'
POLL = b'{"id":2,"op":"poll"}\n'
LONGEST_LINE = 65536

# What a server adds to a client's key (RFC 6455, section 1.3).
GUID = b"258EAFA5-E914-47DA-95CA-C5AB0DC85B11"
TEXT, BYTES = 0x81, 0x82
# Room for a few kilobytes more, and for no thread.
NO_STACK = 64 * 1024


def says(why):
    return b"weblocks: " + why + b"\n"


# ---- the program as a client of another server


@contextmanager
def server(*turns):
    """The port of a server of one connection, which does these turns with it, each in its own time."""

    def serve(listener):
        peer, _ = listener.accept()
        with peer:
            peer.settimeout(SECONDS)
            for turn in turns:
                turn(peer)

    with socket.create_server(("127.0.0.1", 0)) as listener:
        thread = threading.Thread(target=serve, args=(listener,))
        thread.start()
        yield listener.getsockname()[1]
        thread.join(SECONDS)


def shake_hands(peer):
    head = b""
    while not head.endswith(b"\r\n\r\n"):
        head += peer.recv(1)
    fields = dict(line.lower().split(b": ", 1) for line in head.split(b"\r\n")[1:-2])
    key = [line.split(b": ", 1)[1] for line in head.split(b"\r\n") if line.lower().startswith(b"sec-websocket-key")]
    expect("the header Upgrade", fields[b"upgrade"], b"websocket")
    accept = base64.b64encode(hashlib.sha1(key[0] + GUID).digest())
    peer.sendall(
        b"HTTP/1.1 101 Switching Protocols\r\nUpgrade: websocket\r\nConnection: Upgrade\r\n"
        b"Sec-WebSocket-Accept: " + accept + b"\r\n\r\n"
    )


def hear(peer):
    """A message of fewer than 126 bytes, as a client masks it."""
    head = peer.recv(2, socket.MSG_WAITALL)
    peer.recv(4 + (head[1] & 0x7F), socket.MSG_WAITALL)


def answer(opcode):
    return lambda peer: peer.sendall(bytes([opcode, 2]) + b"so")


def client_of(program, turns, out, why):
    with server(*turns) as port:
        ended = run_whole([program, "client", "--port", str(port)], OPEN + POLL)
        expect_end(ended, out, 1, says(why % port if b"%d" in why else why))


def client_cannot_read(program):
    folder = os.open(Path(__file__).parent, os.O_RDONLY)
    try:
        with Serving(program, 1) as serving:
            ended = run_on([program, "client", "--port", str(serving.port)], folder)
            expect_end(ended, b"", 1, says(b"cannot read after line 0"))
    finally:
        os.close(folder)


def client_cannot_write(program):
    with Serving(program, 1) as serving, open("/dev/full", "wb") as full:
        source, to = os.pipe()
        os.write(to, OPEN)
        os.close(to)
        ended = run_on([program, "client", "--port", str(serving.port)], source, full)
        os.close(source)
        expect_end(ended, b"", 1, says(b"cannot write after line 0"))


def client_line_too_long(program):
    with Serving(program, 1) as serving:
        script = OPEN + b"x" * (LONGEST_LINE + 1) + b"\n" + POLL
        ended = run_whole([program, "client", "--port", str(serving.port)], script)
        expect_end(ended, OPENED, 1, says(b"line too long after line 1"))


# ---- the program as a server


def server_cannot_write(program):
    """It listens, says so to nobody, and ends without a client."""
    words = [program, "serve", "--port", str(free_port()), "--clients", "10000"]
    with open("/dev/full", "wb") as full:
        expect_end(run_on(words, stdout=full), b"", 1, says(b"cannot write after connection 0"))


def server_cannot_write_its_end(program):
    """Nobody reads any more when its clients have left."""
    port = free_port()
    words = [program, "serve", "--port", str(port), "--clients", "2"]
    source, out = os.pipe()
    child = subprocess.Popen(words, stdout=out, stderr=subprocess.PIPE)
    os.close(out)
    try:
        expect("its first line", os.read(source, 100), b"listening %d\n" % port)
        os.close(source)
        for _ in range(2):
            run_whole([program, "client", "--port", str(port)], OPEN)
        err = child.communicate(timeout=SECONDS)[1]
        expect("standard error", err, says(b"cannot write after connection 2"))
        expect("the status", child.returncode, 1)
    finally:
        child.kill()


def limited(serving, limit, value):
    resource.prlimit(serving.child.pid, limit, (value, value))


def server_cannot_accept(program):
    """No file is left for a client after the next one, whose file is taken before it comes."""
    with Serving(program, 3) as serving:
        client = [program, "client", "--port", str(serving.port)]
        expect_end(run_whole(client, OPEN), OPENED)
        limited(serving, resource.RLIMIT_NOFILE, 4)
        socket.create_connection(("127.0.0.1", serving.port), SECONDS).close()
        expect_end(serving.end(), b"", 1, says(b"cannot accept after connection 2"))


def mapped_bytes(pid):
    status = Path(f"/proc/{pid}/status").read_text()
    return 1024 * int(next(line.split()[1] for line in status.splitlines() if line.startswith("VmSize")))


def server_cannot_start_a_thread(program):
    """There is no room for the stack of a thread."""
    with Serving(program, 3) as serving:
        limited(serving, resource.RLIMIT_AS, mapped_bytes(serving.child.pid) + NO_STACK)
        with socket.create_connection(("127.0.0.1", serving.port), SECONDS):
            expect_end(serving.end(), b"", 1, says(b"cannot start a thread after connection 0"))


def network_fault_checks(program):
    ended = b"connection ended after line %d"
    for name, turns, out, why in [
        ("leaves at once", [], b"", b"cannot connect to port %d"),
        ("leaves after the handshake", [shake_hands], b"", ended % 0),
        ("leaves a message unanswered", [shake_hands, hear], b"", ended % 0),
        ("leaves after a reply", [shake_hands, hear, answer(TEXT), hear], b"so\n", ended % 1),
        ("answers by bytes", [shake_hands, hear, answer(TEXT), hear, answer(BYTES)], b"so\n", ended % 1),
    ]:
        yield f"a server that {name}", lambda t=turns, o=out, w=why: client_of(program, t, o, w)
    yield "a client's input is a folder", lambda: client_cannot_read(program)
    yield "a client's output is full", lambda: client_cannot_write(program)
    yield "a client's line is too long", lambda: client_line_too_long(program)
    yield "a server's output is full", lambda: server_cannot_write(program)
    yield "a server's reader goes away", lambda: server_cannot_write_its_end(program)
    yield "a server that can't accept", lambda: server_cannot_accept(program)
    yield "a server that can't start a thread", lambda: server_cannot_start_a_thread(program)
