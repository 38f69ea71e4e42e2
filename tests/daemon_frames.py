"""Messages and frames that are broken, and what a daemon says and reads after them."""

import struct
import time

from daemon_pushes import asked, request
from daemon_server import BYTES, CLOSE, LONGEST_MESSAGE, MEGABYTE, PING, PONG, Daemon, framed, until_true, within
from running import Wrong, expect

def closes_with(program, code, *pieces):
    """The peer that sends these bytes reads the close frame, though more was sent behind them."""
    with Daemon(program) as daemon:
        peer = daemon.opened()
        peer.ask(request(1))
        for piece in pieces:
            peer.sock.sendall(piece)
        peer.sock.sendall(b"\0" * 30000)
        expect("the code", peer.close_code(), code)
        expect("whether it has a reason", peer.reason != "", True)
        waiter = daemon.opened()
        expect("the next one's reply", waiter.ask(request(1)), asked(1, 1, ("granted", 1)))


def keeps_sending_after_a_close(program, size, most):
    """It is read from for 2 s and 64 KiB at most, and then it is gone."""
    with Daemon(program) as daemon:
        daemon.opened().leave()
        time.sleep(0.5)
        before = daemon.files()
        peer = daemon.opened()
        peer.send("x" * (LONGEST_MESSAGE + 1))
        began = time.monotonic()
        try:
            while time.monotonic() - began < 15:
                peer.sock.sendall(b"y" * size)
                time.sleep(0.05)
            raise Wrong("it was still there after 15 seconds")
        except ConnectionError:
            within("its end", time.monotonic() - began, 0, most)
        until_true("its file is closed", lambda: daemon.files() <= before)


def pings_and_continuations(program):
    with Daemon(program) as daemon:
        peer = daemon.opened()
        peer.send('{"id":1,', final=0)
        peer.send("?", kind=PING)
        peer.send('"op":"poll"}', kind=0)
        expect("the pong", peer.frame(), (PONG, b"?"))
        expect("the reply", peer.get(), '{"id":1,"notices":[],"ok":{}}')
        for _ in range(2000):
            peer.send("", kind=PING)
        expect("the reply", peer.ask('{"id":2,"op":"poll"}'), '{"id":2,"notices":[],"ok":{}}')


def close_frame_is_answered(program):
    with Daemon(program) as daemon:
        peer = daemon.opened()
        peer.send(struct.pack(">H", 1000), CLOSE)
        expect("the code", peer.close_code(), 1000)


def longest_message(program):
    with Daemon(program) as daemon:
        peer = daemon.peer()
        bad = '{"error":{"name":"BadJson","rule":"json"},"id":null,"notices":[]}'
        expect("the reply", peer.ask("x" * LONGEST_MESSAGE), bad)
        peer.send(b"\xff" * LONGEST_MESSAGE, BYTES)
        expect("the reply", peer.get(), bad)


def announces_much(program):
    """A frame is refused by the length that it announces, before a byte of it is there, and costs no memory."""
    with Daemon(program, "--loops", "1") as daemon:
        # (a server has more memory once it has served)
        for turn in range(2):
            before = daemon.memory()
            for length, code in ((LONGEST_MESSAGE + 1, 1009), (2**32, 1009), (2**63 - 1, 1009), (2**63, 1002)):
                peer = daemon.opened()
                peer.sock.sendall(bytes([0x81, 0xFF]) + struct.pack(">Q", length) + b"\0\0\0\0")
                expect(f"the code for {length} bytes", peer.close_code(), code)
        if daemon.memory() - before > 4 * MEGABYTE:
            raise Wrong(f"memory grew by {daemon.memory() - before} bytes")


def frame_checks(program):
    for name, check in [
        ("pings between the parts of a message", pings_and_continuations),
        ("a close frame is answered", close_frame_is_answered),
        ("the longest message", longest_message),
        ("a frame that announces more than may be", announces_much),
    ]:
        yield name, lambda c=check: c(program)
    for size, most in ((60000, 1), (1, 3)):
        yield f"a peer that sends {size} bytes on and on after a close", lambda s=size, m=most: (
            keeps_sending_after_a_close(program, s, m)
        )
    for name, code, pieces in [
        ("a message that is too long", 1009, [framed("x" * (LONGEST_MESSAGE + 1))]),
        ("a message whose parts are too long", 1009, [framed("x" * 40000, final=0), framed("x" * 40000, kind=0)]),
        ("a text that is not UTF-8", 1007, [framed(b"\xff\xfe")]),
        ("a text in parts that is not UTF-8", 1007, [framed(b"\xc3", final=0), framed(b"(", kind=0)]),
        ("a frame without a mask", 1002, [framed("{}", mask=0)]),
        ("a frame of no kind", 1002, [framed("{}", kind=3)]),
        ("a frame with a reserved bit", 1002, [framed("{}", kind=0x41)]),
        ("a part without a beginning", 1002, [framed("{}", kind=0)]),
        ("a message in the middle of another", 1002, [framed("{", final=0), framed("{}")]),
        ("a ping that is too long", 1002, [framed("x" * 126, kind=PING)]),
        ("a ping in parts", 1002, [framed("x", kind=PING, final=0)]),
    ]:
        yield name, lambda c=code, p=pieces: closes_with(program, c, *p)
