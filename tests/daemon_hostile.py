"""Silent and slow peers of a daemon, and handshakes that are none. Silence is tried with `--idle 1` or `2`."""

import json
import os
import signal
import socket
import struct
import threading
import time

from daemon_pushes import POLL, POLLED, asked, push, release, released, request
from daemon_server import MEGABYTE, PING, PONG, PUSH, Daemon, framed, handshake, until_true, within
from running import Wrong, expect
from status_server import Shown

# The bytes of a handshake at most.
LONGEST_HANDSHAKE = 16384

def silent_peer_is_pinged_and_ended(program):
    """Its lock goes on to the next."""
    with Daemon(program, "--idle", "1") as daemon:
        silent = daemon.opened()
        silent.ask(request(1))
        began = time.monotonic()
        silent.answers_pings = False
        waiter = daemon.opened("https://a.test/", PUSH)
        waiter.ask(request(1))
        # The waiter is read first: it answers its own pings as it is read.
        expect("the push", waiter.get(), push(("granted", 2)))
        within("its end", time.monotonic() - began, 2, 2)
        expect("how it ends", silent.close_code() in (0, "reset"), True)
        expect("its pings", silent.pings, 1)


def peer_that_answers_pings_stays(program):
    with Daemon(program, "--idle", "1") as daemon:
        peer = daemon.opened()
        end = time.monotonic() + 5
        while time.monotonic() < end:
            kind, body = peer.frame()
            expect("the kind of the frame", kind, PING)
            peer.pings += 1
            peer.send(body, PONG)
        expect("its pings are three at least", peer.pings >= 3, True)
        expect("the reply", peer.ask('{"id":1,"op":"poll"}'), '{"id":1,"notices":[],"ok":{}}')


def stopped_daemon(program):
    """The time for which it was stopped is nobody's silence: what came meanwhile is read, and who was silent pinged."""
    with Daemon(program, "--idle", "1") as daemon:
        silent, talker = daemon.opened(), daemon.opened()
        expect("the reply", silent.ask(request(1)), asked(1, 1, ("granted", 1)))
        os.kill(daemon.child.pid, signal.SIGSTOP)
        talker.send(POLL)
        time.sleep(4)
        os.kill(daemon.child.pid, signal.SIGCONT)
        expect("the reply to what came meanwhile", talker.get(), POLLED)
        expect("the kind of what the silent one is sent", silent.frame()[0], PING)
        expect("the silent one's release", silent.ask(release(2, 1)), released(2))


def daemon_that_is_stopped_for_a_moment(program):
    """What came while it was stopped is read before it is told who was silent, however short that was."""
    with Daemon(program, "--idle", "1") as daemon:
        peer = daemon.opened()
        expect("the lock", peer.ask(request(1)), asked(1, 1, ("granted", 1)))
        for seconds in (0.6, 1.2, 1.4):
            kind, body = peer.frame()
            expect("the kind of what it is sent", kind, PING)
            os.kill(daemon.child.pid, signal.SIGSTOP)
            until_true("each of its threads is stopped", lambda: set(daemon.states()) == {"T"})
            peer.send(body, PONG)
            time.sleep(seconds)
            os.kill(daemon.child.pid, signal.SIGCONT)
        expect("its release", peer.ask(release(2, 1)), released(2))


def peer_that_does_not_read(program):
    """It costs one reply of memory, is not read from meanwhile, and is ended by the idle rule."""
    with Daemon(program, "--idle", "8") as daemon:
        peer = daemon.opened(room=16384)
        for n in range(50):
            peer.ask(request(n, "n" * 1000 + str(n)))
        before = daemon.memory()
        daemon.fill(peer, b"".join(framed('{"id":%d,"op":"query"}' % n) for n in range(300)))
        began = time.monotonic()
        if daemon.memory() - before > 4 * MEGABYTE:
            raise Wrong(f"{daemon.memory() - before} bytes are kept for it")
        try:
            while time.monotonic() - began < 60:
                peer.send('{"id":1,"op":"poll"}')
                time.sleep(0.1)
            raise Wrong("it was still there after a minute")
        except ConnectionError:
            within("its end", time.monotonic() - began, 0, 16)


def peer_that_reads_slowly(program):
    """That it takes what waits for it is a sign of life, though nothing else comes from it for seven times `--idle`."""
    with Daemon(program, "--idle", "2") as daemon:
        peer = daemon.opened(room=65536)
        for n in range(200):
            peer.ask(request(n, "n" * 1000 + str(n)))
        # All of them are read at once, and their replies are more than the system keeps.
        queries = range(70)
        peer.sock.sendall(b"".join(framed('{"id":%d,"op":"query"}' % n) for n in queries))
        for n in queries:
            time.sleep(0.2)
            expect("the id", json.loads(peer.get())["id"], n)


def handshake_that_never_ends(program):
    with Shown(program, "--idle", "60") as daemon:
        with socket.create_connection(("127.0.0.1", daemon.port), 30) as peer:
            peer.sendall(b"GET / HTTP/1.1\r\n")
            began = time.monotonic()
            expect("what comes", peer.recv(100), b"")
            within("its end", time.monotonic() - began, 10, 11)
        expect_told(daemon, "late", ["ended: no handshake in time"])


def handshake_byte_by_byte(program):
    """Its bytes win it no time."""
    with Daemon(program, "--idle", "60") as daemon:
        with socket.create_connection(("127.0.0.1", daemon.port), 30) as peer:
            began = time.monotonic()
            try:
                while time.monotonic() - began < 20:
                    peer.sendall(b"G")
                    time.sleep(0.2)
                raise Wrong("it was still there after 20 seconds")
            except ConnectionError:
                within("its end", time.monotonic() - began, 10, 12)


def handshake_that_is_too_long(program):
    with Shown(program) as daemon:
        with socket.create_connection(("127.0.0.1", daemon.port), 20) as peer:
            try:
                peer.sendall(b"GET / HTTP/1.1\r\nX: " + b"x" * 40000)
                while peer.recv(1000):
                    raise Wrong("it was answered")
            except ConnectionError:
                pass
        expect_told(daemon, "no-handshake", ["refused: no WebSocket handshake"])


def handshake_that_is_none(program):
    with Shown(program) as daemon:
        with socket.create_connection(("127.0.0.1", daemon.port), 20) as peer:
            peer.sendall(b"\x16\x03\x01\x02\x00\x01\r\n\r\n")
            peer.shutdown(socket.SHUT_WR)
            while peer.recv(1000):
                pass
        expect("another peer's status", daemon.peer().status, 101)
        expect_told(daemon, "no-handshake", ["refused: no WebSocket handshake"])


def leaves_before_its_handshake(program):
    """As what only looks whether the port is open: the log has no line of it."""
    with Shown(program) as daemon:
        for sent in (b"", b"GET / HT"):
            with socket.create_connection(("127.0.0.1", daemon.port), 20) as peer:
                peer.sendall(sent)
                peer.shutdown(socket.SHUT_WR)
                expect("what comes", peer.recv(100), b"")
        expect_told(daemon, "no-handshake", [])


def expect_told(daemon, reason, lines):
    """The refusals that the status counts for a reason are as many as the log has lines of connections, and these."""
    counted = 'weblocks_handshakes_refused_total{reason="%s"} %d' % (reason, len(lines))
    # (a peer may see its end before that is counted)
    until_true("it is counted", lambda: counted in daemon.get("/metrics").body.decode().splitlines())
    _, err = daemon.end()
    told = [it.partition(" 127.0.0.1: ")[2] for it in err.splitlines() if " 127.0.0.1: " in it]
    expect("what is told", told, lines)


def longest_handshake(program):
    """One of as many bytes as may be is answered, and one that has a byte more is not."""
    with Daemon(program) as daemon:
        for size, status in ((LONGEST_HANDSHAKE, b"101"), (LONGEST_HANDSHAKE + 1, b"")):
            spare = size - len(handshake("X: "))
            with socket.create_connection(("127.0.0.1", daemon.port), 20) as peer:
                peer.sendall(handshake("X: " + "x" * spare))
                expect(f"the status for {size} bytes", first_bytes(peer)[9:12], status)


def first_bytes(peer):
    """What comes first, nothing where the stream ends or is reset."""
    try:
        return peer.recv(1000)
    except ConnectionError:
        return b""


def resets_before_it_is_accepted(program):
    """Peers that are gone before they are looked at; accepting goes on."""
    with Daemon(program) as daemon:
        daemon.opened().leave()
        files = daemon.files()
        for n in range(300):
            peer = socket.create_connection(("127.0.0.1", daemon.port), 20)
            peer.sendall(handshake()[: n % 100])
            # (a stream that is closed so is reset)
            peer.setsockopt(socket.SOL_SOCKET, socket.SO_LINGER, struct.pack("ii", 1, 0))
            peer.close()
        expect("the reply", daemon.opened().ask(POLL), POLLED)
        until_true("each file is closed", lambda: daemon.files() <= files + 1)


def shuts_its_writing_side(program):
    """A peer that will send nothing more has left: its lock goes on to the next."""
    with Daemon(program) as daemon:
        holder, waiter = daemon.opened(), daemon.opened("https://a.test/", PUSH)
        holder.ask(request(1))
        waiter.ask(request(1))
        holder.sock.shutdown(socket.SHUT_WR)
        expect("the push", waiter.get(), push(("granted", 2)))
        holder.close_code()


def does_not_read_its_pushes(program):
    """Of a thousand grants to a peer that doesn't read one push waits, and the rest is told by the next."""
    with Daemon(program) as daemon:
        holder, waiter = daemon.opened(), daemon.opened("https://a.test/", PUSH, room=16384)
        for n in range(50):
            holder.ask(request(n, "n" * 1000 + str(n), "shared"))
        locks = [json.loads(holder.ask(request(n, f"name {n}")))["ok"]["request"] for n in range(1000)]
        mine = [json.loads(waiter.ask(request(n, f"name {n}")))["ok"]["request"] for n in range(1000)]
        daemon.fill(waiter, b"".join(framed('{"id":%d,"op":"query"}' % n) for n in range(100)))
        for n, lock in enumerate(locks):
            holder.ask(release(n, lock))
        waiter.widen()
        granted, ids, pushes = [], [], 0
        while len(ids) < 100 or len(granted) < 1000:
            it = json.loads(waiter.get())
            granted += [notice["request"] for notice in it["notices"]]
            if it["id"] is None:
                pushes += 1
            else:
                ids.append(it["id"])
        expect("whether each was told once, in order", granted == mine, True)
        expect("whether two pushes at most told it", pushes <= 2, True)
        expect("the ids in their order", ids, list(range(100)))
        expect("the poll after it", waiter.ask(POLL), POLLED)


def pings_and_does_not_read(program):
    """The pongs that it doesn't read cost no memory."""
    with Daemon(program) as daemon:
        peer = daemon.opened(room=16384)
        before = daemon.memory()
        peer.sock.settimeout(2)
        try:
            for _ in range(400):
                peer.sock.sendall(framed("x" * 125, kind=PING) * 200)
        except (TimeoutError, ConnectionError):
            pass
        if daemon.memory() - before > 4 * MEGABYTE:
            raise Wrong(f"{daemon.memory() - before} bytes are kept for it")
        expect("another's reply", daemon.opened().ask(POLL), POLLED)


class Flood(threading.Thread):
    """A peer that sends polls without an end to them, and reads the replies."""

    def __init__(self, peer, polls):
        super().__init__()
        self.peer, self.polls, self.came = peer, polls, 0

    def run(self):
        self.peer.sock.settimeout(None)
        sender = threading.Thread(target=self.peer.sock.sendall, args=(framed(POLL) * self.polls,))
        sender.start()
        reply = len(POLLED) + 2
        while self.came < self.polls * reply:
            self.came += len(self.peer.sock.recv(65536))
        sender.join()

    def replies(self):
        return self.came // (len(POLLED) + 2)


def floods(program, polls=100_000):
    """A peer that sends more and more has no loop for itself: one beside it is answered meanwhile."""
    with Daemon(program, "--loops", "1") as daemon:
        flood, other = Flood(daemon.opened(), polls), daemon.opened()
        flood.start()
        until_true("it is answered", lambda: flood.came > 0)
        for _ in range(3):
            expect("the reply", other.ask(POLL), POLLED)
        before = flood.replies()
        flood.join()
        if before >= polls:
            raise Wrong(f"another was answered after all of {polls} messages")


def send_fragments(peer, is_over):
    """Sends a text that has no byte yet, in ever more fragments."""
    peer.sock.sendall(framed("", final=0))
    fragments = framed("", kind=0, final=0) * 10_000
    try:
        while not is_over.is_set():
            peer.sock.sendall(fragments)
    except OSError:
        pass


def fragments_without_end(program):
    """They make no message, and a peer beside those that send them is answered meanwhile."""
    with Daemon(program, "--loops", "1") as daemon:
        other, is_over = daemon.opened(), threading.Event()
        senders = [threading.Thread(target=send_fragments, args=(daemon.opened(), is_over)) for _ in range(6)]
        for sender in senders:
            sender.start()
        try:
            time.sleep(0.5)
            began = time.monotonic()
            for _ in range(10):
                expect("the reply", other.ask(POLL), POLLED)
            within("ten replies", time.monotonic() - began, 0, 2)
        finally:
            is_over.set()
            daemon.child.kill()
            for sender in senders:
                sender.join()


def hostile_checks(program):
    for name, check in [
        ("a silent peer is pinged and ended", silent_peer_is_pinged_and_ended),
        ("a peer that answers pings stays", peer_that_answers_pings_stays),
        ("a daemon that was stopped", stopped_daemon),
        ("a daemon that was stopped for a moment", daemon_that_is_stopped_for_a_moment),
        ("a peer that does not read", peer_that_does_not_read),
        ("a peer that reads slowly", peer_that_reads_slowly),
        ("a peer that does not read its pushes", does_not_read_its_pushes),
        ("a peer that sends pings and does not read", pings_and_does_not_read),
        ("a peer that sends without end does not keep others waiting", floods),
        ("fragments without end do not keep others waiting", fragments_without_end),
        ("a peer that shuts its writing side", shuts_its_writing_side),
        ("peers that reset before they are accepted", resets_before_it_is_accepted),
        ("a handshake that never ends", handshake_that_never_ends),
        ("a handshake byte by byte", handshake_byte_by_byte),
        ("a handshake that is too long", handshake_that_is_too_long),
        ("the longest handshake", longest_handshake),
        ("a handshake that is none", handshake_that_is_none),
        ("a peer that leaves before its handshake", leaves_before_its_handshake),
    ]:
        yield name, lambda c=check: c(program)
