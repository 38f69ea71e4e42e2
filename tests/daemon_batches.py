"""Messages of several connections that one turn of a loop finds: all are answered before any reply is sent."""

import os
import signal
import struct
import threading
from contextlib import contextmanager

from daemon_pushes import POLL, POLLED, URL, asked, push, release, released, request
from daemon_server import CLOSE, PUSH, Daemon, framed
from running import expect

# More than are answered before the first is sent to, and no multiple of that.
MANY = 41


@contextmanager
def stopped(daemon):
    """What is sent meanwhile is all there when the loop goes on."""
    os.kill(daemon.child.pid, signal.SIGSTOP)
    try:
        yield
    finally:
        os.kill(daemon.child.pid, signal.SIGCONT)


def each_is_answered_in_order(program):
    """Each sends one message, and then several in one piece, as its replies are to come."""
    with Daemon(program, "--loops", "1") as daemon:
        peers = [daemon.opened(f"https://p{n}.test/", *([PUSH] if n % 2 else [])) for n in range(MANY)]
        for turn in range(1, 6):
            with stopped(daemon):
                for peer in peers:
                    peer.send(request(1))
            for peer in peers:
                expect("the reply", peer.get(), asked(1, turn, ("granted", turn)))
            with stopped(daemon):
                for peer in peers:
                    peer.sock.sendall(framed(POLL) * 20 + framed(release(2, turn)) + framed(POLL))
            for peer in peers:
                for _ in range(20):
                    expect("a poll", peer.get(), POLLED)
                expect("the release", peer.get(), released(2))
                expect("the last poll", peer.get(), POLLED)


def one_that_does_not_read(program):
    """The others are answered meanwhile, and it has each of its replies once it reads."""
    with Daemon(program, "--loops", "1", "--idle", "60") as daemon:
        slow = daemon.opened(room=16384)
        for n in range(50):
            slow.ask(request(n, "n" * 1000 + str(n)))
        queries = [framed('{"id":%d,"op":"query"}' % n) for n in range(300)]
        daemon.fill(slow, b"".join(queries))
        others = [daemon.opened(f"https://p{n}.test/") for n in range(20)]
        with stopped(daemon):
            slow.send(POLL)
            for peer in others:
                peer.send(POLL)
        for peer in others:
            expect("another's reply", peer.get(), POLLED)
        slow.widen()
        for n in range(300):
            head = slow.get()[: len('{"id":%d,"notices":[]' % n)]
            expect("how its reply begins", head, '{"id":%d,"notices":[]' % n)
        expect("its last reply", slow.get(), POLLED)


def some_that_end(program):
    """One breaks the protocol, one closes and one is gone: their locks go on, and the others are answered."""
    with Daemon(program, "--loops", "1") as daemon:
        broken, closing, gone = (daemon.opened(f"https://{it}.test/") for it in ("a", "b", "c"))
        waiters = [daemon.opened(f"https://{it}.test/", PUSH) for it in ("a", "b", "c")]
        others = [daemon.opened(f"https://p{n}.test/") for n in range(20)]
        for peer in (broken, closing, gone):
            expect("the first reply", peer.ask(request(1)), asked(1, 1, ("granted", 1)))
        for peer in waiters:
            expect("the waiter's reply", peer.ask(request(1)), asked(1, 2))
        with stopped(daemon):
            for peer in others[:10]:
                peer.send(POLL)
            broken.send(b"\xff")
            closing.send(struct.pack(">H", 1000), CLOSE)
            gone.drop()
            for peer in others[10:]:
                peer.send(POLL)
        for peer in others:
            expect("another's reply", peer.get(), POLLED)
        for peer in waiters:
            expect("the push", peer.get(), push(("granted", 2)))
        expect("how the broken one ends", broken.close_code(), 1007)
        expect("how the closing one ends", closing.close_code(), 1000)


def newcomers_beside_messages(program):
    """A handshake that is there in the same turn is answered too."""
    with Daemon(program, "--loops", "1") as daemon:
        peers = [daemon.opened(f"https://p{n}.test/") for n in range(MANY)]
        came = []
        coming = [threading.Thread(target=lambda: came.append(daemon.opened(URL))) for _ in range(10)]
        with stopped(daemon):
            for it in coming:
                it.start()
            for peer in peers:
                peer.send(POLL)
        for peer in peers:
            expect("the reply", peer.get(), POLLED)
        for it in coming:
            it.join()
        expect("how many came", len(came), len(coming))
        for peer in came:
            expect("a newcomer's reply", peer.ask(POLL), POLLED)


def grants_between_messages(program):
    """Each lock is released in the turn that also finds a poll of who waits for it: a grant is told once, by whichever
    text leaves first."""
    with Daemon(program, "--loops", "1") as daemon:
        urls = [f"https://p{n}.test/" for n in range(MANY)]
        pairs = [(daemon.opened(url), daemon.opened(url, PUSH)) for url in urls]
        for turn in range(4):
            held, waits = 2 * turn + 1, 2 * turn + 2
            for holder, waiter in pairs:
                expect("the holder's reply", holder.ask(request(1)), asked(1, held, ("granted", held)))
                expect("the waiter's reply", waiter.ask(request(1)), asked(1, waits))
            with stopped(daemon):
                for holder, waiter in pairs:
                    first, second = (holder, waiter) if turn % 2 else (waiter, holder)
                    for peer in (first, second):
                        peer.send(release(2, held) if peer is holder else POLL)
            for holder, waiter in pairs:
                expect("the release", holder.get(), released(2))
                told = POLLED.replace("[]", '[{"phase":"granted","request":%d}]' % waits)
                texts = [waiter.get()]
                if texts[0] != told:
                    texts.append(waiter.get())
                    expect("the poll and the push", sorted(texts), sorted([POLLED, push(("granted", waits))]))
                expect("the poll behind", waiter.ask(POLL), POLLED)
                expect("the waiter's release", waiter.ask(release(2, waits)), released(2))


def batch_checks(program):
    for name, check in [
        ("many send at once: each is answered in its order", each_is_answered_in_order),
        ("many send at once: one of them doesn't read", one_that_does_not_read),
        ("many send at once: some of them end", some_that_end),
        ("many send at once: others come in", newcomers_beside_messages),
        ("many send at once: grants between their messages", grants_between_messages),
    ]:
        yield name, lambda c=check: c(program)
