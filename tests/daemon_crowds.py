"""Many peers who keep a loop of the daemon busy, so that a round of their turns takes seconds, and what goes on beside
them. There are as many as that takes on this machine; how long a round takes is measured, and no check wants one to be
short."""

import threading
import time

from daemon_pushes import POLL, POLLED, asked, push, release, released, request
from daemon_server import PING, PONG, PUSH, Daemon, framed
from running import Wrong, expect

# A round takes some 3 seconds where the peers are so many as send messages of that length in all, 300 at most, and more
# where the machine has other things to do. Nothing that is waited for takes longer than these seconds.
ROUND, MOST, PATIENCE = 3.0, 300, 120
LISTS = "[" + ("[" * 120 + "]" * 120 + ",") * 268 + "1]"
LONG_TO_READ = framed('{"id":1,"op":"poll","other":%s}' % LISTS)
# What a peer of the crowd has read of its replies is of no use.
READ = 4096


def seconds_of_a_message(daemon):
    """What the daemon takes to answer a message of the crowd, when it is quickest."""
    peer = daemon.opened()
    took = []
    for _ in range(5):
        began = time.monotonic()
        peer.sock.sendall(LONG_TO_READ)
        peer.get()
        took.append(time.monotonic() - began)
    peer.leave()
    return min(took)


class Crowd(threading.Thread):
    """Peers each of which sends as fast as the daemon takes it, and reads its replies."""

    def __init__(self, daemon):
        super().__init__()
        self.daemon, self.is_over = daemon, threading.Event()
        count = min(MOST, int(ROUND / seconds_of_a_message(daemon)))
        self.peers = [daemon.opened("https://crowd.test/") for _ in range(count)]
        for peer in self.peers:
            peer.sock.setblocking(False)

    def run(self):
        left = {peer: LONG_TO_READ for peer in self.peers}
        while not self.is_over.is_set():
            for peer in self.peers:
                try:
                    left[peer] = left[peer][peer.sock.send(left[peer]):] or LONG_TO_READ
                    peer.sock.recv(READ)
                except BlockingIOError:
                    pass
                except OSError:
                    return
            time.sleep(0.002)

    def __enter__(self):
        self.start()
        return self

    def __exit__(self, *_):
        self.is_over.set()
        self.daemon.child.kill()
        self.join()


class Rounds(threading.Thread):
    """A peer that polls without end: a poll is answered in the round behind it, so the longest way is a round at least."""

    def __init__(self, peer):
        super().__init__(daemon=True)
        self.peer, self.longest = peer, 0.0

    def run(self):
        try:
            while True:
                began = time.monotonic()
                self.peer.ask(POLL)
                self.longest = max(self.longest, time.monotonic() - began)
        except (Wrong, OSError):
            pass


def silent_peer_ends_beside_a_crowd(program):
    """The time that a loop takes for the others' turns is no time in which it stood still: it counts as silence. Its
    peer is pinged behind the first round that ends after 2 seconds, and ends behind the first that begins a second
    after that, when it was silent for 4: at the latest 4 rounds, and looks twice a second, after these 3 seconds."""
    with Daemon(program, "--loops", "1", "--idle", "2") as daemon:
        crowd = Crowd(daemon)
        rounds = Rounds(daemon.opened(timeout=PATIENCE))
        silent, waiter = daemon.opened(), daemon.opened("https://a.test/", PUSH, timeout=PATIENCE)
        silent.ask(request(1))
        waiter.ask(request(1))
        began = time.monotonic()
        with crowd:
            rounds.start()
            expect("the push", waiter.get(), push(("granted", 2)))
            took = time.monotonic() - began
        most = 5 + 4 * rounds.longest
        if not 4 <= took <= most:
            raise Wrong(f"it ended after {took:.1f} seconds, and was to end between 4 and {most:.1f}")


def peer_that_answers_stays_beside_a_crowd(program):
    """However long the others' turns take, nobody ends as silent who wasn't pinged, or answered and wasn't read."""
    with Daemon(program, "--loops", "1", "--idle", "1") as daemon:
        crowd = Crowd(daemon)
        peer = daemon.opened(timeout=PATIENCE)
        expect("the lock", peer.ask(request(1)), asked(1, 1, ("granted", 1)))
        with crowd:
            end = time.monotonic() + 12
            while time.monotonic() < end or peer.pings < 2:
                kind, body = peer.frame()
                expect("the kind of the frame", kind, PING)
                peer.pings += 1
                peer.send(body, PONG)
            expect("whether the crowd is there", crowd.is_alive(), True)
            expect("its release", peer.ask(release(2, 1)), released(2))


def crowd_checks(program):
    for name, check in [
        ("a silent peer is ended beside a crowd", silent_peer_ends_beside_a_crowd),
        ("a peer that answers pings stays beside a crowd", peer_that_answers_stays_beside_a_crowd),
    ]:
        yield name, lambda c=check: c(program)
