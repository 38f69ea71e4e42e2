"""How connections are spread over a daemon's loops, by the descriptors that each loop's poll watches."""

import glob
import json
import os
import re

from daemon_pushes import URL, hand_round, request
from daemon_server import PUSH, Daemon, until_true
from running import expect


def link(pid, descriptor):
    """What a descriptor is of, as `socket:[12]`; nothing where it is closed."""
    try:
        return os.readlink(f"/proc/{pid}/fd/{descriptor}")
    except FileNotFoundError:
        return ""


def watched(daemon):
    """The sockets that the poll of each loop watches, from the first to the last. One that isn't theirs watches the
    daemon's input."""
    pid, polls = daemon.child.pid, []
    for path in sorted(glob.glob(f"/proc/{pid}/fdinfo/*"), key=lambda it: int(os.path.basename(it))):
        if link(pid, os.path.basename(path)) == "anon_inode:[eventpoll]":
            with open(path) as file:
                descriptors = re.findall(r"^tfd:\s*([0-9]+)", file.read(), re.MULTILINE)
            links = {link(pid, it) for it in descriptors}
            if "0" not in descriptors:
                polls.append({it for it in links if it.startswith("socket:")})
    return polls


class Spread:
    """What a daemon's loops serve beside its listener. Made before the first connection comes."""

    def __init__(self, daemon):
        self.daemon = daemon
        until_true("a loop has the listener", lambda: any(watched(daemon)))
        self.listeners = set().union(*watched(daemon))

    def counts(self):
        """How many connections each loop serves, the fewest first."""
        return sorted(len(it - self.listeners) for it in watched(self.daemon))

    def settles_at(self, *counts):
        """Waits until the loops serve so many, since a loop takes its connections in, and lets them go, in its turn."""
        until_true(f"the loops serve {counts}, not {self.counts()}", lambda: self.counts() == list(counts))

    def loop_of(self, peer):
        """The number of the loop that serves a peer, by the system's table of sockets."""
        theirs = peer.sock.getsockname()[1]
        with open("/proc/net/tcp") as file:
            for line in list(file)[1:]:
                fields = line.split()
                ports = [int(it.split(":")[1], 16) for it in fields[1:3]]
                if ports == [self.daemon.port, theirs]:
                    found = [n for n, it in enumerate(watched(self.daemon)) if f"socket:[{fields[9]}]" in it]
                    return found[0] if found else None
        return None


def evenly(program):
    with Daemon(program, "--loops", "4") as daemon:
        spread = Spread(daemon)
        _peers = [daemon.opened(URL) for _ in range(9)]
        spread.settles_at(2, 2, 2, 3)


def to_the_emptiest(program):
    """The peers of one loop leave, all but one. So many others come, and that loop serves them."""
    with Daemon(program, "--loops", "2") as daemon:
        spread = Spread(daemon)
        peers = [daemon.opened(URL) for _ in range(8)]
        spread.settles_at(4, 4)
        loop = spread.loop_of(peers[0])
        for peer in [it for it in peers if spread.loop_of(it) == loop][1:]:
            peer.leave()
        spread.settles_at(1, 4)
        more = [daemon.opened(URL) for _ in range(3)]
        spread.settles_at(4, 4)
        expect("the loops of those that came", [spread.loop_of(it) for it in more], [loop] * 3)


def beside_those_that_moved(program):
    """Peers that hand a lock round meet on one loop, and count there: those that come then go to the other one."""
    with Daemon(program, "--loops", "2") as daemon:
        spread = Spread(daemon)
        peers = [daemon.opened(URL, PUSH) for _ in range(4)]
        mine = [json.loads(peer.ask(request(1)))["ok"]["request"] for peer in peers]
        hand_round(peers, mine, 80)
        spread.settles_at(0, 4)
        loop = spread.loop_of(peers[0])
        more = [daemon.opened(URL) for _ in range(4)]
        spread.settles_at(4, 4)
        expect("the loops of those that came", [spread.loop_of(it) for it in more], [1 - loop] * 4)
        for peer in peers:
            peer.leave()
        spread.settles_at(0, 4)
        last = daemon.opened(URL)
        expect("the loop of the last one", spread.loop_of(last), loop)


def load_checks(program):
    for name, check in [
        ("connections are spread evenly over the loops", evenly),
        ("a connection goes to the loop that has the fewest", to_the_emptiest),
        ("a connection that moved counts where it is", beside_those_that_moved),
    ]:
        yield name, lambda c=check: c(program)
