"""Pushes: a peer that asked for `weblocks.push` is told of its requests without asking, once and between messages."""

import json
import random
import re
import socket
import threading
import time

from daemon_server import PUSH, Closed, Daemon, framed, run_at_once, until_true
from running import Wrong, expect

URL = "https://a.test/"


def request(number, name="db", mode="exclusive"):
    return json.dumps({"id": number, "op": "request", "name": name, "options": {"mode": mode}})


def release(number, lock):
    return json.dumps({"id": number, "op": "release", "request": lock})


def asked(number, request, *notices):
    told = ",".join('{"phase":"%s","request":%d}' % notice for notice in notices)
    return '{"id":%d,"notices":[%s],"ok":{"request":%d}}' % (number, told, request)


def released(number):
    return '{"id":%d,"notices":[],"ok":{"release":"released"}}' % number


def push(*notices):
    told = ",".join('{"phase":"%s","request":%d}' % notice for notice in notices)
    return '{"id":null,"notices":[%s],"ok":{}}' % told


POLL = '{"id":9,"op":"poll"}'
POLLED = '{"id":9,"notices":[],"ok":{}}'


def hands_over(first, second):
    """The lock goes from one to the other, who is told once."""
    expect("the first reply", first.ask(request(1)), asked(1, 1, ("granted", 1)))
    expect("the second reply", second.ask(request(1)), asked(1, 2))
    second.has_nothing(0.1)
    expect("the release", first.ask(release(2, 1)), released(2))
    expect("the push", second.get(), push(("granted", 2)))
    expect("the poll after it", second.ask(POLL), POLLED)


def on_one_loop(program):
    with Daemon(program, "--loops", "1") as daemon:
        hands_over(daemon.opened(URL, PUSH), daemon.opened(URL, PUSH))


def across_loops(program):
    """Connections go to the loops in turn: of eight on four loops each has one beside it, and six on others."""
    with Daemon(program, "--loops", "4") as daemon:
        peers = [daemon.opened(URL, PUSH) for _ in range(8)]
        number = 0
        for teller in peers:
            for waiter in peers:
                if waiter is teller:
                    continue
                held, waits = number + 1, number + 2
                number += 2
                expect("a reply", teller.ask(request(1)), asked(1, held, ("granted", held)))
                expect("a reply", waiter.ask(request(1)), asked(1, waits))
                expect("the release", teller.ask(release(2, held)), released(2))
                expect("the push", waiter.get(), push(("granted", waits)))
                expect("the release", waiter.ask(release(2, waits)), released(2))


def none_without_the_subprotocol(program):
    with Daemon(program) as daemon:
        holder, waiter = daemon.opened(URL, PUSH), daemon.opened(URL)
        expect("the selected subprotocol", "weblocks.push" in waiter.head, False)
        expect("the selected subprotocol", "Sec-WebSocket-Protocol: weblocks.push".lower() in holder.head.lower(), True)
        holder.ask(request(1))
        waiter.ask(request(1))
        holder.ask(release(2, 1))
        waiter.has_nothing()
        expect("the poll", waiter.ask(POLL), POLLED.replace("[]", '[{"phase":"granted","request":2}]'))


def in_the_middle_of_a_frame(program):
    """A push comes while half of a frame, and then one part of a message, is there."""
    with Daemon(program) as daemon:
        holder, waiter = daemon.opened(URL, PUSH), daemon.opened(URL, PUSH)
        for part in ("half", "first"):
            lock = int(json.loads(holder.ask(request(1)))["ok"]["request"])
            mine = int(json.loads(waiter.ask(request(1)))["ok"]["request"])
            frame = framed(POLL)
            if part == "half":
                waiter.sock.sendall(frame[:10])
            else:
                waiter.send(POLL[:10], final=0)
            time.sleep(0.1)
            expect("the release", holder.ask(release(2, lock)), released(2))
            expect("the push", waiter.get(), push(("granted", mine)))
            if part == "half":
                waiter.sock.sendall(frame[10:])
            else:
                waiter.send(POLL[10:], kind=0)
            expect("the reply", waiter.get(), POLLED)
            waiter.ask(release(3, mine))


def to_a_peer_that_unblocks(program):
    """More waits for a peer than its stream takes, and a push behind it: it comes once, between two replies."""
    with Daemon(program) as daemon:
        holder, waiter = daemon.opened(URL, PUSH), daemon.opened(URL, PUSH, room=16384)
        for n in range(50):
            holder.ask(request(n, "n" * 1000 + str(n), "shared"))
        lock = json.loads(holder.ask(request(60)))["ok"]["request"]
        mine = json.loads(waiter.ask(request(60)))["ok"]["request"]
        daemon.fill(waiter, b"".join(framed('{"id":%d,"op":"query"}' % n) for n in range(300)))
        expect("the release", holder.ask(release(61, lock)), released(61))
        waiter.widen()
        got = [json.loads(waiter.get()) for _ in range(301)]
        told = [(it["id"], it["notices"]) for it in got if it["notices"]]
        expect("what is told", told, [(None, [{"phase": "granted", "request": mine}])])
        expect("the ids in their order", [it["id"] for it in got if it["id"] is not None], list(range(300)))
        expect("the poll after it", waiter.ask(POLL), POLLED)


def a_thousand_grants_to_one_peer(program):
    with Daemon(program) as daemon:
        holder, waiter = daemon.opened(URL), daemon.opened(URL, PUSH)
        locks = range(1, 1001)
        for peer in (holder, waiter):
            peer.sock.sendall(b"".join(framed(request(n, f"name {n}")) for n in locks))
            for _ in locks:
                peer.get()
        holder.sock.sendall(b"".join(framed(release(n, n)) for n in locks))
        granted = []
        while len(granted) < 1000:
            it = json.loads(waiter.get())
            expect("the push's id", it["id"], None)
            granted += [(notice["phase"], notice["request"]) for notice in it["notices"]]
        expect("what was granted", sorted(granted), [("granted", 1000 + n) for n in locks])
        expect("the poll after it", waiter.ask(POLL), POLLED)


def a_push_and_an_end_at_once(program):
    """A waiter goes away while its grant is on its way: the lock goes on to the next."""
    with Daemon(program, "--loops", "2") as daemon:
        holder = daemon.opened(URL, PUSH)
        last = daemon.opened(URL, PUSH)
        for turn in range(200):
            lock = json.loads(holder.ask(request(1)))["ok"]["request"]
            gone = daemon.opened(URL, PUSH)
            gone.ask(request(1))
            mine = json.loads(last.ask(request(1)))["ok"]["request"]
            if turn % 2:
                gone.drop()
                holder.send(release(2, lock))
            else:
                holder.send(release(2, lock))
                gone.drop()
            expect("the release", holder.get(), released(2))
            expect("the push", last.get(), push(("granted", mine)))
            expect("the release", last.ask(release(3, mine)), released(3))


def many_messages_are_answered_in_order(program):
    with Daemon(program) as daemon:
        peer = daemon.opened(URL, PUSH)
        peer.sock.sendall(b"".join(framed('{"id":%d,"op":"poll"}' % n) for n in range(2000)))
        ids = [json.loads(peer.get())["id"] for _ in range(2000)]
        expect("the ids", ids, list(range(2000)))


def a_lock_that_is_stolen(program):
    with Daemon(program) as daemon:
        holder, thief = daemon.opened(URL, PUSH), daemon.opened(URL, PUSH)
        holder.ask(request(1))
        thief.ask('{"id":1,"op":"request","name":"db","options":{"steal":true}}')
        expect("the push", holder.get(), push(("stolen", 1)))


def each_waiter_in_turn(program):
    """64 connections hand one lock round, each told by a push, over several loops."""
    with Daemon(program, "--loops", "4") as daemon:
        peers = [daemon.opened(URL, PUSH) for _ in range(64)]
        mine = [json.loads(peer.ask(request(1)))["ok"]["request"] for peer in peers]
        for turn in range(len(peers) * 3):
            holder, waiter = peers[turn % 64], peers[(turn + 1) % 64]
            expect("the release", holder.ask(release(2, mine[turn % 64])), released(2))
            expect("the push", waiter.get(), push(("granted", mine[(turn + 1) % 64])))
            mine[turn % 64] = json.loads(holder.ask(request(1)))["ok"]["request"]


def hand_round(peers, mine, turns):
    """The lock goes from each peer to the next, so many times. Each asks for it again at once."""
    count = len(peers)
    for turn in range(turns):
        holder, waiter = peers[turn % count], peers[(turn + 1) % count]
        holder.send(release(2, mine[turn % count]))
        holder.send(request(3))
        expect("the push", waiter.get(), push(("granted", mine[(turn + 1) % count])))
        expect("the release", holder.get(), released(2))
        mine[turn % count] = json.loads(holder.get())["ok"]["request"]


def moves(err):
    """The loops to which connections moved, by what the daemon wrote."""
    return [int(loop) for loop in re.findall("moved to loop ([0-9]+)", err)]


def a_meeting_on_one_loop(program):
    """Connections go to the loops in turn, so two of eight are on each of four. Those that hand a lock over meet on one
    of these, and those with a name of their own stay where they are."""
    with Daemon(program, "--loops", "4", "--log", "debug") as daemon:
        peers = [daemon.opened(URL, PUSH) for _ in range(8)]
        others = [daemon.opened(URL, PUSH) for _ in range(4)]
        mine = [json.loads(peer.ask(request(1)))["ok"]["request"] for peer in peers]
        for _ in range(10):
            hand_round(peers, mine, 80)
            for n, other in enumerate(others):
                lock = json.loads(other.ask(request(1, f"own {n}")))["ok"]["request"]
                expect("the release", other.ask(release(2, lock)), released(2))
        status, err = daemon.end()
        expect("the status", status, 0)
        expect("how many moved, and to how many loops", (len(moves(err)), len(set(moves(err)))), (6, 1))


def none_moves_without_pushes(program):
    """Connections that poll, one loop, and a lock that goes over now and then among messages of other kinds."""
    with Daemon(program, "--loops", "1", "--log", "debug") as daemon:
        peers = [daemon.opened(URL, PUSH) for _ in range(4)]
        hand_round(peers, [json.loads(peer.ask(request(1)))["ok"]["request"] for peer in peers], 200)
        expect("the moves", moves(daemon.end()[1]), [])
    with Daemon(program, "--loops", "4", "--log", "debug") as daemon:
        peers = [daemon.opened(URL, PUSH) for _ in range(4)]
        mine = [json.loads(peer.ask(request(1)))["ok"]["request"] for peer in peers]
        for _ in range(50):
            for peer in peers:
                for _ in range(4):
                    expect("a poll", peer.ask(POLL), POLLED)
            hand_round(peers, mine, len(peers))
        expect("the moves", moves(daemon.end()[1]), [])


class Worker(threading.Thread):
    """Takes a name and gives it back, again and again; now and then it goes away, as it waits or with the lock."""

    def __init__(self, daemon, name, owners, cycles, seed):
        super().__init__()
        self.daemon_server, self.name_wanted, self.owners, self.cycles = daemon, name, owners, cycles
        self.random = random.Random(seed)
        self.fault = None

    def run(self):
        try:
            peer = self.daemon_server.opened(URL, PUSH)
            for cycle in range(self.cycles):
                leaves = self.random.choice(["waiting", "holding"]) if self.random.random() < 0.03 else None
                peer = self.cycle(peer, leaves)
            peer.drop()
        except Exception as fault:
            self.fault = fault

    def cycle(self, peer, leaves):
        peer.send(request(1, self.name_wanted))
        if leaves == "waiting":
            peer.drop()
            return self.daemon_server.opened(URL, PUSH)
        reply = json.loads(peer.get())
        mine, told = reply["ok"]["request"], reply["notices"]
        if not told:
            told = json.loads(peer.get())["notices"]
        expect("what is told", told, [{"phase": "granted", "request": mine}])
        before = self.owners.pop(self.name_wanted, None)
        self.owners[self.name_wanted] = self.ident
        expect("who has the lock before", before, None)
        self.owners.pop(self.name_wanted)
        if leaves == "holding":
            peer.drop()
            return self.daemon_server.opened(URL, PUSH)
        expect("the release", peer.ask(release(2, mine)), released(2))
        return peer


def moves_and_ends_at_once(program):
    """Nothing is lost or doubled where connections hand locks over, move and end, all at once: each waiter is told
    once, no lock has two owners, and in the end none is held or waited for."""
    with Daemon(program, "--loops", "4", "--log", "debug") as daemon:
        owners = {}
        run_at_once([Worker(daemon, f"name {n % 3}", owners, 150, n) for n in range(15)])
        last = daemon.opened(URL, PUSH)
        end = time.monotonic() + 10
        while time.monotonic() < end:
            ok = json.loads(last.ask('{"id":1,"op":"query"}'))["ok"]
            if ok == {"held": [], "pending": []}:
                break
            time.sleep(0.05)
        expect("what is left", ok, {"held": [], "pending": []})
        last.drop()
        status, err = daemon.end()
        expect("the status", status, 0)
        expect("whether connections moved", len(moves(err)) > 0, True)


def told_until_closed(peer):
    """What a peer is still told before its connection is closed, and the code that it is closed with."""
    told = []
    while True:
        try:
            told.append(peer.get())
        except Closed as closed:
            return told, closed.code


def an_end_among_moves(program):
    """The server ends as connections move, which is after some 16 hand-overs to each: every peer is told so.

    One loop may hear of the end after another: the lock of a peer that was ended there goes on to the next, who is told
    of that before the end, and once."""
    for turns in range(108, 148, 4):
        with Daemon(program, "--loops", "4") as daemon:
            peers = [daemon.opened(URL, PUSH) for _ in range(8)]
            mine = [json.loads(peer.ask(request(1)))["ok"]["request"] for peer in peers]
            hand_round(peers, mine, turns)
            status, _ = daemon.end()
            expect("the status", status, 0)
            for at, peer in enumerate(peers):
                told, code = told_until_closed(peer)
                expect("the code", code, 1001)
                has_lock = at == turns % len(peers)
                expect("what is told before", told in ([], [] if has_lock else [push(("granted", mine[at]))]), True)


def no_wake_for_an_own_change(program):
    """What a peer changes for itself wakes no loop: the only writes of the daemon beside those to its streams, which
    the system counts apart, are to wake one."""
    with Daemon(program, "--loops", "4", "--log", "off") as daemon:
        peers = [daemon.opened(URL, PUSH) for _ in range(8)]

        def writes():
            with open(f"/proc/{daemon.child.pid}/io") as file:
                return int(dict(line.split(": ") for line in file)["syscw"])

        before = writes()
        for n in range(100):
            for at, peer in enumerate(peers):
                peer.send(request(n, f"own {at}"))
            locks = [json.loads(peer.get())["ok"]["request"] for peer in peers]
            for lock, peer in zip(locks, peers):
                peer.send(release(n, lock))
            for peer in peers:
                expect("the release", peer.get(), released(n))
        expect("the wakes", writes() - before, 0)
        locks = [json.loads(peer.ask(request(1)))["ok"]["request"] for peer in peers[:2]]
        # A loop that is still awake, as on a loaded machine, isn't woken.
        until_true("whether the loops sleep", daemon.is_asleep)
        peers[0].ask(release(2, locks[0]))
        expect("the push", peers[1].get(), push(("granted", locks[1])))
        time.sleep(0.1)
        expect("whether a change for another wakes its loop", writes() - before, 1)


def the_end_of_a_peer_that_says_more(program):
    """A message and the end of the stream come together: the message is answered, and the agent ends at once."""
    with Daemon(program) as daemon:
        waiter = daemon.opened(URL, PUSH)
        for turn in range(50):
            holder = daemon.opened(URL)
            lock = json.loads(holder.ask(request(1)))["ok"]["request"]
            mine = json.loads(waiter.ask(request(1)))["ok"]["request"]
            holder.sock.sendall(framed(POLL))
            holder.sock.shutdown(socket.SHUT_WR)
            expect("the reply", holder.get(), POLLED)
            expect("the push", waiter.get(), push(("granted", mine)))
            expect("the release", waiter.ask(release(2, mine)), released(2))
            holder.drop()


def push_checks(program):
    for name, check in [
        ("a push on one loop", on_one_loop),
        ("pushes across loops", across_loops),
        ("no push without the subprotocol", none_without_the_subprotocol),
        ("a push in the middle of a frame", in_the_middle_of_a_frame),
        ("a push to a peer that unblocks", to_a_peer_that_unblocks),
        ("a thousand grants to one peer", a_thousand_grants_to_one_peer),
        ("a push and an end at once", a_push_and_an_end_at_once),
        ("many messages at once are answered in their order", many_messages_are_answered_in_order),
        ("a lock that is stolen is told by a push", a_lock_that_is_stolen),
        ("a lock goes round 64 waiters", each_waiter_in_turn),
        ("those that hand a lock over meet on one loop", a_meeting_on_one_loop),
        ("none moves for nothing", none_moves_without_pushes),
        ("moves, hand-overs and ends at once", moves_and_ends_at_once),
        ("the server ends among moves", an_end_among_moves),
        ("a peer's own change wakes no loop", no_wake_for_an_own_change),
        ("a message and the end of its stream at once", the_end_of_a_peer_that_says_more),
    ]:
        yield name, lambda c=check: c(program)
