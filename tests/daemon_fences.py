"""Fencing tokens: who is told them, their bytes, and that of two locks that exclude each other the later has a greater.

A theft is granted as it is asked for, under the manager's lock, where requests get their numbers. So the numbers of
thefts of one name are the order of their grants.
"""

import json
import os
import re
import threading

from daemon_pushes import URL, asked, push, release, released, request
from daemon_server import CLOSE, PUSH, Daemon, framed, run_at_once
from running import Wrong, expect

FENCE = "Sec-WebSocket-Protocol: weblocks.fence"
EPOCH = 1234
# The thefts of one name; tests/run_daemon --grants has others.
GRANTS = 1_000_000
LOOPS, PEERS = 4, 8
# The thefts of a connection. With more of them it would be drawn to the loop where all meet that have one lock in turn.
BATCH = 100
TOLD = re.compile(rb'"fence":"([0-9a-f]{16}-[0-9a-f]{16})","request":([0-9]+)')


def word(token, epoch=EPOCH):
    return f"{epoch:016x}-{token:016x}"


def fenced(text, *fences, epoch=EPOCH):
    """A text with the tokens of these requests, as its first member."""
    told = ",".join('{"fence":"%s","request":%d}' % (word(token, epoch), number) for number, token in fences)
    return '{"fences":[%s],%s' % (told, text[1:])


def in_replies_and_pushes(program):
    with Daemon(program, "--epoch", str(EPOCH)) as daemon:
        first, second = daemon.opened(URL, FENCE), daemon.opened(URL, FENCE)
        expect("a reply that grants", first.ask(request(1)), fenced(asked(1, 1, ("granted", 1)), (1, 1)))
        expect("a reply that doesn't", second.ask(request(1)), asked(1, 2))
        expect("the release", first.ask(release(2, 1)), released(2))
        expect("the push", second.get(), fenced(push(("granted", 2)), (2, 2)))
        expect("a poll after it", second.ask('{"id":9,"op":"poll"}'), '{"id":9,"notices":[],"ok":{}}')
        thief = first.ask('{"id":3,"op":"request","name":"db","options":{"steal":true}}')
        expect("a theft", thief, fenced(asked(3, 3, ("granted", 3)), (3, 3)))
        expect("the push to whom it was stolen from", second.get(), push(("stolen", 2)))


def several_in_one_message(program):
    """A peer that waits for three names, which its neighbour gives up by closing."""
    with Daemon(program, "--epoch", str(EPOCH)) as daemon:
        holder, waiter = daemon.opened(URL), daemon.opened(URL, FENCE)
        for n, name in enumerate("abc"):
            holder.ask(request(n, name))
            waiter.ask(request(n, name))
        holder.ask('{"id":9,"op":"close"}')
        told = []
        while len(told) < 3:
            message = json.loads(waiter.get())
            granted = [it["request"] for it in message["notices"]]
            expect("the requests with tokens", [it["request"] for it in message["fences"]], granted)
            told += [it["fence"] for it in message["fences"]]
        expect("the tokens", sorted(told), [word(n) for n in (1, 2, 3)])


def for_those_who_selected_them(program):
    """Others are told the same bytes as without an epoch."""
    with Daemon(program, "--epoch", str(EPOCH)) as daemon:
        pushed, polled = daemon.opened(URL, PUSH), daemon.opened(URL)
        expect("a reply with pushes", pushed.ask(request(1)), asked(1, 1, ("granted", 1)))
        expect("a reply", polled.ask(request(1, "other")), asked(1, 2, ("granted", 2)))
    with Daemon(program) as daemon:
        peer = daemon.opened(URL, "Sec-WebSocket-Protocol: weblocks.fence, weblocks.push")
        expect("a reply without an epoch", peer.ask(request(1)), asked(1, 1, ("granted", 1)))


def an_agent_that_opens_again(program):
    """Over the same connection, which another agent's keeps its bucket for."""
    with Daemon(program, "--epoch", str(EPOCH)) as daemon:
        other, peer = daemon.opened(URL), daemon.opened(URL, FENCE)
        expect("the first token", peer.ask(request(1)), fenced(asked(1, 1, ("granted", 1)), (1, 1)))
        peer.ask('{"id":2,"op":"close"}')
        peer.ask('{"id":3,"op":"open","url":"%s"}' % URL)
        expect("the next token", peer.ask(request(4)), fenced(asked(4, 2, ("granted", 2)), (2, 2)))
        other.leave()


def counts_of_buckets_are_one(program):
    """One counter is the whole daemon's, whatever the origin."""
    with Daemon(program, "--epoch", str(EPOCH), "--loops", "4") as daemon:
        for n in range(1, 9):
            peer = daemon.opened(f"https://{n}.test/", FENCE)
            expect("the token", json.loads(peer.ask(request(1)))["fences"], [{"fence": word(n), "request": 1}])


class Thief(threading.Thread):
    """Steals one name again and again, over one connection after another."""

    def __init__(self, daemon, count):
        super().__init__()
        self.server, self.count = daemon, count
        self.tokens, self.fault = [], None

    def run(self):
        try:
            for _ in range(self.count // BATCH):
                self.tokens += tokens_of_thefts(self.server)
        except Exception as fault:
            self.fault = fault


def tokens_of_thefts(daemon):
    """What a connection was told that steals as often as it stays on its loop, and ends: numbers with their tokens."""
    peer = daemon.peer(FENCE)
    steal = framed('{"id":1,"op":"request","name":"db","options":{"steal":true}}')
    peer.sock.sendall(framed('{"id":0,"op":"open","url":"%s"}' % URL) + steal * BATCH + framed(b"", CLOSE))
    told = [peer.buffer]
    while data := peer.sock.recv(65536):
        told.append(data)
    peer.drop()
    text = b"".join(told)
    expect("the replies", text.count(b'"ok":{"request":'), BATCH)
    found = [(int(number), token.decode()) for token, number in TOLD.findall(text)]
    expect("the grants that were told", text.count(b'"phase":"granted"'), len(found))
    return found


def work_of_loops(daemon):
    """The processor time of each loop so far, in the system's ticks."""
    ticks = []
    for thread in os.listdir(f"/proc/{daemon.child.pid}/task"):
        with open(f"/proc/{daemon.child.pid}/task/{thread}/stat") as file:
            words = file.read().rpartition(") ")[2].split()
        ticks.append(int(words[11]) + int(words[12]))
    return sorted(ticks)[-LOOPS:]


def thieves(program, grants):
    """In the order of the grants the tokens grow, across loops, all of which are at it."""
    with Daemon(program, "--epoch", str(EPOCH), "--loops", str(LOOPS), "--idle", "600") as daemon:
        # (its agent keeps the bucket, and so the numbers of its requests; it is silent for as long as the thieves take)
        watcher = daemon.opened(URL)
        found = [Thief(daemon, grants // PEERS) for _ in range(PEERS)]
        run_at_once(found)
        work = work_of_loops(daemon)
        watcher.leave()
    expect(f"whether each loop did its part, of {work}", min(work) * 4 * LOOPS > sum(work), True)
    by_number = sorted(told for it in found for told in it.tokens)
    expect("whether most were told", len(by_number) > grants // 2, True)
    for (number, token), (later, greater) in zip(by_number, by_number[1:]):
        if token >= greater:
            raise Wrong(f"request {number} has the token {token}, and the later one {later} has {greater}")


def hand_overs(program):
    """The tokens of a lock that goes round."""
    with Daemon(program, "--epoch", str(EPOCH), "--loops", "4") as daemon:
        peers = [daemon.opened(URL, FENCE) for _ in range(4)]
        last = ""
        for turn in range(200):
            holder = peers[turn % 4]
            told = json.loads(holder.ask(request(turn)))
            expect("whether the token is greater", told["fences"][0]["fence"] > last, True)
            last = told["fences"][0]["fence"]
            holder.ask(release(turn, told["ok"]["request"]))


def fence_checks(program, grants):
    for name, check in [
        ("tokens in replies and pushes", in_replies_and_pushes),
        ("several tokens in one message", several_in_one_message),
        ("tokens for those who selected them", for_those_who_selected_them),
        ("tokens of an agent that opens again", an_agent_that_opens_again),
        ("one counter for all origins", counts_of_buckets_are_one),
        ("tokens of a lock that goes round", hand_overs),
        ("tokens among thieves", lambda it: thieves(it, grants)),
    ]:
        yield name, lambda c=check: c(program)
