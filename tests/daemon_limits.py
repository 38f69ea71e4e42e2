"""What may be used up of a daemon, what is left over of whoever was there, and its own end."""

import json
import resource
import socket
import time

from daemon_pushes import asked, request
from daemon_server import MEGABYTE, PUSH, Daemon, framed, handshake, until_true, within
from running import Wrong, expect

# The origins, one after another, that are opened and closed in one piece.
BATCH = 500
# How many of them there are, where no other number is asked for. A million takes minutes.
ORIGINS = 50_000
# So many handshakes at once are told that there is no place.
TURNED_AWAY = 64

def no_place(program):
    with Daemon(program, "--connections", "3") as daemon:
        there = [daemon.opened() for _ in range(3)]
        expect("the status", daemon.peer().status, 503)
        there.pop().leave()
        until_true("a place is free", lambda: daemon.peer().status == 101)


def no_place_for_an_address(program):
    with Daemon(program, "--per-address", "2") as daemon:
        there = [daemon.peer(source="127.0.0.2") for _ in range(2)]
        expect("the statuses", [peer.status for peer in there], [101, 101])
        expect("the status", daemon.peer(source="127.0.0.2").status, 503)
        expect("another's status", daemon.peer(source="127.0.0.3").status, 101)


def no_place_to_be_told(program):
    """Of those for whom there is no place 64 at once are told so. Further connections are closed without an answer."""
    with Daemon(program, "--connections", "1") as daemon:
        there = daemon.opened()
        late = [socket.create_connection(("127.0.0.1", daemon.port), 20) for _ in range(TURNED_AWAY)]
        with socket.create_connection(("127.0.0.1", daemon.port), 20) as last:
            expect("what the last one gets", last.recv(100), b"")
        for peer in late:
            peer.sendall(handshake())
            expect("the status", peer.recv(1000)[9:12], b"503")
            peer.close()
        expect("another's status", daemon.peer().status, 503)
        there.leave()
        expect("whether the log says so", "dropped: no place" in daemon.end()[1], True)


def no_files(program):
    """Where no file is left for a connection, those that are there are served, and accepting goes on later."""
    with Daemon(program, "--loops", "2") as daemon:
        peer = daemon.opened()
        soft, hard = resource.prlimit(daemon.child.pid, resource.RLIMIT_NOFILE)
        resource.prlimit(daemon.child.pid, resource.RLIMIT_NOFILE, (daemon.files(), hard))
        late = socket.create_connection(("127.0.0.1", daemon.port), 20)
        time.sleep(1.2)
        expect("the reply", peer.ask('{"id":1,"op":"poll"}'), '{"id":1,"notices":[],"ok":{}}')
        resource.prlimit(daemon.child.pid, resource.RLIMIT_NOFILE, (soft, hard))
        late.sendall(b"GET / HTTP/1.1\r\n\r\n")
        late.settimeout(10)
        expect("the one that waited is answered, or ended", late.recv(100)[:0], b"")
        late.close()
        expect("the status", daemon.peer().status, 101)


def too_many_buckets(program):
    """An `open` beyond them ends its connection, and one is free again when its last agent has closed."""
    with Daemon(program, "--managers", "2") as daemon:
        first, _second = daemon.opened("https://a.test/"), daemon.opened("https://b.test/")
        third = daemon.peer()
        third.send('{"id":1,"op":"open","url":"https://c.test/"}')
        expect("the code", third.close_code(), 1013)
        expect("whether it has a reason", third.reason != "", True)
        more = daemon.peer().ask('{"id":1,"op":"open","url":"https://b.test/"}')
        expect("a further agent's reply", more, '{"id":1,"notices":[],"ok":{"client":"client-2"}}')
        expect("the reply", first.ask('{"id":1,"op":"close"}'), '{"id":1,"notices":[],"ok":{}}')
        opened = daemon.peer().ask('{"id":1,"op":"open","url":"https://c.test/"}')
        expect("the reply", opened, '{"id":1,"notices":[],"ok":{"client":"client-1"}}')


def numbers_begin_again(program):
    with Daemon(program) as daemon:
        for how in ("close", "leave", "drop"):
            peer = daemon.opened()
            expect("the reply", peer.ask(request(1)), asked(1, 1, ("granted", 1)))
            if how == "close":
                peer.ask('{"id":2,"op":"close"}')
            elif how == "leave":
                peer.leave()
            else:
                peer.drop()
            until_true("the first agent is the first again", lambda: first_agent(daemon) == "client-1")
        stays, leaves = daemon.opened(), daemon.opened()
        leaves.ask('{"id":1,"op":"signal"}')
        leaves.leave()
        reply = stays.ask('{"id":1,"op":"signal"}')
        expect("the next signal of one that stayed", reply, '{"id":1,"notices":[],"ok":{"signal":2}}')


def first_agent(daemon):
    """The name of an agent that opens, and closes."""
    peer = daemon.peer()
    client = json.loads(peer.ask('{"id":1,"op":"open","url":"https://a.test/"}'))["ok"]["client"]
    peer.ask('{"id":2,"op":"close"}')
    return client


def many_origins_one_after_another(program, origins):
    """They leave memory as it was after the first of them."""
    opened, closed = '{"id":1,"notices":[],"ok":{"client":"client-1"}}', '{"id":2,"notices":[],"ok":{}}'
    replies = (framed(opened, mask=0) + framed(closed, mask=0)) * BATCH
    close = framed('{"id":2,"op":"close"}')
    with Daemon(program, "--loops", "1") as daemon:
        peer, after_some = daemon.peer(), None
        for start in range(0, origins, BATCH):
            numbers = range(start, start + BATCH)
            opens = [framed('{"id":1,"op":"open","url":"https://o%d.test/"}' % n) for n in numbers]
            peer.sock.sendall(b"".join(it + close for it in opens))
            if peer.exactly(len(replies)) != replies:
                raise Wrong("an origin did not begin with its first agent")
            if start == 20 * BATCH:
                after_some = daemon.memory()
        if daemon.memory() - after_some > MEGABYTE:
            raise Wrong(f"memory grew by {daemon.memory() - after_some} bytes over {origins} origins")


def too_many_agents(program):
    """The 4,097th agent of a bucket is refused, and its connection stays."""
    with Daemon(program) as daemon:
        soft, hard = resource.getrlimit(resource.RLIMIT_NOFILE)
        resource.setrlimit(resource.RLIMIT_NOFILE, (min(hard, 20000), hard))
        try:
            peers = [daemon.peer() for _ in range(4097)]
            for number, peer in enumerate(peers, 1):
                reply = peer.ask('{"id":1,"op":"open","url":"https://a.test/"}')
                if number <= 4096:
                    expect("the reply", reply, '{"id":1,"notices":[],"ok":{"client":"client-%d"}}' % number)
                else:
                    expect("the reply", json.loads(reply)["error"], {"name": "Limit", "rule": "agents"})
            expect("the reply", peers[-1].ask("{"), '{"error":{"name":"BadJson","rule":"json"},"id":null,"notices":[]}')
            for peer in peers:
                peer.drop()
        finally:
            resource.setrlimit(resource.RLIMIT_NOFILE, (soft, hard))


def dropped_connections_leave_nothing(program):
    """Files and memory are as before after many connections that ended in each way."""
    with Daemon(program, "--loops", "2") as daemon:
        def come_and_go(count):
            for n in range(count):
                peer = daemon.opened(f"https://o{n % 7}.test/", PUSH)
                peer.ask(request(1))
                if n % 3 == 0:
                    peer.leave()
                elif n % 3 == 1:
                    peer.drop()
                else:
                    peer.send("x", mask=0)
                    peer.drop()

        come_and_go(300)
        time.sleep(1)
        files, before = daemon.files(), daemon.memory()
        come_and_go(1500)
        until_true("each file is closed", lambda: daemon.files() <= files, 10)
        if daemon.memory() - before > 2 * MEGABYTE:
            raise Wrong(f"memory grew by {daemon.memory() - before} bytes")


# ---- the server's own end


def end_of_the_input(program):
    """Each peer gets a close frame, 1001, and the status is 0."""
    with Daemon(program, "--loops", "2") as daemon:
        peers = [daemon.opened() for _ in range(6)]
        daemon.child.stdin.close()
        expect("the codes", [peer.close_code() for peer in peers], [1001] * 6)
        daemon.child.wait(10)
        expect("the status", daemon.child.returncode, 0)


def end_with_a_peer_that_does_not_read(program):
    with Daemon(program) as daemon:
        peer = daemon.opened(room=16384)
        for n in range(50):
            peer.ask(request(n, "n" * 1000 + str(n)))
        daemon.fill(peer, b"".join(framed('{"id":%d,"op":"query"}' % n) for n in range(300)))
        began = time.monotonic()
        daemon.child.stdin.close()
        daemon.child.wait(20)
        within("the end", time.monotonic() - began, 0, 3)
        expect("the status", daemon.child.returncode, 0)


def limit_checks(program, origins=ORIGINS):
    for name, check in [
        ("no place for a connection", no_place),
        ("no place for an address", no_place_for_an_address),
        ("no place to be told that there is none", no_place_to_be_told),
        ("no file for a connection", no_files),
        ("too many buckets", too_many_buckets),
        ("numbers begin at 1 again", numbers_begin_again),
        (f"{origins:,} origins, one after another", lambda it: many_origins_one_after_another(it, origins)),
        ("4,096 agents of a bucket and no more", too_many_agents),
        ("connections that were dropped leave nothing", dropped_connections_leave_nothing),
        ("the end of the input", end_of_the_input),
        ("the end, with a peer that does not read", end_with_a_peer_that_does_not_read),
    ]:
        yield name, lambda c=check: c(program)
