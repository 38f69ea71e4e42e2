"""A daemon that listens on a Unix socket: who comes over it, beside TCP, and what is refused at the start."""

import os
import resource
import socket
import tempfile
import time

from daemon_admission import bearer, may, open_of, origin, refused, token_file, write
from daemon_pushes import POLL, POLLED, URL, asked, hands_over, push, release, released, request
from daemon_server import PUSH, UNIX, Daemon, Peer, framed, until_true, within
from daemon_socket_files import at, cannot, socket_path
from running import SECONDS, expect, run_on

LOCAL = "127.0.0.1:0"
# The thefts of a lock between both listeners.
TURNS = 200


def is_listening_on_tcp(pid):
    """Whether a process has a TCP socket that listens."""
    links = [os.readlink(entry.path) for entry in os.scandir(f"/proc/{pid}/fd")]
    for name in ("tcp", "tcp6"):
        with open(f"/proc/{pid}/net/{name}") as file:
            for line in list(file)[1:]:
                words = line.split()
                if words[3] == "0A" and f"socket:[{words[9]}]" in links:
                    return True
    return False


# ---- over the socket


def locks_over_the_socket(program):
    with socket_path() as path, Daemon(program, "--loops", "2", listen=at(path)) as daemon:
        hands_over(daemon.opened(URL, PUSH), daemon.opened(URL, PUSH))
        daemon.opened().leave()
        expect("whether it listens on TCP", is_listening_on_tcp(daemon.child.pid), False)
        expect("the lines", daemon.endpoints, [at(path)])


def beside_tcp(program):
    """The lines come in the order of the endpoints, the status last; a lock goes from one listener to the other."""
    with socket_path() as path, socket_path() as other:
        for listen in ([at(path), LOCAL], [LOCAL, at(path)], [at(path), LOCAL, at(other), LOCAL]):
            with Daemon(program, "--status", LOCAL, listen=listen) as daemon:
                kinds = [it.startswith(UNIX) for it in daemon.endpoints]
                expect("which lines are of sockets", kinds, [it.startswith(UNIX) for it in listen])
                last = daemon.child.stdout.readline()
                expect("whether the next line is of the status", last.startswith(b"status 127.0.0.1:"), True)
                for number, place in enumerate(daemon.endpoints):
                    here, there = f"https://o{number}.test/", f"https://p{number}.test/"
                    hands_over(peer_at(place, here), daemon.opened(here, PUSH, unix=path))
                    hands_over(daemon.opened(there, PUSH, unix=path), peer_at(place, there))


def peer_at(place, url):
    """A peer that opened, at an endpoint as a daemon prints it."""
    if place.startswith(UNIX):
        peer = Peer(None, PUSH, unix=place.removeprefix(UNIX))
    else:
        peer = Peer(int(place.rpartition(":")[2]), PUSH)
    peer.ask('{"id":0,"op":"open","url":"%s"}' % url)
    return peer


def moves_between_loops(program):
    """A lock that goes back and forth between both listeners, whose connections come to be on one loop."""
    with socket_path() as path, Daemon(program, "--loops", "2", listen=[LOCAL, at(path)]) as daemon:
        holder, waiter = daemon.opened(URL, PUSH), daemon.opened(URL, PUSH, unix=path)
        expect("the first reply", holder.ask(request(1)), asked(1, 1, ("granted", 1)))
        for held in range(1, TURNS):
            expect("the reply", waiter.ask(request(1)), asked(1, held + 1))
            expect("the release", holder.ask(release(2, held)), released(2))
            expect("the push", waiter.get(), push(("granted", held + 1)))
            holder, waiter = waiter, holder


def tokens_are_not_asked(program):
    """With a token file TCP wants a token and the socket doesn't, also once the file was read again."""
    page = origin(URL.rstrip("/"))
    with token_file("one\n") as tokens, socket_path() as path:
        with Daemon(program, "--token-file", tokens, listen=[LOCAL, at(path)]) as daemon:
            admitted_as_ever(daemon, path, page, "one")
            write(tokens, "two\n")
            until_true("the new token is one", lambda: daemon.peer(bearer("two")).status == 101, 12)
            expect("the old one", daemon.peer(bearer("one")).status, 401)
            admitted_as_ever(daemon, path, page, "two")


def admitted_as_ever(daemon, path, page, token):
    expect("the status over TCP without one", daemon.peer().status, 401)
    expect("with one", daemon.peer(bearer(token)).status, 101)
    for headers in ([], [bearer("unknown")], [bearer(token)]):
        peer = daemon.peer(*headers, unix=path)
        expect("the status over the socket", peer.status, 101)
        expect("the reply", "ok" in peer.ask(open_of("https://c.test/")), True)
    for url, wanted in [(URL, True), ("https://b.test/", False)]:
        expect(f"whether a page of its own may open {url}", may(daemon, url, page, unix=path), wanted)


def pages_over_the_socket(program):
    """`Origin` is looked at as ever: of a page that is trusted, of one that isn't, and twice."""
    with socket_path() as path, Daemon(program, "--allow-origin", "https://b.test", listen=at(path)) as daemon:
        expect("a trusted page", may(daemon, URL, origin("https://b.test")), True)
        expect("another page", may(daemon, URL, origin("https://c.test")), False)
        expect("an opaque one", may(daemon, URL, origin("null")), False)
        expect("the status with two", daemon.peer(origin(URL), origin(URL)).status, 400)


def fences_over_the_socket(program):
    offer = "Sec-WebSocket-Protocol: weblocks.fence"
    with socket_path() as path:
        for options, wanted in [(["--epoch", "3"], True), ([], False)]:
            with Daemon(program, *options, listen=at(path)) as daemon:
                expect("whether it is selected", "weblocks.fence" in daemon.peer(offer).head, wanted)


def places(program):
    """Peers of the socket count as one address, and not as the loopback address."""
    with socket_path() as path:
        with Daemon(program, "--per-address", "2", listen=[LOCAL, at(path)]) as daemon:
            there = [daemon.peer(unix=path) for _ in range(2)]
            expect("the statuses", [peer.status for peer in there], [101, 101])
            expect("one more", daemon.peer(unix=path).status, 503)
            over_tcp = [daemon.peer() for _ in range(2)]
            expect("the statuses over TCP", [peer.status for peer in over_tcp], [101, 101])
            expect("one more", daemon.peer().status, 503)
            there.pop().leave()
            until_true("a place is free", lambda: daemon.peer(unix=path).status == 101)
            log = daemon.end()[1]
            for sender in ("unix", "127.0.0.1"):
                expect("whether the log tells where from", f"{sender}: refused: too many" in log, True)


def ends_of_peers(program):
    """Pings, the end of a silent peer and close frames are as over TCP."""
    with socket_path() as path, Daemon(program, "--idle", "1", listen=at(path)) as daemon:
        since, silent = time.monotonic(), daemon.opened()
        silent.answers_pings = False
        expect("the code for a silent peer", silent.close_code(), 0)
        within("until a silent peer was ended", time.monotonic() - since, 2, 3)
        expect("whether it was pinged", silent.pings > 0, True)
        broken = daemon.opened()
        broken.send("x", mask=0)
        expect("the code for a frame without a mask", broken.close_code(), 1002)
        long = daemon.opened()
        long.send("x" * 65537)
        expect("the code for a message that is too long", long.close_code(), 1009)


def no_files_are_left(program):
    """Where no file is left for a connection, those that are there are served, and accepting goes on later."""
    with socket_path() as path, Daemon(program, "--loops", "2", listen=at(path)) as daemon:
        peer = daemon.opened()
        soft, hard = resource.prlimit(daemon.child.pid, resource.RLIMIT_NOFILE)
        resource.prlimit(daemon.child.pid, resource.RLIMIT_NOFILE, (daemon.files(), hard))
        late = socket.socket(socket.AF_UNIX)
        late.connect(path)
        time.sleep(1.2)
        expect("the reply", peer.ask(POLL), POLLED)
        resource.prlimit(daemon.child.pid, resource.RLIMIT_NOFILE, (soft, hard))
        late.sendall(b"GET / HTTP/1.1\r\n\r\n")
        late.settimeout(SECONDS)
        expect("the one that waited is answered, or ended", late.recv(100)[:0], b"")
        late.close()
        expect("the status", daemon.peer().status, 101)


def descriptors_are_not_taken(program):
    """Those that a peer sends along are closed, and its messages are answered."""
    with socket_path() as path, Daemon(program, "--loops", "1", listen=at(path)) as daemon:
        peer = daemon.opened()
        files = daemon.files()
        with tempfile.TemporaryFile() as file:
            for _ in range(10):
                socket.send_fds(peer.sock, [framed(POLL)], [file.fileno()] * 5)
                expect("the reply", peer.get(), POLLED)
        expect("its files", daemon.files(), files)
        peer.leave()


# ---- what is refused at the start


def beyond_the_machine(program):
    """Each address is looked at, wherever it stands, and then nothing is there."""
    with socket_path() as path:
        for listen in (["0.0.0.0:0"], [LOCAL, "0.0.0.0:0"], [at(path), LOCAL, "[::]:0"], ["0.0.0.0:0", at(path)]):
            words = [word for it in listen for word in ("--listen", it)]
            bad = next(it for it in listen if it.startswith(("0", "[::]")))
            refused(program, words, f"weblocks: {bad} is reached from other machines")
        expect("what is there", os.listdir(os.path.dirname(path)), [])
        with Daemon(program, "--open", listen=[at(path), "0.0.0.0:0"]) as daemon:
            expect("its address", daemon.host, "0.0.0.0")


def one_that_is_taken(program):
    """Where one endpoint can't be had nothing is served, and no socket is left."""
    with socket_path() as path, Daemon(program) as daemon:
        taken = f"127.0.0.1:{daemon.port}"
        for listen in ([at(path), taken], [taken, at(path)]):
            words = [word for it in listen for word in ("--listen", it)]
            refused(program, words, f"weblocks: cannot listen on {taken}\n")
            expect("whether there is a socket", os.path.exists(path), False)
        refused(program, ["--listen", at(path), "--listen", at(path)], cannot(path, "somebody listens there"))
        expect("whether there is a socket", os.path.exists(path), False)
        with open("/dev/full", "wb") as full:
            ended = run_on([program, "daemon", "--listen", at(path)], stdout=full)
        expect("the end", (ended.status, ended.err), (1, b"weblocks: cannot write after connection 0\n"))
        expect("whether there is a socket", os.path.exists(path), False)


def unix_checks(program):
    for name, check in [
        ("locks over a socket alone", locks_over_the_socket),
        ("a socket beside TCP", beside_tcp),
        ("a lock between a socket and TCP, again and again", moves_between_loops),
        ("no token over a socket", tokens_are_not_asked),
        ("pages over a socket", pages_over_the_socket),
        ("fences over a socket", fences_over_the_socket),
        ("places over a socket", places),
        ("ends over a socket", ends_of_peers),
        ("no file left at a socket", no_files_are_left),
        ("descriptors sent along over a socket", descriptors_are_not_taken),
        ("each address beyond the machine", beyond_the_machine),
        ("one endpoint that is taken", one_that_is_taken),
    ]:
        yield name, lambda c=check: c(program)
