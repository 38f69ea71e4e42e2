"""The built program as a server, and as a client of one."""

import json
import os
import socket
import subprocess
import time
from contextlib import ExitStack
from pathlib import Path

from running import SECONDS, Ended, Running, Wrong, expect, expect_end, read_line, run_on, run_whole, text

SCRIPTS = Path(__file__).resolve().parent / "scripts"
SCRIPT = SCRIPTS / "a_lock_is_held_and_released"
BY_CONNECTIONS = [
    "origins_share_nothing",
    "buckets_of_an_origin_share_nothing",
    "bad_buckets_open_nothing",
    "a_signal_may_be_aborted_with_a_code",
    "aborts_end_requests_with_their_own_codes",
    "codes_are_whole_numbers_up_to_65535",
]


def free_port() -> int:
    with socket.socket() as it:
        it.bind(("127.0.0.1", 0))
        return int(it.getsockname()[1])


class Serving:
    """The program as a server of so many clients, which listens; the words before it may run it otherwise."""

    def __init__(self, program, clients, before=()):
        self.port = free_port()
        words = [*before, program, "serve", "--port", str(self.port), "--clients", str(clients)]
        self.child = subprocess.Popen(words, stdout=subprocess.PIPE, stderr=subprocess.PIPE)
        self.line = read_line(self.child.stdout.fileno(), time.monotonic() + SECONDS)

    def end(self):
        try:
            out, err = self.child.communicate(timeout=SECONDS)
        except subprocess.TimeoutExpired:
            raise Wrong(f"the server did not end in {SECONDS} seconds")
        return Ended(self.child.returncode, out, err)

    def __enter__(self):
        try:
            expect("its first line", self.line, b"listening %d\n" % self.port)
        except Wrong:
            self.__exit__()
            raise
        return self

    def __exit__(self, *_):
        if self.child.poll() is None:
            self.child.kill()
            self.child.communicate()


class Client(Running):
    """The program as a client, which is asked line by line."""

    def __init__(self, program, port):
        self.replies, out = os.pipe()
        try:
            super().__init__([program, "client", "--port", str(port)], out)
        finally:
            os.close(out)

    def ask(self, line):
        self.give(line)
        return read_line(self.replies, time.monotonic() + SECONDS)

    def __exit__(self, *why):
        super().__exit__(*why)
        os.close(self.replies)


def client_gets_the_replies(program):
    """A script of one agent, whose member `agent` a message doesn't need."""
    with Serving(program, 1) as server:
        client = [program, "client", "--port", str(server.port)]
        script, wanted = (SCRIPT.with_suffix(it).read_bytes() for it in (".in", ".out"))
        expect_end(run_whole(client, script), wanted)
        expect_end(server.end(), b"served 1 failed 0\n")


def agents_get_the_replies(program, script):
    """A script of several agents, each by a connection of its own."""
    lines, replies = (script.with_suffix(it).read_bytes().splitlines(keepends=True) for it in (".in", ".out"))
    speakers = [json.loads(line)["agent"] for line in lines]
    with ExitStack() as stack:
        server = stack.enter_context(Serving(program, len(set(speakers))))
        clients = {it: stack.enter_context(Client(program, server.port)) for it in set(speakers)}
        for speaker, line, reply in zip(speakers, lines, replies):
            expect("the reply to " + text(line), clients[speaker].ask(line), reply)
        for client in clients.values():
            expect_end(client.end(), b"")
        expect_end(server.end(), b"served %d failed 0\n" % len(clients))


def locks_end_with_their_connection(program):
    """Another client is granted the lock of one that left."""
    script = b"".join(line + b"\n" for line in SCRIPT.with_suffix(".in").read_bytes().split(b"\n")[:2])
    with Serving(program, 2) as server:
        client = [program, "client", "--port", str(server.port)]
        for number in (1, 2):
            opened = b'{"id":1,"notices":[],"ok":{"client":"client-%d"}}\n' % number
            granted = b'{"id":2,"notices":[{"phase":"granted","request":%d}],"ok":{"request":%d}}\n'
            expect_end(run_whole(client, script), opened + granted % (number, number))
        expect_end(server.end(), b"served 2 failed 0\n")


def broken_handshake(program):
    with Serving(program, 1) as server:
        with socket.create_connection(("127.0.0.1", server.port), SECONDS) as peer:
            peer.sendall(b"no handshake\r\n\r\n")
            peer.shutdown(socket.SHUT_WR)
            while peer.recv(4096):
                pass
        expect_end(server.end(), b"served 1 failed 1\n")


def port_is_taken(program):
    with socket.socket() as taken:
        taken.bind(("127.0.0.1", 0))
        taken.listen()
        port = taken.getsockname()[1]
        ended = run_on([program, "serve", "--port", str(port), "--clients", "10000"])
        expect_end(ended, b"", 1, b"weblocks: cannot listen on port %d\n" % port)


def nobody_serves(program, port):
    ended = run_on([program, "client", "--port", str(port)])
    expect_end(ended, b"", 1, b"weblocks: cannot connect to port %d\n" % port)


def network_checks(program):
    yield "a client gets the replies of its script", lambda: client_gets_the_replies(program)
    for name in BY_CONNECTIONS:
        yield f"{name}, by connections", lambda s=SCRIPTS / name: agents_get_the_replies(program, s)
    yield "locks end with their connection", lambda: locks_end_with_their_connection(program)
    yield "a broken handshake", lambda: broken_handshake(program)
    yield "a port that is taken", lambda: port_is_taken(program)
    yield "a port that nobody serves", lambda: nobody_serves(program, free_port())
    yield "the smallest port", lambda: nobody_serves(program, 1)
    yield "the largest port", lambda: nobody_serves(program, 65535)
