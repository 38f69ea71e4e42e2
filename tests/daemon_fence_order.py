"""Fencing tokens: each is stepped after its lock was seen granted, and before the lock is taken.

Another order shows only where other loops have a lock granted and taken between two instructions of a loop. So the loop
of one peer is run instruction by instruction, and held behind each atomic one, since others can see no order but
theirs, until two peers of another loop have handed the lock on, or stolen it.
"""

import ctypes
import json
import os
import select
import time

from daemon_pushes import POLL, URL, release, request
from daemon_server import Daemon
from running import SECONDS, Wrong, expect

FENCE = "Sec-WebSocket-Protocol: weblocks.fence"
PTRACE_PEEKUSER, PTRACE_CONT, PTRACE_SINGLESTEP, PTRACE_DETACH = 3, 7, 9, 17
PTRACE_SEIZE, PTRACE_INTERRUPT = 0x4206, 0x4207
ANY_THREAD = 0x40000000
# Where x86-64 has the instruction pointer among a thread's registers.
POINTER = 16 * 8
# The bytes of instructions: what may stand before one, and what an atomic one begins with.
LOCK, EXCHANGES, REGISTERS = 0xF0, (0x86, 0x87), 0xC0
PREFIXES, WIDE = (0x26, 0x2E, 0x36, 0x3E, 0x64, 0x65, 0x66, 0xF2, 0xF3), range(0x40, 0x50)
LONGEST = 15
# The seconds for which the loop is held at most: where it has the manager's lock, others can do nothing meanwhile.
HELD = 1.0
# How often it is looked which thread serves a peer.
TRIES = 20
# The seconds of a turn at most, and the places behind which the loop is held at least while others do theirs.
TURN, PLACES = 120, 12


def is_atomic(code):
    """Whether these bytes begin with an instruction that reads and writes memory in one step."""
    at = 0
    while code[at] in PREFIXES:
        at += 1
    if code[at] == LOCK:
        return True
    if code[at] in WIDE:
        at += 1
    return code[at] in EXCHANGES and code[at + 1] < REGISTERS


def program_code(pid):
    """The addresses at which a process has its program's instructions."""
    program = os.readlink(f"/proc/{pid}/exe")
    with open(f"/proc/{pid}/maps") as file:
        for line in file:
            if " r-xp " in line and line.endswith(f" {program}\n"):
                first, last = line.split()[0].split("-")
                return range(int(first, 16), int(last, 16))
    raise Wrong(f"{program} has no instructions")


class Stepped:
    """A thread of a daemon, which can be run instruction by instruction."""

    def __init__(self, daemon, thread):
        self.thread, self.libc = thread, ctypes.CDLL(None, use_errno=True)
        self.libc.ptrace.argtypes = [ctypes.c_long, ctypes.c_int, ctypes.c_void_p, ctypes.c_void_p]
        self.libc.ptrace.restype = ctypes.c_long
        self.memory, self.atomic = os.open(f"/proc/{daemon.child.pid}/mem", os.O_RDONLY), {}
        self.code = program_code(daemon.child.pid)

    def trace(self, what):
        if self.libc.ptrace(what, self.thread, None, None) != 0:
            raise Wrong(f"a thread can't be traced: {os.strerror(ctypes.get_errno())}")

    def stop(self):
        self.trace(PTRACE_INTERRUPT)
        os.waitpid(self.thread, ANY_THREAD)

    def step(self):
        """Runs one instruction, and answers its place where it is an atomic one of the program's own."""
        place = self.libc.ptrace(PTRACE_PEEKUSER, self.thread, POINTER, None)
        if place not in self.atomic:
            self.atomic[place] = place in self.code and is_atomic(os.pread(self.memory, LONGEST, place))
        self.trace(PTRACE_SINGLESTEP)
        os.waitpid(self.thread, ANY_THREAD)
        return place if self.atomic[place] else None

    def run_behind_another(self, known, is_done):
        """Runs on behind an atomic instruction at a place that isn't known, which it answers; or until that is so."""
        end = time.monotonic() + TURN
        while not is_done():
            for _ in range(64):
                place = self.step()
                if place is not None and place not in known:
                    return place
            if time.monotonic() > end:
                raise Wrong(f"a turn goes on for {TURN} seconds")
        return None

    def __enter__(self):
        self.trace(PTRACE_SEIZE)
        return self

    def __exit__(self, *_):
        try:
            self.stop()
        finally:
            self.trace(PTRACE_DETACH)
            os.close(self.memory)


class Hold:
    """What others do while a loop is held. Where they can't, it goes on."""

    def __init__(self, loop):
        self.loop, self.is_held = loop, True

    def wait_for(self, peer, holds):
        """Takes in what a peer is told until something holds."""
        while not holds():
            if self.is_held and not peer.is_told(HELD):
                self.let_go()
            peer.hear()

    def let_go(self):
        if self.is_held:
            self.loop.trace(PTRACE_CONT)
        self.is_held = False


class Heard:
    """A peer, the number of its last request, and the tokens and the number of replies that it was told."""

    def __init__(self, peer):
        self.peer, self.number, self.tokens, self.replies = peer, 0, {}, 0

    def is_told(self, seconds=0.0):
        return bool(self.peer.buffer) or bool(select.select([self.peer.sock], [], [], seconds)[0])

    def hear(self):
        message = json.loads(self.peer.get())
        self.tokens.update((it["request"], it["fence"]) for it in message.get("fences", []))
        self.number = message["ok"].get("request", self.number)
        self.replies += message["id"] is not None

    def ask(self, text):
        before = self.replies
        self.peer.send(text)
        while self.replies == before:
            self.hear()

    def token(self):
        """That of its last request, once it is told."""
        while self.number not in self.tokens:
            self.hear()
        return self.tokens[self.number]


def is_answered_without(daemon, peer, thread, seconds):
    """Whether a peer is answered within these seconds while a thread is stopped."""
    with Stepped(daemon, thread) as stopped:
        stopped.stop()
        before = peer.replies
        peer.peer.send(POLL)
        is_answered = peer.is_told(seconds)
        stopped.trace(PTRACE_CONT)
        while peer.replies == before:
            peer.hear()
    return is_answered


def loop_of(daemon, peer):
    """The thread that serves a peer. On a loaded machine others may seem to, but not again and again."""
    found = {int(it) for it in os.listdir(f"/proc/{daemon.child.pid}/task")}
    for _ in range(TRIES):
        found = {it for it in found if not is_answered_without(daemon, peer, it, HELD)}
        if len(found) == 1:
            return found.pop()
    raise Wrong(f"{len(found)} threads seem to serve a peer")


def peers_of_two_loops(daemon):
    """A peer alone on its loop, whose thread this is, and two on the other one: the loops get connections in turn."""
    peers = [Heard(daemon.opened(URL, FENCE)) for _ in range(4)]
    slow, first, _, second = peers
    thread = loop_of(daemon, slow)
    for it in (first, second):
        expect("whether it is served by another loop", is_answered_without(daemon, it, thread, SECONDS), True)
    return thread, slow, first, second


def in_each_order(program, prepare, go_on):
    """A peer asks for a lock, again and again, and its loop is held behind another place each time."""
    with Daemon(program, "--epoch", "1", "--loops", "2") as daemon:
        thread, slow, first, second = peers_of_two_loops(daemon)
        known, held = set(), 0
        with Stepped(daemon, thread) as loop:
            while True:
                name = f"lock {len(known)}"
                prepare(name, first, second)
                # What other loops tell it draws a connection there, and what its peer sends keeps it.
                for _ in range(8):
                    slow.ask(POLL)
                loop.stop()
                hold, before = Hold(loop), slow.replies
                slow.peer.send(request(1, name))
                place = loop.run_behind_another(known, slow.is_told)
                if place is None:
                    hold.let_go()
                held += go_on(name, hold, slow, before, first, second)
                if place is None:
                    break
                known.add(place)
    expect(f"whether {held} of {len(known)} are places enough", held >= PLACES, True)


def ask_both(name, first, second):
    """The first holds the lock, and the second waits."""
    first.ask(request(1, name))
    second.ask(request(1, name))


def hand_on(name, hold, slow, before, first, second):
    """The first gives up the lock, and then the second: it was granted before the slow one's was."""
    first.peer.send(release(2, first.number))
    hold.wait_for(second, lambda: second.number in second.tokens)
    replies = second.replies
    second.peer.send(release(2, second.number))
    hold.wait_for(second, lambda: second.replies > replies)
    was_held = hold.is_held
    hold.let_go()
    first.hear()
    while slow.replies == before:
        slow.hear()
    expect(f"the greater token of {name}", max(second.token(), slow.token()), slow.token())
    return was_held


def ask_none(name, first, second):
    """The lock is free."""


def steal(name, hold, slow, before, first, second):
    """The second steals the lock: where the slow one asked before, its lock was granted before, if it was."""
    replies = second.replies
    second.peer.send('{"id":3,"op":"request","name":"%s","options":{"steal":true}}' % name)
    hold.wait_for(second, lambda: second.replies > replies)
    was_held = hold.is_held
    hold.let_go()
    while slow.replies == before:
        slow.hear()
    slow.ask(POLL)
    if slow.number < second.number and slow.number in slow.tokens:
        expect(f"the greater token of {name}", max(second.token(), slow.token()), second.token())
    return was_held


def fence_order_checks(program):
    for name, prepare, go_on in [
        ("a token's step, while the lock goes on", ask_both, hand_on),
        ("a token's step, while the lock is stolen", ask_none, steal),
    ]:
        yield name, lambda p=prepare, g=go_on: in_each_order(program, p, g)
