"""The log of a daemon: which lines it has, in their order, and that nobody waits for whoever reads it."""

import fcntl
import re
import resource
import socket
import time

from daemon_server import Daemon
from running import expect

# By this request a pipe is given another size (Linux), and the least that it may have.
SET_PIPE_SIZE, PAGE = 1031, 4096
# The lines that wait for whoever reads the log, at most.
WAITING = 1024
# A handshake that is refused, and its line.
TWO_ORIGINS = ("Origin: https://a.test", "Origin: https://b.test")
INFO = "[INFO  weblocks]"
REFUSED = f"{INFO} 127.0.0.1: refused: "


def refuse(daemon, count):
    """So many handshakes are refused, one after another."""
    for _ in range(count):
        peer = daemon.peer(*TWO_ORIGINS)
        expect("the status", peer.status, 400)
        peer.drop()


def all_lines(program):
    with Daemon(program, "--loops", "2") as daemon:
        refuse(daemon, 40)
        status, err = daemon.end()
    lines = err.splitlines()
    expect("the status", status, 0)
    expect("how it begins", lines[:2], [f"{INFO} listening on {daemon.endpoints[0]}", f"{INFO} started: 2 loops"])
    expect("the refusals", [it.startswith(REFUSED) for it in lines[2:-1]], [True] * 40)
    expect("how it ends", lines[-1], f"{INFO} stopped")


def nobody_reads(program):
    """The loop that has lines for it serves on, and those for which there is no room are counted."""
    # More than the pipe and the queue have room for.
    refusals = PAGE // len(REFUSED) + WAITING + 200
    with Daemon(program, "--loops", "1") as daemon:
        fcntl.fcntl(daemon.child.stderr.fileno(), SET_PIPE_SIZE, PAGE)
        there = daemon.opened()
        refuse(daemon, refusals)
        expect("the reply", there.ask('{"id":1,"op":"poll"}'), '{"id":1,"notices":[],"ok":{}}')
        there.leave()
        status, err = daemon.end()
    lines = err.splitlines()
    lost = [int(it[1]) for it in re.finditer(r"^\[WARN  weblocks\] lost (\d+) lines of this log, ", err, re.M)]
    told = len([it for it in lines if it.startswith(REFUSED)])
    expect("the status", status, 0)
    expect("whether some were lost", sum(lost) > 0, True)
    expect("whether as many waited as may", told >= WAITING, True)
    expect("those that were told, and those that were lost", told + sum(lost), refusals)
    expect("how it ends", lines[-1], f"{INFO} stopped")


def no_file_is_left(program):
    """What waits to be accepted is tried again, twice a second, and why it can't be is told once."""
    with Daemon(program, "--loops", "1") as daemon:
        # Once it answers, it has the files that it begins with.
        daemon.opened().leave()
        files = resource.prlimit(daemon.child.pid, resource.RLIMIT_NOFILE)
        # Fewer than are open: those stay, and no other can be opened.
        resource.prlimit(daemon.child.pid, resource.RLIMIT_NOFILE, (3, files[1]))
        with socket.create_connection(("127.0.0.1", daemon.port)):
            time.sleep(3)
            resource.prlimit(daemon.child.pid, resource.RLIMIT_NOFILE, files)
            daemon.opened().leave()
        status, err = daemon.end()
    told = [it for it in err.splitlines() if "cannot accept" in it]
    expect("the status", status, 0)
    expect("what is told", told, ["[WARN  weblocks] cannot accept connections: too many open files"])


def log_checks(program):
    for name, check in [
        ("the lines of the log, in their order", all_lines),
        ("a log that nobody reads holds nobody up", nobody_reads),
        ("why no connection can be accepted is told once", no_file_is_left),
    ]:
        yield name, lambda c=check: c(program)
