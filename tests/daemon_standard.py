"""A daemon whose standard input, output or error is closed: nothing that it opens is taken for that."""

import os
import subprocess

from daemon_log import TWO_ORIGINS
from daemon_server import Daemon
from daemon_socket_files import at, lock_of, socket_path
from running import SECONDS, expect


def closing(number):
    """What starts a program with a standard descriptor closed."""
    return ["sh", "-c", f'exec "$@" {number}>&-', "sh"]


def started(program, number, endpoint):
    words = [*closing(number), program, "daemon", "--listen", endpoint, "--while-input"]
    return subprocess.run(words, capture_output=True, stdin=subprocess.DEVNULL, timeout=SECONDS)


def closed_input(program):
    """It has ended, so a daemon that goes on while there is input ends at once."""
    ended = started(program, 0, "127.0.0.1:0")
    expect("the status", ended.returncode, 0)
    expect("how it begins", ended.stdout[:20], b"listening 127.0.0.1:")


def closed_output(program):
    """Where it listens can't be told, and stands in no file of the socket's either."""
    with socket_path() as path:
        ended = started(program, 1, at(path))
        expect("the status", ended.returncode, 1)
        expect("what it says", ended.stderr, b"weblocks: cannot write after connection 0\n")
        expect("the bytes of the lock's file", os.path.getsize(lock_of(path)), 0)


def closed_error(program):
    """No line of the log stands in the file of the socket's lock."""
    with socket_path() as path:
        with Daemon(program, listen=at(path), before=closing(2)) as daemon:
            expect("the status of a handshake", daemon.peer(*TWO_ORIGINS).status, 400)
            expect("how it ends", daemon.end(), (0, ""))
        expect("the bytes of the lock's file", os.path.getsize(lock_of(path)), 0)


def standard_checks(program):
    for name, check in [
        ("a daemon whose standard input is closed", closed_input),
        ("a daemon whose standard output is closed", closed_output),
        ("a daemon whose standard error is closed", closed_error),
    ]:
        yield name, lambda c=check: c(program)
