"""A daemon that listens on a Unix socket: the socket's file and its lock, stale ones, and two daemons at once."""

import os
import socket
import stat
import subprocess
import tempfile
from contextlib import contextmanager

from daemon_admission import OPENED, open_of, refused, write
from daemon_pushes import POLL, POLLED, URL
from daemon_server import UNIX, Daemon, Peer, until_true
from running import SECONDS, expect, run_on

# The bytes of the longest path that a socket may have.
LONGEST_PATH = 107
# The pairs of daemons that are started at once.
PAIRS = 20


@contextmanager
def socket_path():
    with tempfile.TemporaryDirectory() as folder:
        yield os.path.join(folder, "socket")


def at(path):
    return UNIX + path


def lock_of(path):
    return path + ".lock"


def mode_of(path):
    return stat.S_IMODE(os.lstat(path).st_mode)


@contextmanager
def umask(mask):
    before = os.umask(mask)
    try:
        yield
    finally:
        os.umask(before)


def cannot(path, why):
    return f"weblocks: cannot listen on {at(path)}: {why}\n"


def refused_at(program, path, why, *more):
    """It is refused with one line, and status 1."""
    ended = run_on([program, "daemon", "--listen", at(path), *more])
    expect("the status", ended.status, 1)
    expect("standard output", ended.out, b"")
    expect("standard error", ended.err, cannot(path, why).encode())


def modes(program):
    """The socket's file is for its owner and group, whatever the umask is, and the lock's for no other."""
    for mask in (0, 0o022, 0o177):
        with socket_path() as path, umask(mask), Daemon(program, listen=at(path)) as daemon:
            expect("whether it is a socket", stat.S_ISSOCK(os.lstat(path).st_mode), True)
            expect("its mode", oct(mode_of(path)), oct(0o660))
            expect("the lock's mode", oct(mode_of(lock_of(path)) & 0o117), oct(0))
            expect("the reply", daemon.peer().ask(open_of(URL)), OPENED)


def orderly_end(program):
    """The socket's file is removed, and the lock's stays. What was put in its place stays too."""
    with socket_path() as path:
        for _ in range(3):
            with Daemon(program, listen=at(path)) as daemon:
                peer = daemon.opened()
                status, _ = daemon.end()
                expect("the status", status, 0)
                expect("the code", peer.close_code(), 1001)
            expect("what is left", os.listdir(os.path.dirname(path)), ["socket.lock"])
        with Daemon(program, listen=at(path)) as daemon:
            os.remove(path)
            write(path, "mine\n")
            expect("the status", daemon.end()[0], 0)
        with open(path) as file:
            expect("what was put in its place", file.read(), "mine\n")


def stale_files(program):
    """A socket on which nobody listens is replaced: of a daemon that was killed, and of another program."""
    with socket_path() as path:
        with Daemon(program, listen=at(path)) as daemon:
            daemon.child.kill()
            daemon.child.wait()
        expect("whether its file is there", os.path.exists(path), True)
        with Daemon(program, listen=at(path)) as daemon:
            expect("the reply", daemon.peer().ask(open_of(URL)), OPENED)
            daemon.end()
        with socket.socket(socket.AF_UNIX) as listener:
            listener.bind(path)
            listener.listen()
        os.chmod(path, 0o600)
        with Daemon(program, listen=at(path)) as daemon:
            expect("its mode", oct(mode_of(path)), oct(0o660))
            expect("the reply", daemon.peer().ask(open_of(URL)), OPENED)


def live_sockets(program):
    """A socket on which somebody listens is refused, and listens on: another program's, and a daemon's."""
    with socket_path() as path, socket.socket(socket.AF_UNIX) as listener:
        listener.bind(path)
        listener.listen()
        there = os.lstat(path)
        refused_at(program, path, "somebody listens there")
        expect("its file", (os.lstat(path).st_ino, os.lstat(path).st_mode), (there.st_ino, there.st_mode))
        expect("what is beside it", os.listdir(os.path.dirname(path)), ["socket"])
        with socket.socket(socket.AF_UNIX) as peer:
            peer.connect(path)
    with socket_path() as path, Daemon(program, listen=at(path)) as daemon:
        peer, there = daemon.opened(), os.lstat(path)
        refused_at(program, path, "somebody listens there")
        expect("its file", (os.lstat(path).st_ino, os.lstat(path).st_mode), (there.st_ino, there.st_mode))
        expect("the reply", peer.ask(POLL), POLLED)
        expect("another's reply", daemon.peer().ask(open_of("https://b.test/")), OPENED)
        os.remove(path)
        refused_at(program, path, "another server has its lock")


def other_things(program):
    """A file, a folder, a pipe and links are refused and left as they are."""
    with socket_path() as path:
        folder = os.path.dirname(path)
        write(path, "mine\n", 0o640)
        refused_at(program, path, "something is there that is no socket")
        with open(path) as file:
            expect("the file", (file.read(), oct(mode_of(path))), ("mine\n", oct(0o640)))
        other = os.path.join(folder, "other")
        for make in (os.mkdir, os.mkfifo, lambda it: os.symlink(path, it), lambda it: os.symlink("nothing", it)):
            make(other)
            there = os.lstat(other)
            refused_at(program, other, "something is there that is no socket")
            expect("it", os.lstat(other), there)
            expect("what is beside it", sorted(os.listdir(folder)), ["other", "socket"])
            (os.rmdir if stat.S_ISDIR(there.st_mode) else os.remove)(other)


def paths(program):
    """The longest path serves; one that is longer, empty or nowhere is refused."""
    with tempfile.TemporaryDirectory() as folder:
        longest = os.path.join(folder, "s" * (LONGEST_PATH - len(folder) - 1))
        with Daemon(program, listen=at(longest)) as daemon:
            expect("the line", daemon.endpoints, [at(longest)])
            expect("the reply", daemon.peer().ask(open_of(URL)), OPENED)
            daemon.end()
        expect("what is left", os.listdir(folder), [os.path.basename(lock_of(longest))])
        nowhere = os.path.join(folder, "no", "such")
        for path in (longest + "s", longest + "s" * 4000, "", nowhere):
            ended = run_on([program, "daemon", "--listen", at(path)])
            expect("whether it was refused", ended.status in (1, 2), True)
            expect("standard output", ended.out, b"")
            expect("whether that is told", ended.err.strip() != b"", True)
            if ended.status == 1:
                expect("the lines", ended.err.count(b"\n"), 1)
        refused_at(program, nowhere, "its lock cannot be opened: entity not found")


def locks_that_cannot_be_had(program):
    with socket_path() as path:
        os.mkdir(lock_of(path))
        refused_at(program, path, "its lock cannot be opened: is a directory")
        expect("whether there is a socket", os.path.exists(path), False)


def two_at_once(program):
    """Of two that start at once one serves, and the other is refused: by the lock, or by the socket."""
    pipes = dict(stdin=subprocess.PIPE, stdout=subprocess.PIPE, stderr=subprocess.PIPE)
    with socket_path() as path:
        words = [program, "daemon", "--listen", at(path), "--while-input", "--log", "off"]
        for number in range(PAIRS):
            if number % 2:
                with socket.socket(socket.AF_UNIX) as stale:
                    stale.bind(path)
            both = [subprocess.Popen(words, **pipes) for _ in range(2)]
            try:
                one_serves(both, path)
            finally:
                for child in both:
                    if child.poll() is None:
                        child.kill()
                    child.communicate()
            expect("whether the socket is left", os.path.exists(path), False)


def one_serves(both, path):
    until_true("one was refused", lambda: any(child.poll() is not None for child in both))
    refused, serving = sorted(both, key=lambda child: child.poll() is None)
    out, err = refused.communicate(timeout=SECONDS)
    expect("the status of the one", (refused.returncode, out), (1, b""))
    reasons = ("another server has its lock", "somebody listens there")
    if err.decode() not in [cannot(path, why) for why in reasons]:
        expect("why it was refused", err.decode(), cannot(path, " or ".join(reasons)))
    expect("the line of the other", serving.stdout.readline().decode(), f"listening {at(path)}\n")
    expect("the reply", Peer(None, unix=path).ask(open_of(URL)), OPENED)
    _, err = serving.communicate(timeout=SECONDS)
    expect("its end", (serving.returncode, err), (0, b""))


def socket_file_checks(program):
    for name, check in [
        ("the modes of a socket and its lock", modes),
        ("a socket at an orderly end", orderly_end),
        ("stale sockets are replaced", stale_files),
        ("sockets that are in use are refused", live_sockets),
        ("what is no socket is refused", other_things),
        ("paths of sockets", paths),
        ("a socket's lock that cannot be had", locks_that_cannot_be_had),
        ("two daemons at once at a socket", two_at_once),
    ]:
        yield name, lambda c=check: c(program)
