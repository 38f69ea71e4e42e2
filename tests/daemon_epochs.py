"""The epoch of a daemon's fencing tokens: its options, the file that keeps it, and the subprotocol that wants it."""

import os
import subprocess
import tempfile
import time
from contextlib import ExitStack, contextmanager

from daemon_admission import protocols, refused
from daemon_server import Daemon
from running import SECONDS, expect, read_line

GREATEST = 2**63 - 1
AT_ONCE = 8
ANYWHERE = ["--listen", "127.0.0.1:0"]


@contextmanager
def epoch_file(text=None):
    """The path of a file with this text, or of none, alone in its folder."""
    with tempfile.TemporaryDirectory() as folder:
        path = os.path.join(folder, "epoch")
        if text is not None:
            with open(path, "wb") as file:
                file.write(text)
        yield path


def content(path):
    with open(path, "rb") as file:
        return file.read()


def each_start_is_one_more(program):
    for text, wanted in [
        (None, 1),
        (b"0", 1),
        (b"1\n", 2),
        (b"41", 42),
        (b"0099\n", 100),
        (b"%d" % (GREATEST - 1), GREATEST),
    ]:
        with epoch_file(text) as path:
            with Daemon(program, "--epoch-file", path):
                expect(f"what the file has after {text!r}, once the daemon listens", content(path), b"%d\n" % wanted)
                expect("what is beside it", sorted(os.listdir(os.path.dirname(path))), ["epoch", "epoch.lock"])
    with epoch_file() as path:
        for start in range(1, 4):
            with Daemon(program, "--epoch-file", path):
                expect("the epoch of a start", content(path), b"%d\n" % start)


def starts_at_once(program):
    """None fails, and no two have one epoch: each has made the file's one greater."""
    for _ in range(5):
        with epoch_file() as path, ExitStack() as begun:
            words = [program, "daemon", *ANYWHERE, "--while-input", "--epoch-file", path]
            pipes = dict(stdin=subprocess.PIPE, stdout=subprocess.PIPE, stderr=subprocess.DEVNULL)
            children = [begun.enter_context(subprocess.Popen(words, **pipes)) for _ in range(AT_ONCE)]
            for child in children:
                line = read_line(child.stdout.fileno(), time.monotonic() + SECONDS)
                expect("how it begins", line[:10], b"listening ")
            expect("what the file has", content(path), b"%d\n" % AT_ONCE)


def a_path_without_a_folder(program):
    with epoch_file(b"6\n") as path:
        with Daemon(program, "--epoch-file", "epoch", before=["env", "-C", os.path.dirname(path)]):
            expect("what the file has", content(path), b"7\n")


def bad_files_stay(program):
    words = [b"", b"\n", b"x", b"+1", b"-1", b"1 ", b" 1", b"1\n\n", b"1\r\n", b"0x1", b"\xff"]
    for text in [*words, b"%d" % (GREATEST + 1), b"9" * 40]:
        with epoch_file(text) as path:
            refused(program, [*ANYWHERE, "--epoch-file", path], "weblocks: epoch file: not a number")
            expect("the file", content(path), text)
            expect("what is beside it", os.listdir(os.path.dirname(path)), ["epoch"])
    with epoch_file(b"%d\n" % GREATEST) as path:
        refused(program, [*ANYWHERE, "--epoch-file", path], "weblocks: epoch file: at the greatest epoch")
        expect("the file", content(path), b"%d\n" % GREATEST)


def files_that_cannot_be(program):
    with epoch_file() as path:
        refused(program, [*ANYWHERE, "--epoch-file", path + "/no/such"], "weblocks: epoch file: cannot be ")
        os.mkfifo(path + ".pipe")
        for other in [os.path.dirname(path), path + ".pipe", "/dev/zero"]:
            refused(program, [*ANYWHERE, "--epoch-file", other], "weblocks: epoch file: not a regular file")
    with epoch_file(b"5\n") as path:
        # A new file would take the link's place, and not that of what it leads to.
        os.symlink(path, path + ".link")
        refused(program, [*ANYWHERE, "--epoch-file", path + ".link"], "weblocks: epoch file: not a regular file")
        expect("whether the link is there", os.path.islink(path + ".link"), True)
        expect("the file", content(path), b"5\n")
    with epoch_file(b"0" * 4_096) as path:
        with Daemon(program, "--epoch-file", path):
            expect("what the file has", content(path), b"1\n")
    with epoch_file(b"0" * 4_097) as path:
        refused(program, [*ANYWHERE, "--epoch-file", path], "weblocks: epoch file: not a number")
    with epoch_file(b"5\n") as path:
        # Nothing can be written beside it.
        os.mkdir(path + ".new")
        refused(program, [*ANYWHERE, "--epoch-file", path], "weblocks: epoch file: cannot be written")
        expect("the file", content(path), b"5\n")


def a_start_that_is_refused_takes_no_epoch(program):
    for words, line in [
        (["--allow-origin", "x"], "not an origin: x"),
        (["--status", "0.0.0.0:0"], "--token-file"),
    ]:
        with epoch_file(b"5\n") as path:
            refused(program, [*ANYWHERE, *words, "--epoch-file", path], line)
            expect("the file", content(path), b"5\n")


def selected(daemon, *names):
    peer = daemon.peer(protocols(*names))
    expect(f"the status of {names}", peer.status, 101)
    name = "sec-websocket-protocol: "
    found = [line[len(name):] for line in peer.head.split("\r\n") if line.lower().startswith(name)]
    peer.leave()
    return found


def the_first_offered_is_selected(program):
    fence, push = "weblocks.fence", "weblocks.push"
    with Daemon(program) as daemon:
        expect("fences alone, without an epoch", selected(daemon, fence), [])
        expect("fences or pushes, without an epoch", selected(daemon, fence, push), [push])
        alone = daemon.peer(protocols(fence, "weblocks.bearer.x"))
        expect("a bearer beside fences, without an epoch", alone.status, 400)
    with Daemon(program, "--epoch", "1") as daemon:
        expect("fences alone", selected(daemon, fence), [fence])
        expect("fences or pushes", selected(daemon, fence, push), [fence])
        expect("pushes or fences", selected(daemon, push, fence), [push])
        expect("fences behind others", selected(daemon, "chat", fence), [fence])
        expect("a bearer beside fences", selected(daemon, "weblocks.bearer.x", fence), [fence])
    with epoch_file() as path, Daemon(program, "--epoch-file", path) as daemon:
        expect("fences, by a file", selected(daemon, fence), [fence])


def epoch_checks(program):
    for name, check in [
        ("each start's epoch is one more", each_start_is_one_more),
        ("starts at once have an epoch each", starts_at_once),
        ("an epoch's file by a path without a folder", a_path_without_a_folder),
        ("bad epoch files stay as they are", bad_files_stay),
        ("epoch files that cannot be read or written", files_that_cannot_be),
        ("a start that is refused takes no epoch", a_start_that_is_refused_takes_no_epoch),
        ("the first subprotocol that is offered is selected", the_first_offered_is_selected),
    ]:
        yield name, lambda c=check: c(program)
