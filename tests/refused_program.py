"""Refuses each growth of memory of the built program in turn, as it answers, audits, draws and serves."""

import re
import tempfile
from pathlib import Path

from daemon_server import Daemon
from network import Client, Serving
from running import SECONDS, Ended, Wrong, expect, expect_end, run_whole, text

SCRIPTS = Path(__file__).resolve().parent / "scripts"
NAMES = [
    "a_signal_may_be_aborted_with_a_code",
    "a_stolen_lock_is_not_held",
    "buckets_of_an_origin_share_nothing",
    "closing_ends_locks_and_requests",
    "origins_share_nothing",
]
# Those of which there are pictures.
PICTURES = sorted((Path(__file__).resolve().parent / "timelines").glob("*.svg"))
SAID = b"a growth was refused\n"
# More growths than any run has.
MOST = 3000

OPEN = b'{"id":1,"op":"open","url":"https://a.test/"}\n'
OPENED = b'{"id":1,"notices":[],"ok":{"client":"client-1"}}\n'
OUT_OF_MEMORY = b"weblocks: out of memory\n"
AFTER_LINE = re.compile(rb"weblocks: out of memory after line (\d+)\n")


def refused(words, script, number, refuser):
    """How the program ends with that growth refused, and whether it was."""
    with_refuser = ["env", f"LD_PRELOAD={refuser}", f"REFUSED_GROWTH={number}", *words]
    ended = run_whole(with_refuser, script)
    return Ended(ended.status, ended.out, ended.err.replace(SAID, b"")), SAID in ended.err


def lines_done(ended, wanted):
    """How many lines of the script were done, as the fault says; None where all is as if no growth had been refused."""
    if ended.status == 0:
        expect_end(ended, wanted)
        return None
    if ended.err == OUT_OF_MEMORY:
        return 0
    after = AFTER_LINE.fullmatch(ended.err)
    if ended.status != 1 or not after:
        raise Wrong(f"it ended with {ended.status} and said {text(ended.err)}")
    return int(after[1])


def each_growth(check):
    """Makes the check with each growth refused, until there are no more, and answers how many there were."""
    for number in range(1, MOST + 1):
        try:
            if not check(number):
                return number - 1
        except Wrong as why:
            raise Wrong(f"growth {number}: {why}") from None
    raise Wrong(f"growths beyond {MOST}")


def run_is_refused(program, path, number, refuser):
    """The replies to the lines that were done are written, and nothing else."""
    wanted = path.with_suffix(".out").read_bytes()
    ended, was = refused([program, "run"], path.with_suffix(".in").read_bytes(), number, refuser)
    done = lines_done(ended, wanted)
    if done is not None:
        expect("the output", ended.out, b"".join(wanted.splitlines(keepends=True)[:done]))
    return was


def audit_is_refused(program, path, number, refuser):
    """Nothing is written before the whole script is done, and then whole lines."""
    script, wanted = (path.with_suffix(it).read_bytes() for it in (".in", ".audit"))
    ended, was = refused([program, "audit"], script, number, refuser)
    done = lines_done(ended, wanted)
    if done is not None:
        count = ended.out.count(b"\n") if done == len(script.splitlines()) else 0
        expect("the output", ended.out, b"".join(wanted.splitlines(keepends=True)[:count]))
    return was


def timeline_is_refused(program, picture, number, refuser):
    """Nothing is written before the picture is whole."""
    script = (SCRIPTS / picture.name).with_suffix(".in").read_bytes()
    ended, was = refused([program, "timeline"], script, number, refuser)
    done = lines_done(ended, picture.read_bytes())
    if done is not None:
        expect("the output", ended.out, b"")
        if done > len(script.splitlines()):
            raise Wrong(f"it did {done} lines")
    return was


def server_is_refused(program, number, refuser):
    """It ends before it listens; or it can't start the connection's thread; or that connection fails."""
    before = ["env", f"LD_PRELOAD={refuser}", f"REFUSED_GROWTH={number}"]
    server = Serving(program, 1, before)
    if not server.line:
        expect_end(server.end(), b"", 1, SAID + OUT_OF_MEMORY)
        return True
    with server, Client(program, server.port) as client:
        reply = client.ask(OPEN)
        client.end()
        ended = server.end()
    was = SAID in ended.err
    said = ended.err.replace(SAID, b"")
    if ended.status == 1:
        expect("standard error", said, b"weblocks: cannot start a thread after connection 0\n")
        return was
    expect_end(Ended(ended.status, ended.out, said), b"served 1 failed %d\n" % (reply != OPENED))
    return was


def connection_is_refused(program, refuser):
    """The system has no memory for the second connection: the server ends with the first."""
    before = ["env", f"LD_PRELOAD={refuser}", "REFUSED_CONNECTION=2"]
    with Serving(program, 3, before) as server:
        expect_end(run_whole([program, "client", "--port", str(server.port)], OPEN), OPENED)
        expect_end(server.end(), b"", 1, b"weblocks: out of memory after connection 1\n")
    return 1


def wait_is_refused(program, refuser):
    """The system fails as the loops wait for events: the daemon says so and ends, though its input goes on."""
    with tempfile.TemporaryDirectory() as folder:
        path = Path(folder) / "refused"
        with Daemon(program, before=["env", f"LD_PRELOAD={refuser}", f"REFUSED_WAIT={path}"]) as daemon:
            daemon.opened()
            path.touch()
            expect("the status", daemon.child.wait(SECONDS), 1)
            said = daemon.child.stderr.read().splitlines()[-1]
            expect("the last line of its log", said, b"weblocks: an event loop failed")
    return 1


def program_growths(program, refuser):
    """The names of what is done, each with what refuses its growths and answers their number."""
    for name in NAMES:
        path = SCRIPTS / name
        yield f"run {name}", lambda p=path: each_growth(lambda n: run_is_refused(program, p, n, refuser))
        yield f"audit {name}", lambda p=path: each_growth(lambda n: audit_is_refused(program, p, n, refuser))
    for picture in PICTURES:
        yield f"draw {picture.stem}", lambda p=picture: each_growth(
            lambda n: timeline_is_refused(program, p, n, refuser)
        )
    yield "serve a client", lambda: each_growth(lambda n: server_is_refused(program, n, refuser))
    yield "serve, and accept no second client", lambda: connection_is_refused(program, refuser)
    yield "a daemon, and wait for no event", lambda: wait_is_refused(program, refuser)
