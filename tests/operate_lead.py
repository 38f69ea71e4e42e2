"""deploy/lead: of two candidates and one etcd one serves, and where it ends, hangs or is cut off the other one does."""

import os
import signal
import subprocess
import time
from collections.abc import Iterator
from contextlib import ExitStack, contextmanager
from functools import partial
from pathlib import Path
from shutil import which
from tempfile import TemporaryDirectory
from typing import Any

from checkouts import TOP
from daemon_server import Closed
from network import free_port
from operate_candidates import MORE, TTL, Candidate, Client, Etcd, Relay, token_in
from operate_needs import PYTHON, Checks, Needs
from operate_package import Built
from operate_service import FILTER, LEAD, calls_left
from running import SECONDS, expect
from standins import put

# The most that three health checks take, with the pauses between them, and where each is answered at once.
HEALTH, REFUSED = 3 * (3 + 1), 3 * 1 + 2
# After how many seconds at most the daemon has read its file of tokens again.
READ_AGAIN = 5


class Pair:
    """Two candidates, of which the first leads, and a client that reaches whoever serves."""

    def __init__(self, built: Built, room: Path, ttl: int) -> None:
        with ExitStack() as begun:
            self.etcd = Etcd(room)
            begun.callback(self.etcd.end)
            self.way = Relay(self.etcd.port)
            begun.callback(self.way.cut)
            self.first = Candidate(built.program, self.way.port, ttl)
            begun.callback(self.first.end)
            self.first.lead(3 * SECONDS)
            self.second = Candidate(built.program, self.etcd.port, ttl)
            begun.callback(self.second.end)
            self.front = Relay(self.first.port)
            begun.callback(self.front.cut)
            self.client = Client(self.front.port)
            begun.callback(self.client.end)
            self.end = begun.pop_all().close

    def hand_over(self, seconds: float, before: str) -> None:
        """The second one serves within so many seconds, with a greater token, and the client asks it again."""
        self.second.lead(seconds)
        expect("whether the new token is greater", self.second.token() > before, True)
        self.front.target = self.second.port
        self.front.drop()
        self.client.ask()


@contextmanager
def pair_of(built: Built, ttl: int = TTL) -> Iterator[Pair]:
    with TemporaryDirectory() as room:
        pair = Pair(built, Path(room), ttl)
        try:
            yield pair
        finally:
            pair.end()


@contextmanager
def leader_of(built: Built, room: Path, *options: str, **how: Any) -> Iterator[Candidate]:
    """One candidate with an etcd of its own, once it leads."""
    with ExitStack() as begun:
        etcd = Etcd(room)
        begun.callback(etcd.end)
        leader = Candidate(built.program, etcd.port, TTL, *options, **how)
        begun.callback(leader.end)
        yield leader.lead(3 * SECONDS)


def daemon_is_killed(built: Built) -> None:
    with pair_of(built) as pair:
        before = pair.first.token()
        os.kill(pair.first.daemon(), signal.SIGKILL)
        pair.hand_over(TTL + MORE, before)
        pair.first.ends_within(SECONDS)


def leader_is_killed(built: Built) -> None:
    with pair_of(built) as pair:
        before = pair.first.token()
        pair.first.kill_all(signal.SIGKILL)
        pair.hand_over(TTL + MORE, before)


def leader_is_stopped(built: Built) -> None:
    """What it still says once it goes on has a smaller token, and it ends."""
    with pair_of(built) as pair:
        peer, before = pair.first.peer(), pair.first.token()
        pair.first.kill_all(signal.SIGSTOP)
        peer.send('{"id":1,"op":"request","name":"late"}')
        pair.hand_over(TTL + MORE, before)
        after = pair.second.token()
        pair.first.kill_all(signal.SIGCONT)
        try:
            expect("whether its token is smaller", token_in(peer.get()) < after, True)
        except Closed:
            pass
        pair.first.ends_within(TTL + MORE)


def daemon_is_stopped(built: Built) -> None:
    with pair_of(built) as pair:
        before = pair.first.token()
        os.kill(pair.first.daemon(), signal.SIGSTOP)
        pair.hand_over(TTL + MORE + HEALTH, before)
        pair.first.ends_within(SECONDS)


def etcd_is_lost(built: Built) -> None:
    """The leader alone is cut off from etcd."""
    with pair_of(built) as pair:
        before = pair.first.token()
        pair.way.cut()
        pair.hand_over(TTL + MORE, before)
        pair.first.ends_within(TTL + MORE)


def etcd_is_away_for_a_moment(built: Built) -> None:
    """It has the time to come back, and etcdctl the time to find it again, which it tries after growing pauses."""
    with pair_of(built, 4 * TTL) as pair:
        before, daemon = pair.first.token(), pair.first.daemon()
        pair.etcd.end()
        pair.etcd.start()
        time.sleep(4 * TTL + MORE)
        expect("the daemon", pair.first.daemon(), daemon)
        expect("whether the token is greater", pair.first.token() > before, True)
        expect("whether the other one waits", pair.second.child.poll(), None)


def status_wants_a_token(built: Built) -> None:
    """Where other machines reach its status, the leader is asked with a token of its file, also once that changes."""
    with TemporaryDirectory() as name:
        room = Path(name)
        tokens, fresh = room / "tokens", room / "fresh"
        for file, token in ((tokens, "old\n"), (fresh, "new \r\n")):
            file.touch(0o600)
            file.write_text(f"narrow https://b.test\n{token}", newline="")
        with leader_of(built, room, "--token-file", str(tokens), shown_at="0.0.0.0") as leader:
            time.sleep(REFUSED)
            expect("how the leader ended", leader.child.poll(), None)
            fresh.replace(tokens)
            time.sleep(READ_AGAIN + REFUSED)
            expect("how it ended with other tokens", leader.child.poll(), None)


def no_token_opens_all_origins(built: Built) -> None:
    """A status that wants a token can't be asked with any of its file, and the leader says why it ends."""
    with TemporaryDirectory() as name:
        room = Path(name)
        tokens = room / "tokens"
        tokens.touch(0o600)
        tokens.write_text("narrow https://b.test\n")
        with leader_of(built, room, "--token-file", str(tokens), shown_at="0.0.0.0") as leader:
            leader.ends_within(HEALTH)
            expect("how the leader ended", leader.child.returncode, 1)
            assert leader.child.stderr
            said = leader.child.stderr.read().decode().splitlines()
            wanted = f"lead: no token of {tokens} opens all origins, as the status may want"
            expect("whether it says why", wanted in said, True)


def proxy_is_passed_by(built: Built) -> None:
    """The environment names a proxy, which isn't there: the daemon's health is asked of the daemon itself."""
    proxy = f"http://127.0.0.1:{free_port()}"
    named = [f"{it}={proxy}" for it in ("http_proxy", "https_proxy", "all_proxy")]
    before = ["env", "--unset=no_proxy", "--unset=NO_PROXY", *named]
    with TemporaryDirectory() as room, leader_of(built, Path(room), before=before) as leader:
        time.sleep(REFUSED)
        expect("how the leader ended", leader.child.poll(), None)


def leads_under_the_filter(built: Built) -> None:
    """Under the unit's filter, with lead.conf beside it, there is a leader, and the daemon's health is asked for."""
    with TemporaryDirectory() as name:
        room = Path(name)
        calls = room / "calls"
        calls.write_text("\n".join(sorted(calls_left(built, LEAD))))
        with leader_of(built, room, before=[PYTHON, FILTER, calls]) as leader:
            leader.token()
            time.sleep(REFUSED)
            expect("how the leader ended", leader.child.poll(), None)


def wrong_words() -> None:
    served = ["locks", "--", "true", "--status", "a:1"]
    for words in ([], ["locks"], ["locks", "--"], ["--ttl", "x", *served], ["locks", "--", "true"],
                  ["locks", "--", "true", "--status", "127.0.0.1:0"], ["--often", "locks"],
                  [*served, "--epoch-file", "epoch"], [*served, "--epoch-file=epoch"], [*served, "--epoch", "1"],
                  [*served, "--epoch=1"], [*served, "--while-input"], [*served, "--while-input=1"]):
        ended = subprocess.run([TOP / "deploy/lead", *words], capture_output=True, stdin=subprocess.DEVNULL)
        expect(f"the status of {words}", ended.returncode, 2)
        expect(f"what is said of {words}", ended.stderr.decode().splitlines()[1][:12], "usage: lead ")
    ended = subprocess.run([TOP / "deploy/lead", "--help"], capture_output=True, stdin=subprocess.DEVNULL)
    expect("the status of --help", ended.returncode, 0)
    expect("what --help says", ended.stdout.decode()[:12], "usage: lead ")


def words_are_tried(built: Built) -> None:
    """What the daemon doesn't take, or why it can't be run, is told before there is a lead. (No etcd is asked.)"""
    with TemporaryDirectory() as name:
        room = Path(name)
        for command in ("etcdctl", "curl"):
            (room / command).symlink_to("/bin/true")
        there = {**os.environ, "PATH": f"{name}:{os.environ['PATH']}"}
        failing = put(room / "failing", "#!/bin/sh\nexit 3\n")
        why = f"the daemon can't be started: {failing} had status 3 when its words were tried"
        for daemon, status, said in (
            ([built.program, "daemon"], 1, "etcdctl ended before it led"),
            ([built.program, "daemon", "--often"], 2, "the daemon doesn't take its words"),
            ([built.program, "daemon", "--idle", "0"], 2, "the daemon doesn't take its words"),
            ([failing], 1, why),
        ):
            words = [TOP / "deploy/lead", "locks", "--", *daemon, "--status", "127.0.0.1:8081"]
            ended = subprocess.run(words, capture_output=True, stdin=subprocess.DEVNULL, env=there)
            expect(f"what is said of {daemon}", ended.stderr.decode().splitlines()[-1], f"lead: {said}")
            expect(f"the status of {daemon}", ended.returncode, status)
            expect("standard output", ended.stdout, b"")


def missing_commands() -> None:
    """What it calls is looked for before it is a candidate, and not at the daemon's first check."""
    with TemporaryDirectory() as name:
        room = Path(name)
        for missing, there in (("etcdctl", []), ("curl", ["etcdctl"]), ("weblocks", ["etcdctl", "curl"])):
            for command in ["bash", "sed", "grep", *there]:
                if not (room / command).exists():
                    (room / command).symlink_to(which(command) or "/bin/true")
            words = [TOP / "deploy/lead", "locks", "--", "weblocks", "daemon", "--status", "127.0.0.1:8081"]
            ended = subprocess.run(words, capture_output=True, stdin=subprocess.DEVNULL, env={"PATH": name})
            expect(f"what is said where {missing} is missing", ended.stderr, f"lead: there is no {missing}\n".encode())
            expect("the status", ended.returncode, 1)


def lead_checks(built: Built, needs: Needs) -> Checks:
    def checks() -> Checks:
        yield "a leader whose daemon is killed", partial(daemon_is_killed, built)
        yield "a leader that is killed whole", partial(leader_is_killed, built)
        yield "a leader that is stopped, and goes on", partial(leader_is_stopped, built)
        yield "a leader whose daemon is stopped", partial(daemon_is_stopped, built)
        yield "a leader that loses etcd", partial(etcd_is_lost, built)
        yield "an etcd that is away for a moment", partial(etcd_is_away_for_a_moment, built)
        yield "a leader whose status wants a token", partial(status_wants_a_token, built)
        yield "a leader of whose tokens none opens all origins", partial(no_token_opens_all_origins, built)
        yield "a leader whose environment names a proxy", partial(proxy_is_passed_by, built)

    yield "lead's words", wrong_words
    yield "lead tries the daemon's words", partial(words_are_tried, built)
    yield "what lead calls is missing", missing_commands
    packages = ["etcd-server", "etcd-client", "curl", "procps", "python3-websockets"]
    yield from needs.each("failover by etcd", packages, checks)
    packages += ["systemd", "python3-seccomp"]
    filtered = "a leader under the unit's filter"
    yield from needs.each(filtered, packages, lambda: iter([(filtered, lambda: leads_under_the_filter(built))]))
