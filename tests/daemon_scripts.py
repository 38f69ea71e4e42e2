"""Scripts by connections to a daemon, an agent a connection: each line's reply, and what is pushed after it."""

from pathlib import Path

from daemon_server import BYTES, PUSH, TEXT, Daemon
from daemon_world import DaemonWorld, said_by, speaker_of
from random_scripts import random_script
from running import expect, text

TOP = Path(__file__).resolve().parent.parent

BAD_JSON = '{"error":{"name":"BadJson","rule":"json"},"id":null,"notices":[]}'
# The label of the connection over which a line goes that has none.
NOBODY = "nobody"


def is_text(line):
    try:
        line.decode()
        return True
    except UnicodeDecodeError:
        return False


def expected(lines, is_pushed):
    """Of each line the label that says it, its reply, and the pushes after it."""
    world = DaemonWorld()
    for line in lines:
        label = speaker_of(line, NOBODY)
        reply = world.reply(said_by(label, line)).decode()
        yield label, line, reply, list(world.pushes()) if is_pushed else []


def play(daemon, lines, is_pushed):
    """Says each line over its label's connection, and reads its reply and all that is pushed before the next."""
    headers = [PUSH] if is_pushed else []
    peers = {}
    for label, line, reply, pushes in expected(lines, is_pushed):
        if label not in peers:
            peers[label] = daemon.peer(*headers)
        peers[label].send(line, TEXT if is_text(line) else BYTES)
        expect("the reply to " + text(line), peers[label].get(), reply)
        for told, push in pushes:
            expect(f"what {told} is told after " + text(line), peers[told].get(), push)
    for label, peer in peers.items():
        expect(f"what {label} gets last", peer.ask("{"), BAD_JSON)
    for peer in peers.values():
        peer.leave()


def worked_script(daemon, path, is_pushed):
    lines, replies = (path.with_suffix(it).read_bytes().splitlines() for it in (".in", ".out"))
    play(daemon, lines, is_pushed)
    # What the model said is what is written down of the script.
    for (label, line, reply, _), written in zip(expected(lines, False), replies):
        if label != NOBODY:
            expect("the written reply to " + text(line), written.decode(), reply)


def script_checks(program):
    def check(script):
        with Daemon(program, "--loops", "3") as daemon:
            script(daemon)

    for path in sorted((TOP / "tests" / "scripts").glob("*.in")):
        for is_pushed in (False, True):
            how = "with pushes" if is_pushed else "without pushes"
            yield f"{path.stem}, by connections to a daemon {how}", lambda p=path, w=is_pushed: check(
                lambda daemon: worked_script(daemon, p, w)
            )
    for seed in range(100, 108):
        lines = random_script(seed, 400)[0].splitlines()
        for is_pushed in (False, True):
            how = "with pushes" if is_pushed else "without pushes"
            yield f"random script {seed}, by connections {how}", lambda s=lines, w=is_pushed: check(
                lambda daemon: play(daemon, s, w)
            )
