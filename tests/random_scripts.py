"""Random scripts, with what the model answers to them and their audits."""

import json
from random import Random

from model import Agent, World

LABELS = ["anna", "ben", "cora", "dan", "eve", "fay"]
# The first and the third are of one origin, and the last is of an opaque one.
URLS = ["https://a.test/", "http://a.test:8443/x", "https://a.test:443/y", "wss://b.test/", "data:text/plain,x"]
BUCKETS = [{}, {"bucket": "default"}, {"bucket": "inbox"}]
BAD_BUCKETS = ["", "Inbox", "-a", "_", "a" * 65, "in box", "\u00e9"]
NAMES = ["db", "db", "db/1", "printer", "", "\u00e9\u2028\U0001f512\"\\\n\u007f\u0001"]
REFUSED_NAMES = ["-x", "x" * 1025, "\u00e9" * 513, "-" + "x" * 1025]
REASONS = ["AbortError", "TimeoutError", 0, 7, 2**16 - 1, 2**16]
ODD_VALUES = [None, True, False, -1, 0.5, 1.0, 7, 2**16, 2**53, "", "7", "x", "\u00e9", [], {}, {"mode": "shared"}]
# Nests as deep as it may, and once more.
DEEP = [b'{"agent":"anna","id":1,"op":"poll","x":' + b"[" * deep + b"]" * deep + b"}" for deep in (126, 127)]
BAD_LINES = [b"", b"{", b"[]", b"null", b"\xff", b'"id"', b'{"id":01}', b'{"id":1} x', b'{"id":1,"x":"\\ud800"}', *DEEP]


class Author:
    """Writes a script line by line, with an eye on what the lines before it did."""

    def __init__(self, seed):
        self.random, self.world, self.count = Random(seed), World(), 0

    def chance(self, one_in):
        return self.random.randrange(one_in) == 0

    def line(self):
        self.count += 1
        if self.chance(50):
            return self.random.choice(BAD_LINES)
        label = self.random.choice(LABELS)
        message = {"agent": label, "id": self.count, **self.operation(self.world.agents.get(label))}
        if self.chance(25):
            self.spoil(message)
        return json.dumps(message, ensure_ascii=self.chance(2)).encode()

    def spoil(self, message):
        """Takes a member away, or gives one some value."""
        within = message["options"] if message.get("options") and self.chance(2) else message
        member = self.random.choice([*within, *(["url", "kind", "bucket", "options"] if within is message else [])])
        if self.chance(3):
            within.pop(member, None)
        else:
            within[member] = self.random.choice(ODD_VALUES)

    def operation(self, agent):
        """What an agent asks, or a label that isn't open."""
        if not agent and not self.chance(10):
            return self.open()
        op = self.random.choices(
            ["open", "signal", "request", "release", "abort", "active", "query", "poll", "close"],
            [1, 5, 40, 25, 5, 3, 5, 10, 2],
        )[0]
        manager = agent.manager if isinstance(agent, Agent) else None
        held = [lock.number for lock in manager.held if lock.agent == agent.number] if manager else []
        signals = [number for number, it in manager.signals.items() if it["agent"] == agent.number] if manager else []
        if op == "open":
            return self.open()
        if op == "request":
            return self.request(signals)
        if op == "release":
            return {"op": op, "request": self.number(held)}
        if op == "abort":
            reason = self.random.choice([{}, *({"reason": reason} for reason in REASONS)])
            return {"op": op, "signal": self.number(signals[-3:]), **reason}
        if op == "active":
            return {"op": op, "active": not self.chance(4)}
        return {"op": op}

    def open(self):
        kind = self.random.choice([{}, {"kind": "window"}, {"kind": "worker"}])
        url = "no url" if self.chance(20) else self.random.choice(URLS[: None if self.chance(4) else 2])
        bucket = {"bucket": self.random.choice(BAD_BUCKETS)} if self.chance(20) else self.random.choice(BUCKETS)
        return {"op": "open", "url": url, **kind, **bucket}

    def request(self, signals):
        options = {}
        if self.chance(2):
            options["mode"] = self.random.choice(["shared", "shared", "exclusive"])
        for member, one_in in (("ifAvailable", 6), ("steal", 10)):
            if self.chance(one_in):
                options[member] = not self.chance(5)
        if self.chance(3 if signals else 20):
            options["signal"] = self.number(signals[-3:])
        name = self.random.choice(REFUSED_NAMES if self.chance(30) else NAMES)
        return {"op": "request", "name": name, **({"options": options} if options or self.chance(2) else {})}

    def number(self, known):
        """One of those known, mostly, else some number."""
        return self.random.choice(known) if known and not self.chance(10) else self.random.randrange(40)


def random_script(seed, lines):
    """A script, its replies, and its audit."""
    author, script, replies = Author(seed), [], []
    for _ in range(lines):
        line = author.line()
        script.append(line + b"\n")
        replies.append(author.world.reply(line) + b"\n")
    return b"".join(script), b"".join(replies), b"".join(line + b"\n" for line in author.world.audit())
