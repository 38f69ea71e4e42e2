#!/usr/bin/env python3
"""Scripts for `weblocks run`, by workload and size.

usage: bench/workloads.py                       lists the workloads
       bench/workloads.py NAME [LINES [CROWD]]  writes a script of that many lines, or a few more

CROWD is the number that a line's cost might grow with: of names, agents, origins or live requests. The same words give
the same bytes. A message is refused nowhere, and an agent polls where it has something to be told.
"""

import json
import random
import sys
from collections import deque


class Script:
    """Lines, and the numbers of requests that the machine will give at an origin."""

    def __init__(self, out):
        self.out, self.lines, self.requests, self.signals = out, 0, 0, 0

    def say(self, agent, op, **members):
        self.lines += 1
        line = {"agent": agent, "id": self.lines, "op": op, **members}
        self.out.write(json.dumps(line, separators=(",", ":"), sort_keys=True) + "\n")

    def open(self, agent, url="https://a.test/"):
        self.say(agent, "open", url=url)

    def open_all(self, count):
        agents = [f"agent-{i}" for i in range(count)]
        for agent in agents:
            self.open(agent)
        return agents

    def request(self, agent, name, **options):
        """The request's number."""
        if options:
            self.say(agent, "request", name=name, options=options)
        else:
            self.say(agent, "request", name=name)
        self.requests += 1
        return self.requests

    def release(self, agent, number):
        self.say(agent, "release", request=number)

    def signal(self, agent):
        self.say(agent, "signal")
        self.signals += 1
        return self.signals


# A workload writes its opening lines up to its first yield, and then a turn up to each further one.


def one_agent_alone(s, names):
    s.open("a")
    while True:
        for i in range(names):
            yield
            s.release("a", s.request("a", f"name-{i}"))


def locks_handed_on(s, agents, names=10):
    """The holder releases and asks again, and the next in the queue learns of its grant."""
    queues = [deque() for _ in range(names)]
    for i, agent in enumerate(s.open_all(agents)):
        queues[i % names].append((agent, s.request(agent, f"name-{i % names}")))
    while True:
        for i, queue in enumerate(queues):
            yield
            agent, number = queue.popleft()
            s.release(agent, number)
            queue.append((agent, s.request(agent, f"name-{i}")))
            s.say(queue[0][0], "poll")


class Name:
    """A name's holders and queue, as the machine keeps them: readers share, a writer is alone."""

    def __init__(self):
        self.holders, self.queue = {}, deque()

    def ask(self, number, shared):
        self.queue.append((number, shared))
        self.process_queue()

    def drop(self, number):
        del self.holders[number]
        self.process_queue()

    def process_queue(self):
        while self.queue:
            number, shared = self.queue[0]
            if self.holders and not (shared and all(self.holders.values())):
                return
            self.holders[number] = shared
            self.queue.popleft()


def readers_and_writers(s, agents, names=10, writers=5):
    """Agents in no order; of a hundred requests, that many write. Who waits polls, and who holds releases."""
    luck = random.Random(1)
    free, tables = s.open_all(agents), [Name() for _ in range(names)]
    asked = {agent: None for agent in free}
    while True:
        yield
        agent = luck.choice(free)
        if asked[agent] is None:
            i, shared = luck.randrange(names), luck.randrange(100) >= writers
            number = s.request(agent, f"name-{i}", **({"mode": "shared"} if shared else {}))
            tables[i].ask(number, shared)
            asked[agent] = (i, number)
            continue
        i, number = asked[agent]
        s.say(agent, "poll")
        if number in tables[i].holders:
            s.release(agent, number)
            tables[i].drop(number)
            asked[agent] = None


def steals_in_turn(s, agents):
    everyone = s.open_all(agents)
    s.request(everyone[0], "name")
    while True:
        for i in range(agents):
            yield
            s.request(everyone[(i + 1) % agents], "name", steal=True)
            s.say(everyone[i], "poll")


def steals_from_readers(s, readers):
    everyone = s.open_all(readers)
    s.open("thief")
    while True:
        yield
        for agent in everyone:
            s.request(agent, "name", mode="shared")
        stolen = s.request("thief", "name", steal=True)
        for agent in everyone:
            s.say(agent, "poll")
        s.release("thief", stolen)


def many_origins(s, origins):
    """An agent and a lock at each; then locks come and go in no order."""
    luck, requests = random.Random(1), [1] * origins
    for i in range(origins):
        s.open(f"agent-{i}", f"https://host-{i}.test/")
    for i in range(origins):
        s.request(f"agent-{i}", "kept")
    while True:
        yield
        i = luck.randrange(origins)
        requests[i] += 1
        s.request(f"agent-{i}", "name")
        s.release(f"agent-{i}", requests[i])


def queries(s, live):
    """Half of the requests hold, and half wait."""
    s.open("a")
    s.open("b")
    for i in range(live // 2):
        s.request("a", f"name-{i}")
        s.request("b", f"name-{i}", mode="shared")
    while True:
        for agent in "ab":
            yield
            s.say(agent, "query")
            s.release("b", s.request("b", "other"))


def hold_names(s, count):
    s.open("holder")
    for i in range(count):
        s.request("holder", f"name-{i}")


def aborts(s, requests, names=50):
    """So many requests wait by one signal, and then it is aborted."""
    hold_names(s, names)
    s.open("a")
    while True:
        yield
        signal = s.signal("a")
        for i in range(requests):
            s.request("a", f"name-{i % names}", signal=signal)
        s.say("a", "abort", signal=signal)
        if signal == 1000:  # of 1,024 that an agent may make
            s.say("a", "close")
            s.open("a")
            s.signals = 0


def ends(s, requests, names=50):
    """An agent closes with so many requests, of which half hold and half wait."""
    hold_names(s, names)
    while True:
        yield
        s.open("a")
        for i in range(requests // 2):
            s.request("a", f"own-{i}")
            s.request("a", f"name-{i % names}")
        s.say("a", "close")


def agents_come_and_go(s, agents):
    """All open, then all lock, then all close."""
    while True:
        yield
        everyone = s.open_all(agents)
        for i, agent in enumerate(everyone):
            s.request(agent, f"name-{i % 1000}", mode="shared")
        for agent in everyone:
            s.say(agent, "close")


def queue_of_one_name(s, live, agents=64):
    everyone, queue = s.open_all(agents), deque()
    for i in range(live):
        agent = everyone[i % agents]
        queue.append((agent, s.request(agent, "name")))
    while True:
        yield
        agent, number = queue.popleft()
        s.release(agent, number)
        s.say(queue[0][0], "poll")
        queue.append((agent, s.request(agent, "name")))


def readers_of_one_name(s, live, agents=64):
    luck, everyone = random.Random(1), s.open_all(agents)
    held = [s.request(everyone[i % agents], "name", mode="shared") for i in range(live)]
    while True:
        yield
        i = luck.randrange(live)
        s.release(everyone[i % agents], held[i])
        held[i] = s.request(everyone[i % agents], "name", mode="shared")


def many_names(s, live, agents=64):
    """Each name has a holder and one that waits."""
    luck, everyone, pairs = random.Random(1), s.open_all(agents), []
    for i in range(live // 2):
        two = everyone[i % agents], everyone[(i + 1) % agents]
        pairs.append([(agent, s.request(agent, f"name-{i}")) for agent in two])
    while True:
        yield
        i = luck.randrange(len(pairs))
        (agent, number), waiter = pairs[i]
        s.release(agent, number)
        s.say(waiter[0], "poll")
        pairs[i] = [waiter, (agent, s.request(agent, f"name-{i}"))]


def many_names_of_one_agent(s, live):
    """All live requests are one agent's, so each of its replies could be about any of them."""
    luck = random.Random(1)
    s.open("a")
    pairs = [[s.request("a", f"name-{i}") for _ in range(2)] for i in range(live // 2)]
    while True:
        yield
        i = luck.randrange(len(pairs))
        s.release("a", pairs[i].pop(0))
        pairs[i].append(s.request("a", f"name-{i}"))


# Each with what it is, its lines and its crowds. Speed is measured at the last crowd, and growth over all where there
# are several; those with three are for growth alone.
WORKLOADS = {
    one_agent_alone: ("one agent requests and releases, over {} names", 90001, [1000]),
    locks_handed_on: ("{} agents hand 10 names on", 90200, [100]),
    readers_and_writers: ("{} readers, with writers among them", 40835, [64]),
    steals_in_turn: ("{} agents steal in turn", 60101, [100]),
    steals_from_readers: ("steals from {} readers", 61251, [50]),
    many_origins: ("{} origins", 80000, [1000, 10000]),
    queries: ("queries of {} requests", 2802, [1000]),
    aborts: ("an abort of {} requests, again and again", 10072, [100, 1000]),
    ends: ("the end of an agent with {} requests, again and again", 10071, [100, 1000]),
    agents_come_and_go: ("{} agents of one origin open, take a lock and close", 12000, [400, 4000]),
    queue_of_one_name: ("{} live requests in one name's queue", 60000, [1000, 10000, 60000]),
    readers_of_one_name: ("{} readers of one name", 60000, [1000, 10000, 60000]),
    many_names: ("{} live requests of 64 agents, two a name", 60000, [1000, 10000, 60000]),
    many_names_of_one_agent: ("{} live requests of one agent, two a name", 60000, [1000, 10000, 60000]),
}
NAMED = {workload.__name__: workload for workload in WORKLOADS}


def write(out, workload, lines, crowd):
    """Writes the opening and as many whole turns as it takes; how many lines that is."""
    script = Script(out)
    for _ in workload(script, crowd):
        if script.lines >= lines:
            return script.lines


def main(words):
    if not words:
        for workload, (title, lines, crowds) in WORKLOADS.items():
            print(f"{workload.__name__} {lines} {crowds[-1]}: {title.format('CROWD')}")
        return 0
    if words[0] not in NAMED or len(words) > 3:
        sys.exit(__doc__)
    _, lines, crowds = WORKLOADS[NAMED[words[0]]]
    numbers = [int(word) for word in words[1:]]
    write(sys.stdout, NAMED[words[0]], *numbers, *[lines, crowds[-1]][len(numbers) :])
    return 0


if __name__ == "__main__":
    sys.exit(main(sys.argv[1:]))
