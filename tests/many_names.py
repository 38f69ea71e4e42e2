"""A script that has many names in use at once, with what is due for it.

The model walks all its lists, and so is no help among 60,000 names. Here names stand in dictionaries, which keep them
in order of use as well: a name that goes out of use leaves its place, and comes in again as the last.
"""

import resource
import tempfile
from random import Random

from model import World
from running import Wrong, expect, expect_end, run_on

NAMES, FEWER = 60000, 6000
# How much longer a line may take among all names than among the fewer. Where its time grows with the names, it takes
# nearly ten times as long.
MOST = 3

OPEN = '"op":"open","url":"https://a.test/"'
HELD = '{"clientId":"client-1","mode":"exclusive","name":"%s"}'
WAITING = '{"clientId":"client-2","mode":"shared","name":"%s"}'


class Author:
    """Writes a script line by line, each with its reply."""

    def __init__(self):
        self.script, self.replies = [], []
        # By name, in order of use: the number of the request that holds it, and how many wait for it.
        self.holders, self.waiters, self.requests = {}, {}, 0

    def say(self, label, members, ok, notices=""):
        number = len(self.script) + 1
        self.script.append('{"agent":"%s","id":%d,%s}\n' % (label, number, members))
        self.replies.append('{"id":%d,"notices":[%s],"ok":{%s}}\n' % (number, notices, ok))

    def request(self, label, name, options, notices=""):
        self.requests += 1
        notices = notices and notices % self.requests
        self.say(label, f'"name":"{name}","op":"request"{options}', f'"request":{self.requests}', notices)

    def hold(self, name):
        self.request("a", name, "", '{"phase":"granted","request":%d}')
        self.holders[name], self.waiters[name] = self.requests, 0

    def wait(self, name):
        self.request("b", name, ',"options":{"mode":"shared"}')
        self.waiters[name] += 1

    def release(self, name):
        self.say("a", f'"op":"release","request":{self.holders.pop(name)}', '"release":"released"')

    def query(self):
        held = ",".join(HELD % name for name in self.holders)
        pending = ",".join(WAITING % name for name in self.holders for _ in range(self.waiters[name]))
        self.say("a", '"op":"query"', f'"held":[{held}],"pending":[{pending}]')


def names_in_use(count):
    """A script, and its replies: so many names come into use, each goes and comes again, and for some requests wait."""
    author, random = Author(), Random(count)
    author.say("a", OPEN, '"client":"client-1"')
    author.say("b", OPEN, '"client":"client-2"')
    names = [f"name {number}" for number in range(count)]
    for name in names:
        author.hold(name)
    for name in random.sample(names, count):
        author.release(name)
        author.hold(name)
    for name in random.choices(names, k=count // 12):
        author.wait(name)
    author.query()
    author.say("a", '"op":"close"', "")
    return "".join(author.script).encode(), "".join(author.replies).encode()


def is_due_by_the_model():
    """What is due among many names is what the model answers among few."""
    world = World()
    script, replies = names_in_use(60)
    for line, due in zip(script.splitlines(), replies.splitlines()):
        expect("the reply to " + line.decode(), world.reply(line), due)


def processor_seconds():
    """Of the runs that have ended: other programs add little to it."""
    used = resource.getrusage(resource.RUSAGE_CHILDREN)
    return used.ru_utime + used.ru_stime


def seconds_of_a_line(words, script, replies):
    with tempfile.TemporaryFile() as file, tempfile.TemporaryFile() as out:
        file.write(script)
        file.seek(0)
        before = processor_seconds()
        ended = run_on(words, file, out)
        seconds = processor_seconds() - before
        out.seek(0)
        ended.out = out.read()
    expect_end(ended, replies)
    return seconds / script.count(b"\n")


def takes_no_longer(words):
    fewer, all_names = (
        min(seconds_of_a_line(words, *written) for _ in range(3))
        for written in (names_in_use(FEWER), names_in_use(NAMES))
    )
    if all_names > MOST * fewer:
        raise Wrong(f"a line takes {all_names * 1e6:.1f} us among {NAMES} names, and {fewer * 1e6:.1f} among {FEWER}")


def many_names_checks(program):
    yield "names in use, by the model", is_due_by_the_model
    yield "a line takes no three times as long among 60,000 names", lambda: takes_no_longer([program, "run"])
