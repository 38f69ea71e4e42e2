"""The pictures that `weblocks timeline` draws.

Three are compared with those of tests/timelines, byte by byte. What their bars say is held to what was written down
here from the scripts and the rules (docs/MACHINE.md), not taken from a picture; and each picture is read as XML, by a
reader that isn't ours.
"""

import json
import re
from pathlib import Path
from xml.etree import ElementTree

from running import Wrong, expect, expect_end, run_in_pieces, run_whole

TESTS = Path(__file__).resolve().parent
SVG = "{http://www.w3.org/2000/svg}"

# Of each request: who asked for what; the bars, each from a line to a line, or to the right edge; the end and its line;
# what its agent was told and at which line.
HISTORIES = {
    "a_reader_waits_behind_a_writer": {
        1: ("a", "db", "shared", [("taken", 4, 8)], [("released", 8)], [("granted", 4)]),
        2: (
            "b",
            "db",
            "exclusive",
            [("pending", 5, 8), ("granted", 8, 9), ("taken", 9, 10)],
            [("released", 10)],
            [("granted", 9)],
        ),
        3: (
            "c",
            "db",
            "shared",
            [("pending", 6, 10), ("granted", 10, 11), ("taken", 11, None)],
            [],
            [("granted", 11)],
        ),
    },
    "steal_takes_every_readers_lock": {
        1: ("a", "db", "shared", [("taken", 4, 7)], [("stolen", 7)], [("granted", 4), ("stolen", 8)]),
        2: ("b", "db", "shared", [("taken", 5, 7)], [("stolen", 7)], [("granted", 5), ("stolen", 9)]),
        3: ("c", "db", "exclusive", [("pending", 6, None)], [], []),
        4: ("c", "db", "exclusive", [("taken", 7, None)], [], [("granted", 7)]),
    },
    "abort_ends_every_request_of_its_signal": {
        1: ("a", "db", "shared", [("taken", 4, None)], [], [("granted", 4)]),
        2: ("b", "db", "exclusive", [("pending", 6, 9)], [("aborted", 9)], [("aborted", 9)]),
        3: ("b", "db", "shared", [("pending", 7, 9)], [("aborted", 9)], [("aborted", 9)]),
        4: (
            "c",
            "db",
            "shared",
            [("pending", 8, 9), ("granted", 9, 10), ("taken", 10, None)],
            [],
            [("granted", 10)],
        ),
    },
}


def says(*messages):
    """A script of these messages."""
    return "".join(json.dumps(message) + "\n" for message in messages).encode()


def opens(agent, url="https://a.test/", **more):
    return {"agent": agent, "id": 0, "op": "open", "url": url, **more}


def requests(agent, name, **options):
    return {"agent": agent, "id": 0, "op": "request", "name": name, "options": options}


def does(agent, op, **more):
    return {"agent": agent, "id": 0, "op": op, **more}


def drawn(program, script):
    """The picture of a script, read as XML."""
    ended = run_whole([program, "timeline"], script)
    expect_end(ended, ended.out)
    return ElementTree.fromstring(ended.out)


def line_in(element, name):
    value = element.get(name)
    return None if value is None else int(value)


def history_in(picture):
    """What the picture's bars say of each request, by its number."""
    history = {}
    for group in picture.iter(f"{SVG}g"):
        if group.get("data-request") is None:
            continue
        number = int(group.get("data-request"))
        parts = [part for part in group.iter() if part is not group and part.get("data-request") is not None]
        for part in parts:
            expect("the request of a part", int(part.get("data-request")), number)
        history[number] = (
            group.get("data-label"),
            group.get("data-name"),
            group.get("data-mode"),
            [
                (part.get("data-phase"), line_in(part, "data-from"), line_in(part, "data-to"))
                for part in parts
                if part.get("data-phase") is not None
            ],
            *(
                [(part.get(of), line_in(part, "data-line")) for part in parts if part.get(of) is not None]
                for of in ("data-end", "data-told")
            ),
        )
    return history


def tells_history(program, name):
    script = (TESTS / "scripts" / f"{name}.in").read_bytes()
    expect("the history", history_in(drawn(program, script)), HISTORIES[name])


def is_one_safe_image(picture):
    """An image with a title, of which no part runs, and none is fetched from elsewhere."""
    expect("the root", (picture.tag, picture.get("role")), (f"{SVG}svg", "img"))
    title = picture.find(f"{SVG}title")
    expect("the title's id", title.get("id"), picture.get("aria-labelledby"))
    if not title.text:
        raise Wrong("the title is empty")
    for element in picture.iter():
        tag = element.tag.removeprefix(SVG)
        if tag not in ("svg", "title", "style", "g", "rect", "path", "text", "tspan"):
            raise Wrong(f"it has a {tag}")
        for attribute in element.attrib:
            if attribute.startswith("on") or "href" in attribute or attribute == "style":
                raise Wrong(f"a {tag} has {attribute}")
    style = picture.find(f"{SVG}style").text
    if re.search(r"url\(|@import", style) or "prefers-color-scheme:dark" not in style:
        raise Wrong("the style fetches something, or has no dark colours")


def bars_keep_apart(picture):
    """The bars of two requests don't overlap, and each has its tooltip, with its request's number."""
    rows = {}
    for group in picture.iter(f"{SVG}g"):
        if group.get("data-request") is None:
            continue
        tip = group.find(f"{SVG}title").text
        if not tip.startswith(f"request {group.get('data-request')}: "):
            raise Wrong(f"the tooltip is {tip}")
        bars = [[int(bar.get(it)) for it in ("y", "x", "width")] for bar in group.iter(f"{SVG}rect")]
        for y, x, width in bars:
            rows.setdefault(y, []).append((x, x + width, group.get("data-request")))
    for y, bars in rows.items():
        bars.sort()
        for (_, end, before), (start, _, after) in zip(bars, bars[1:]):
            if start < end and before != after:
                raise Wrong(f"the bars of {before} and {after} overlap at {y}")


def ends_of_every_kind(program):
    """Requests that end in each way, and one that is granted and ends before its agent hears of it."""
    script = says(
        opens("a"),
        opens("b"),
        requests("a", "x"),
        requests("b", "x", ifAvailable=True),
        requests("b", "x"),
        requests("b", "y"),
        does("b", "signal"),
        requests("b", "x", signal=1),
        does("a", "release", request=1),
        does("b", "close"),
        does("a", "signal"),
        requests("a", "z"),
        requests("a", "z", signal=2),
        does("a", "abort", signal=2, reason=7),
    )
    wanted = {
        1: ("a", "x", "exclusive", [("taken", 3, 9)], [("released", 9)], [("granted", 3)]),
        2: ("b", "x", "exclusive", [], [("unavailable", 4)], [("unavailable", 4)]),
        3: ("b", "x", "exclusive", [("pending", 5, 9), ("granted", 9, 10)], [("closed", 10)], []),
        4: ("b", "y", "exclusive", [("taken", 6, 10)], [("closed", 10)], [("granted", 6)]),
        5: ("b", "x", "exclusive", [("pending", 8, 10)], [("closed", 10)], []),
        6: ("a", "z", "exclusive", [("taken", 12, None)], [], [("granted", 12)]),
        7: ("a", "z", "exclusive", [("pending", 13, 14)], [("aborted", 14)], [("aborted", 14)]),
    }
    expect("the history", history_in(drawn(program, script)), wanted)


def an_abort_before_it_is_told(program):
    """The lock is granted at line 6, and its signal aborted at line 7, before its agent hears of the grant."""
    script = says(
        opens("a"),
        opens("b"),
        does("b", "signal"),
        requests("a", "x"),
        requests("b", "x", signal=1),
        does("a", "release", request=1),
        does("b", "abort", signal=1),
    )
    wanted = ("b", "x", "exclusive", [("pending", 5, 6), ("granted", 6, 7)], [("aborted", 7)], [("aborted", 7)])
    expect("the history", history_in(drawn(program, script))[2], wanted)


HOSTILE = "</text><script>alert('x')</script>]]>&amp;\"\x00\x1b\x7f\x85\n\ufffe\uffff\u202e"
PRINTABLE = re.sub("[\x00-\x1f\x7f-\x9f\ufffe\uffff]", "\ufffd", HOSTILE)


def hostile_texts(program):
    """What XML or a terminal would read otherwise is shown as text, and comes back, but for what can't be printed."""
    picture = drawn(program, says(opens(HOSTILE), requests(HOSTILE, HOSTILE), requests(HOSTILE, "-")))
    is_one_safe_image(picture)
    found = history_in(picture)[1]
    expect("the label and the name", found[:2], (PRINTABLE, PRINTABLE))
    texts = [*picture.iter(f"{SVG}text")]
    if not any((text.text or "").startswith(f"1 {PRINTABLE[:20]}") for text in texts):
        raise Wrong("the name isn't shown")
    if not any((title.tail or "").startswith(PRINTABLE[:16]) for text in texts for title in text.iter(f"{SVG}title")):
        raise Wrong("the label isn't shown")


def faults_in(picture):
    return [
        (line_in(path, "data-line"), path.find(f"{SVG}title").text)
        for path in picture.iter(f"{SVG}path")
        if path.get("class") == "fault" and path.get("data-line") is not None
    ]


def a_script_with_faults(program):
    """Each line that is answered by an error has a mark, and changes nothing."""
    script = b"no message\n" + says(
        does("a", "poll"),
        opens("a"),
        opens("a"),
        requests("a", "-x"),
        opens("b", url="nowhere"),
        requests("a", "x"),
        requests("a", "y", steal=True, mode="shared"),
    )
    picture = drawn(program, script)
    expect(
        "the faults",
        sorted(faults_in(picture)),
        [
            (1, "line 1: BadJson, json"),
            (2, "line 2: NotOpen, session"),
            (4, "line 4: AlreadyOpen, session"),
            (5, "line 5: NotSupportedError, reserved-name"),
            (6, "line 6: BadUrl, url"),
            (8, "line 8: NotSupportedError, steal-shared"),
        ],
    )
    expect("the requests", list(history_in(picture)), [1])


def an_empty_script(program):
    picture = drawn(program, b"")
    is_one_safe_image(picture)
    expect("the requests", history_in(picture), {})


def origins_and_buckets(program):
    """Requests of one number at three managers are told apart, and an opaque origin has none."""
    script = says(
        opens("a"),
        opens("b", url="https://b.test/"),
        opens("c", bucket="inbox"),
        opens("d", url="data:,x"),
        *(requests(agent, "x") for agent in "abcd"),
        does("a", "close"),
        opens("a", url="https://b.test/"),
        requests("a", "x"),
    )
    groups = [group for group in drawn(program, script).iter(f"{SVG}g") if group.get("data-request") is not None]
    found = sorted(
        tuple(group.get(f"data-{it}") for it in ("label", "manager", "request")) for group in groups
    )
    wanted = [
        ("a", "https://a.test", "1"),
        ("a", "https://b.test", "2"),
        ("b", "https://b.test", "1"),
        ("c", "https://a.test inbox", "1"),
    ]
    expect("the requests", found, wanted)


def a_long_script(program):
    """Thousands of lines stand closer, and the picture is no wider."""
    turns = [
        (
            *(requests(agent, f"name-{n}") for agent in ("a", "b")),
            does("a", "release", request=2 * n + 1),
            does("b", "poll"),
        )
        for n in range(800)
    ]
    ends = [does("b", "release", request=2 * n + 2) for n in range(800)]
    script = says(opens("a"), opens("b"), *(message for turn in turns for message in turn), *ends)
    picture = drawn(program, script)
    width = int(picture.get("width"))
    if width > 4500:
        raise Wrong(f"it is {width} wide")
    bars_keep_apart(picture)
    a_lane_has_at_most_100_rows(picture)


def a_lane_has_at_most_100_rows(picture):
    """What finds no row is counted: with what is drawn it is all there is, 800 requests of each label."""
    lanes = {}
    for group in picture.iter(f"{SVG}g"):
        if group.get("data-request") is not None:
            lanes.setdefault(group.get("data-label"), []).append(group)
    more = [re.match(r"(\d+) more requests are not drawn", text.text or "") for text in picture.iter(f"{SVG}text")]
    left_out = sum(int(found[1]) for found in more if found)
    if not left_out:
        raise Wrong("none is left out")
    expect("the requests", sum(map(len, lanes.values())) + left_out, 1600)
    for label, groups in lanes.items():
        rows = {text.get("y") for group in groups for text in group.findall(f"{SVG}text")[:1]}
        if len(rows) > 100:
            raise Wrong(f"{label} has {len(rows)} rows")


def timeline_checks(program):
    words = [program, "timeline"]
    for name in HISTORIES:
        script = (TESTS / "scripts" / f"{name}.in").read_bytes()
        stored = (TESTS / "timelines" / f"{name}.svg").read_bytes()
        yield f"the picture of {name}", lambda s=script, w=stored: expect_end(run_whole(words, s), w)
        yield f"the picture of {name}, in pieces", lambda s=script, w=stored: expect_end(run_in_pieces(words, s, 7), w)
        yield f"the history of {name}", lambda n=name: tells_history(program, n)
    for path in sorted((TESTS / "scripts").glob("*.in")):
        yield f"{path.stem} is drawn safely", lambda p=path: is_one_safe_image(drawn(program, p.read_bytes()))
        yield f"the bars of {path.stem}", lambda p=path: bars_keep_apart(drawn(program, p.read_bytes()))
    for check in (
        ends_of_every_kind,
        an_abort_before_it_is_told,
        hostile_texts,
        a_script_with_faults,
        an_empty_script,
        origins_and_buckets,
        a_long_script,
    ):
        yield f"a timeline: {check.__name__.replace('_', ' ')}", lambda c=check: c(program)
