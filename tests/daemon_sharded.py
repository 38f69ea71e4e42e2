"""A daemon that is sharded by origins: which targets it takes, and what they let open."""

import urllib.parse

from daemon_admission import OPENED, bearer, may, open_of, origin, protocols, token_file, write
from daemon_pushes import asked, request
from daemon_server import Closed, Daemon, until_true
from running import Wrong, expect
from status_server import Shown

REFUSED = b"a target that is not /?origin= and an origin's canonical text"
A, B = "https://a.test", "https://b.test"

# Origins in their canonical texts, each with URLs of it, and others.
ORIGINS = [
    (A, ["https://a.test/", "https://A.TEST:443/x?y#z", "https://user@a.test/"], [B, "http://a.test/", "data:,x"]),
    ("http://a.test:8080", ["http://a.test:8080/"], ["http://a.test/", "https://a.test:8080/", "http://a.test:80/"]),
    ("http://[::1]:81", ["http://[::1]:81/", "http://[0:0::1]:81/"], ["http://[::1]/", "http://[::2]:81/"]),
    ("ws://127.0.0.1", ["ws://127.1/", "ws://127.0.0.1:80/"], ["http://127.0.0.1/", "ws://127.0.0.2/"]),
    ("https://a-b_c!~*'().test", ["https://a-b_c!~*'().test/"], ["https://a-b_c.test/"]),
    ("https://a$&+,;=.test", ["https://a$&+,;=.test/"], ["https://a.test/"]),
    ("https://xn--bcher-kva.test", ["https://b\u00fccher.test/"], ["https://bcher.test/"]),
]

# Targets of which none is an origin's own.
ODD = [
    "/",
    "*",
    "/?",
    "/?origin=",
    "/?origin=https://a.test",
    "/?origin=https%3a%2f%2fa.test",
    "/?origin=https%3A%2f%2Fa.test",
    "/?origin=https%3A%2F%2F%61.test",
    "/?origin=https%3A%2F%2Fa%2Etest",
    "/?origin=https%3A%2F%2FA.test",
    "/?origin=https%3A%2F%2Fa.test%3A443",
    "/?origin=https%3A%2F%2Fa.test%2F",
    "/?origin=https%3A%2F%2Fa.test/",
    "/?origin=https%3A%2F%2Fa.test&",
    "/?origin=https%3A%2F%2Fa.test&x=1",
    "/?origin=https%3A%2F%2Fa.test#",
    "/?origin=https%3A%2F%2Fa.test#x",
    "/?origin=%20https%3A%2F%2Fa.test",
    "/?origin=https%3A%2F%2Fb%C3%BCcher.test",
    "/?origin=https%3A%2F%2Fb\u00fccher.test",
    "/?origin=ws%3A%2F%2F127.1",
    "/?origin=null",
    "/?origin=data%3A%2Cx",
    "/?origin=blob%3Ahttps%3A%2F%2Fa.test%2Fx",
    "/?x=1&origin=https%3A%2F%2Fa.test",
    "/?x=;origin=https%3A%2F%2Fa.test&origin=https%3A%2F%2Fb.test",
    "/?origin=https%3A%2F%2Fa.test&origin=https%3A%2F%2Fa.test",
    "/?Origin=https%3A%2F%2Fa.test",
    "//?origin=https%3A%2F%2Fa.test",
    "/x?origin=https%3A%2F%2Fa.test",
    "/x/..?origin=https%3A%2F%2Fa.test",
    "http://localhost/?origin=https%3A%2F%2Fa.test",
    "HTTP://localhost/?origin=https%3A%2F%2Fa.test",
]

# Texts that are no targets of HTTP.
NONE = ["?origin=https%3A%2F%2Fa.test", '/?origin=https%3A%2F%2Fa.test"', "/?origin=https%3A%2F%2Fa.test x"]


def target(text):
    """The target of an origin of this text, as `encodeURIComponent` of JavaScript spells it."""
    return "/?origin=" + urllib.parse.quote(text, safe="-_.!~*'()")


def expect_refused(daemon, path, *headers):
    """That a handshake with this target is refused, is told why, and that nothing more comes."""
    peer = daemon.peer(*headers, path=path)
    expect(f"the status with {path}", peer.status, 400)
    try:
        while True:
            peer.more()
    except Closed as closed:
        expect(f"the end with {path}", closed.code, 0)
    except ConnectionError:
        pass
    expect(f"what {path} is told", peer.buffer, REFUSED)


def origins_have_their_targets(program):
    with Daemon(program, "--sharded") as daemon:
        for text, own, others in ORIGINS:
            for url in own:
                expect(f"whether {target(text)} lets {url} open", may(daemon, url, path=target(text)), True)
            for url in others:
                expect(f"whether {target(text)} lets {url} open", may(daemon, url, path=target(text)), False)


def other_targets_are_refused(program):
    with Shown(program, "--sharded") as daemon:
        for path in ODD:
            expect_refused(daemon, path)
        counted = 'weblocks_handshakes_refused_total{reason="bad-target"} %d' % len(ODD)
        sees = lambda line: line in daemon.get("/metrics").body.decode().splitlines()
        expect("whether each is counted", sees(counted), True)
        expect("whether none has an agent", sees("weblocks_agents 0"), True)
        until_true("whether they are gone", lambda: sees("weblocks_connections 0"))
        expect("whether a right one is taken", daemon.peer(path=target(A)).status, 101)


def what_is_no_target_ends_the_connection(program):
    """It isn't answered, with the flag or without."""
    for options in ([], ["--sharded"]):
        with Daemon(program, *options) as daemon:
            for path in NONE:
                try:
                    raise Wrong(f"{path} was answered {daemon.peer(path=path).status}")
                except Closed as closed:
                    expect(f"the end with {path}", closed.code, 0)


def empty_lines_before_the_request(program):
    """They are passed over, as a server should, and the target behind them is the one that counts."""
    with Daemon(program, "--sharded") as daemon:
        peer = daemon.peer(path=target(A), before=b"\r\n\r\n")
        expect("the status", peer.status, 101)
        expect("the reply", peer.ask(open_of("https://a.test/")), OPENED)


def buckets_of_an_origin(program):
    """Each is open to the origin's target, and has a manager of its own."""
    with Daemon(program, "--sharded") as daemon:
        peers = [daemon.peer(path=target(A)) for _ in range(2)]
        for peer, bucket in zip(peers, ["default", "drafts"]):
            reply = peer.ask('{"bucket":"%s","id":1,"op":"open","url":"https://a.test/"}' % bucket)
            expect(f"whether {bucket} is refused", '"error"' in reply, False)
        for peer in peers:
            expect("a lock that both have", peer.ask(request(1)), asked(1, 1, ("granted", 1)))


def a_connection_ends_at_another_origin(program):
    """The origin that its target names is served on."""
    with Daemon(program, "--sharded") as daemon:
        peer = daemon.peer(path=target(A))
        peer.send(open_of("https://b.test/"))
        expect("the code", peer.close_code(), 1008)
        expect("whether a reason is told", peer.reason != "", True)
        expect("whether the origin is served still", may(daemon, "https://a.test/", path=target(A)), True)


def bad_urls_are_told(program):
    with Daemon(program, "--sharded") as daemon:
        reply = daemon.peer(path=target(A)).ask(open_of("no url"))
        expect("the reply", reply, '{"error":{"name":"BadUrl","rule":"url"},"id":1,"notices":[]}')


def pages_have_targets_too(program):
    """A page opens what is both its own and at the target; one that is trusted only what is at the target."""
    with Daemon(program, "--sharded", "--allow-origin", "https://c.test") as daemon:
        expect("a page at its target", may(daemon, A, origin(A), path=target(A)), True)
        for url in [A, B]:
            expect(f"a page at another target, and {url}", may(daemon, url, origin(A), path=target(B)), False)
        trusted = origin("https://c.test")
        expect("a trusted page at the target", may(daemon, A, trusted, path=target(A)), True)
        for url in [B, "https://c.test", "data:,x"]:
            expect(f"a trusted page at another target, and {url}", may(daemon, url, trusted, path=target(A)), False)
        expect("an opaque page", may(daemon, A, origin("null"), path=target(A)), False)


def refusals_have_an_order(program):
    with token_file("one\n") as path:
        with Daemon(program, "--sharded", "--token-file", path) as daemon:
            twice = [origin(A), origin(A)]
            expect_refused(daemon, "/")
            expect_refused(daemon, "/", bearer("none"))
            expect_refused(daemon, "/", *twice)
            expect("several origins", daemon.peer(*twice, path=target(A)).status, 400)
            expect("no token", daemon.peer(path=target(A)).status, 401)
            expect("an unknown one", daemon.peer(bearer("none"), path=target(A)).status, 401)


def tokens_have_targets_too(program):
    with token_file("one\ntwo https://b.test\n") as path:
        with Daemon(program, "--sharded", "--token-file", path) as daemon:
            expect("a token for all", may(daemon, A, bearer("one"), path=target(A)), True)
            expect("a token for all", may(daemon, B, bearer("one"), path=target(A)), False)
            for url in [A, B]:
                expect(f"a token for another, and {url}", may(daemon, url, bearer("two"), path=target(A)), False)
            expect("a token for it", may(daemon, B, bearer("two"), path=target(B)), True)
            both = protocols("weblocks.push", "weblocks.bearer.two")
            expect("a token of a page", may(daemon, B, both, origin(B), path=target(B)), True)


def targets_count_after_tokens_changed(program):
    """Where the tokens are read again the server stays sharded."""
    with token_file("one\n") as path:
        with Daemon(program, "--sharded", "--token-file", path) as daemon:
            write(path, "two\n")
            taken = lambda: daemon.peer(bearer("two"), path=target(A)).status == 101
            until_true("the new token is one", taken, 12)
            expect_refused(daemon, "/", bearer("two"))
            expect("whether another origin may be opened", may(daemon, B, bearer("two"), path=target(A)), False)


def without_the_flag_targets_mean_nothing(program):
    with Daemon(program) as daemon:
        for path in ["/", "*", "/x?y", "/?origin=null", target(B), target(A) + "#x", "http://localhost/?origin=x"]:
            for url in ["https://a.test/", "data:,x"]:
                expect(f"whether {url} may be opened at {path}", may(daemon, url, path=path), True)


def sharded_checks(program):
    for name, check in [
        ("sharded: origins have their targets", origins_have_their_targets),
        ("sharded: other targets are refused", other_targets_are_refused),
        ("sharded: what is no target ends the connection", what_is_no_target_ends_the_connection),
        ("sharded: empty lines before the request", empty_lines_before_the_request),
        ("sharded: buckets of an origin", buckets_of_an_origin),
        ("sharded: an open of another origin", a_connection_ends_at_another_origin),
        ("sharded: bad URLs are told", bad_urls_are_told),
        ("sharded: pages", pages_have_targets_too),
        ("sharded: tokens", tokens_have_targets_too),
        ("sharded: the order of refusals", refusals_have_an_order),
        ("sharded: tokens are read again", targets_count_after_tokens_changed),
        ("targets without --sharded", without_the_flag_targets_mean_nothing),
    ]:
        yield name, lambda c=check: c(program)
