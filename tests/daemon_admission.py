"""Who may come in to a daemon, and what they may open there: origins of pages, tokens, addresses."""

import os
import resource
import subprocess
import tempfile
import time
from contextlib import contextmanager

from daemon_server import Closed, Daemon, until_true
from running import SECONDS, Wrong, expect, expect_end, run_on

OPENED = '{"id":1,"notices":[],"ok":{"client":"client-1"}}'


def open_of(url):
    return '{"id":1,"op":"open","url":"%s"}' % url


def origin(value):
    return f"Origin: {value}"


def bearer(token):
    return f"Authorization: Bearer {token}"


def protocols(*names):
    return "Sec-WebSocket-Protocol: " + ", ".join(names)


def may(daemon, url, *headers, **how):
    """Whether a peer with these headers may open the URL. One that may not is told why, and has opened nothing."""
    peer = daemon.peer(*headers, **how)
    expect("the status", peer.status, 101)
    peer.send(open_of(url))
    try:
        reply = peer.get()
    except Closed as closed:
        expect("the code", closed.code, 1008)
        expect("whether it has a reason", closed.reason != "", True)
        return False
    expect("the reply's error", '"error"' in reply, False)
    peer.leave()
    return True


def pages_open_their_own_origin(program):
    with Daemon(program) as daemon:
        page = origin("https://a.test")
        for url in ["https://a.test/", "https://a.test:443/x?y", "https://A.TEST/", "https://user@a.test/#z"]:
            expect(f"whether a page of it may open {url}", may(daemon, url, page), True)
        for url in ["https://b.test/", "http://a.test/", "https://a.test:444/", "https://a.test.b.test/", "data:,x"]:
            expect(f"whether a page of https://a.test may open {url}", may(daemon, url, page), False)
        expect("whether one of its port may", may(daemon, "https://a.test:444/", origin("https://a.test:444")), True)


def opaque_pages_open_nothing(program):
    with Daemon(program) as daemon:
        for value in ["null", "data:,x", "", "nonsense"]:
            for url in ["https://a.test/", "data:,x"]:
                expect(f"whether a page of {value!r} may open {url}", may(daemon, url, origin(value)), False)


def programs_open_all(program):
    with Daemon(program) as daemon:
        for url in ["https://a.test/", "http://b.test:81/", "data:,x"]:
            expect(f"whether a program may open {url}", may(daemon, url), True)


def bad_urls_are_told(program):
    """A text that is no URL is a fault that a reply tells, of a page too."""
    with Daemon(program) as daemon:
        for headers in ([], [origin("https://a.test")]):
            reply = daemon.peer(*headers).ask(open_of("no url"))
            expect("the reply", reply, '{"error":{"name":"BadUrl","rule":"url"},"id":1,"notices":[]}')


def several_origins(program):
    with Daemon(program) as daemon:
        expect("the status", daemon.peer(origin("https://a.test"), origin("https://a.test")).status, 400)


def allowed_origins(program):
    with Daemon(program, "--allow-origin", "https://b.test", "--allow-origin", "http://c.test:8080/") as daemon:
        for page in ["https://b.test", "https://b.test:443", "http://c.test:8080"]:
            for url in ["https://a.test/", "data:,x"]:
                expect(f"whether {page} may open {url}", may(daemon, url, origin(page)), True)
        expect("whether another page may", may(daemon, "https://a.test/", origin("http://c.test")), False)


def all_origins_allowed(program):
    with Daemon(program, "--allow-origin", "https://b.test", "--allow-origin", "*") as daemon:
        for page in ["https://b.test", "null"]:
            expect(f"whether {page} may", may(daemon, "https://a.test/", origin(page)), True)


# ---- tokens


@contextmanager
def token_file(text, mode=0o600):
    with tempfile.TemporaryDirectory() as folder:
        path = os.path.join(folder, "tokens")
        write(path, text, mode)
        yield path


def write(path, text, mode=0o600):
    with open(path + ".new", "wb") as file:
        file.write(text if isinstance(text, bytes) else text.encode())
    os.chmod(path + ".new", mode)
    os.replace(path + ".new", path)


def rewrite(path, text):
    """Other bytes in the same file, of which its size and its time tell nothing."""
    before = os.stat(path)
    with open(path, "r+") as file:
        file.write(text)
    os.utime(path, ns=(before.st_atime_ns, before.st_mtime_ns))
    expect("its size", os.stat(path).st_size, before.st_size)


def tokens(program):
    with token_file("one\ntwo https://a.test http://b.test:81\n") as path:
        with Daemon(program, "--token-file", path) as daemon:
            refusal = daemon.peer()
            expect("the status without one", refusal.status, 401)
            expect("whether it says what is wanted", "www-authenticate: bearer\r\n" in refusal.head.lower(), True)
            for header in [bearer("x"), bearer("on"), bearer("onee"), bearer(""), "Authorization: Basic one"]:
                expect(f"the status with {header}", daemon.peer(header).status, 401)
            expect("a header in small letters", daemon.peer("authorization: bearer one").status, 101)
            both = protocols("weblocks.push", "weblocks.bearer.one")
            expect("two tokens", daemon.peer(bearer("one"), both).status, 400)
            expect("a bearer alone", daemon.peer(protocols("weblocks.bearer.one")).status, 400)
            page = daemon.peer(both)
            expect("the status", page.status, 101)
            expect("the selected subprotocol", "weblocks.push" in page.head, True)
            expect("the token is not said", "weblocks.bearer" in page.head, False)
            expect("a token for all", may(daemon, "https://c.test/", bearer("one")), True)
            expect("a token for two", may(daemon, "https://a.test/", bearer("two")), True)
            expect("a token for two", may(daemon, "http://b.test:81/x", bearer("two")), True)
            expect("a token for two", may(daemon, "https://c.test/", bearer("two")), False)
            expect("a page with it", may(daemon, "http://b.test:81/", bearer("two"), origin("https://a.test")), False)
            status, log = daemon.end()
            expect("the status", status, 0)
            expect("that no token is in the log", "onee" in log or "two" in log, False)


def tokens_are_read_again(program):
    with token_file("one\n") as path:
        with Daemon(program, "--token-file", path) as daemon:
            there = daemon.peer(bearer("one"))
            write(path, "two\n")
            until_true("the new token is one", lambda: daemon.peer(bearer("two")).status == 101, 12)
            expect("the old one", daemon.peer(bearer("one")).status, 401)
            expect("who came in by it stays", there.ask(open_of("https://a.test/")), OPENED)
            rewrite(path, "six\n")
            until_true("one in its place is one", lambda: daemon.peer(bearer("six")).status == 101, 12)
            write(path, "three\n(no token)\n")
            time.sleep(7)
            expect("after a bad line the token stays", daemon.peer(bearer("six")).status, 101)
            write(path, "four\n", 0o644)
            time.sleep(7)
            expect("where others may read it the token stays", daemon.peer(bearer("six")).status, 101)
            os.remove(path)
            time.sleep(7)
            expect("without the file the token stays", daemon.peer(bearer("six")).status, 101)
            _, log = daemon.end()
            for line in ["read again", "line 2: not a token", "others", "cannot be read"]:
                expect(f"whether the log says {line!r}", line in log, True)


def unreadable_tokens_are_tried_again(program):
    """What can't be read for want of files is read once there are some, though the file stays as it is."""
    with token_file("one\n") as path:
        with Daemon(program, "--token-file", path) as daemon:
            # Once it answers, it has the files that it begins with.
            expect("the token", daemon.peer(bearer("one")).status, 101)
            files = resource.prlimit(daemon.child.pid, resource.RLIMIT_NOFILE)
            # Fewer than are open: those stay, and no other can be opened.
            resource.prlimit(daemon.child.pid, resource.RLIMIT_NOFILE, (3, files[1]))
            write(path, "two\n")
            time.sleep(12)
            resource.prlimit(daemon.child.pid, resource.RLIMIT_NOFILE, files)
            until_true("the new token is one", lambda: daemon.peer(bearer("two")).status == 101, 12)
            expect("the old one", daemon.peer(bearer("one")).status, 401)
            _, log = daemon.end()
            expect("how often it is told", log.count("token file: cannot be read, so the old tokens stay"), 1)
            expect("whether the log says that it was read", "token file: read again" in log, True)


# ---- what is refused at the start


def refused(program, words, line, status=1):
    ended = subprocess.run([program, "daemon", *words], capture_output=True, timeout=SECONDS, stdin=subprocess.DEVNULL)
    expect("the status", ended.returncode, status)
    expect("standard output", ended.stdout, b"")
    if line.encode() not in ended.stderr:
        raise Wrong(f"standard error is {ended.stderr!r}, without {line!r}")


def bad_token_files(program):
    for text, mode, line in [
        ("one\n\ntwo\n", 0o600, "line 2: not a token"),
        ("a b\n", 0o600, "line 1: not an origin"),
        ("one\nt\u00f6\n", 0o600, "line 2: not a token"),
        (b"\xff\n", 0o600, "not UTF-8"),
        ("one\n", 0o640, "others"),
        ("one\n", 0o604, "others"),
    ]:
        with token_file(text, mode) as path:
            refused(program, ["--listen", "127.0.0.1:0", "--token-file", path], line)
    refused(program, ["--listen", "127.0.0.1:0", "--token-file", "/no/such/file"], "cannot be read")
    with token_file("one\n") as path:
        os.unlink(path)
        os.mkfifo(path, 0o600)
        refused(program, ["--listen", "127.0.0.1:0", "--token-file", path], "not a regular file")


def beyond_the_machine(program):
    """It is refused without a token file, unless all may come in."""
    for address in ["0.0.0.0:0", "[::]:0"]:
        refused(program, ["--listen", address], "--token-file")
    with Daemon(program, "--open", listen="0.0.0.0:0") as daemon:
        expect("its address", daemon.host, "0.0.0.0")
    with token_file("one\n") as path:
        with Daemon(program, "--token-file", path, listen="0.0.0.0:0") as daemon:
            daemon.host = "127.0.0.1"
            expect("the status", daemon.peer(bearer("one")).status, 101)


def another_version_of_ip(program):
    with Daemon(program, listen="[::1]:0") as daemon:
        expect("its address", daemon.host, "[::1]")
        expect("the reply", daemon.peer().ask(open_of("https://a.test/")), OPENED)


def bad_origins(program):
    for value in ["nonsense", "data:,x", "null"]:
        for all_of_them in ([], ["--allow-origin", "*"]):
            words = ["--listen", "127.0.0.1:0", *all_of_them, "--allow-origin", value]
            refused(program, words, f"not an origin: {value}")


def port_is_taken(program):
    with Daemon(program) as daemon:
        refused(program, ["--listen", f"127.0.0.1:{daemon.port}"], f"cannot listen on 127.0.0.1:{daemon.port}")


def output_is_full(program):
    words = [program, "daemon", "--listen", "127.0.0.1:0", "--log", "off"]
    with open("/dev/full", "wb") as full:
        ended = run_on(words, stdout=full)
    expect_end(ended, b"", 1, b"weblocks: cannot write after connection 0\n")


def log_levels(program):
    with Daemon(program, "--connections", "1") as daemon:
        there = daemon.opened()
        expect("the status", daemon.peer().status, 503)
        there.leave()
        _, log = daemon.end()
        for line in ["started", "refused: too many connections", "stopped"]:
            expect(f"whether the log says {line!r}", line in log, True)
        expect("that no message is in it", "open" in log, False)
    with Daemon(program, "--log", "off") as daemon:
        daemon.opened()
        expect("the log", daemon.end(), (0, ""))


def admission_checks(program):
    for name, check in [
        ("pages open URLs of their own origin", pages_open_their_own_origin),
        ("pages of opaque origins open nothing", opaque_pages_open_nothing),
        ("programs open all URLs", programs_open_all),
        ("bad URLs are told", bad_urls_are_told),
        ("more than one Origin header", several_origins),
        ("pages that may open all URLs", allowed_origins),
        ("all pages may open all URLs", all_origins_allowed),
        ("tokens", tokens),
        ("tokens are read again", tokens_are_read_again),
        ("tokens that can't be read are tried again", unreadable_tokens_are_tried_again),
        ("bad token files", bad_token_files),
        ("an address beyond the machine", beyond_the_machine),
        ("an address of version 6", another_version_of_ip),
        ("bad origins", bad_origins),
        ("a port of the daemon that is taken", port_is_taken),
        ("the daemon's output is full", output_is_full),
        ("what the log says", log_levels),
    ]:
        yield name, lambda c=check: c(program)
