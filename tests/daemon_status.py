"""The status of a daemon over HTTP: what it answers, and whom it refuses."""

import base64
import json
import shutil
import socket
import subprocess
from pathlib import Path

from daemon_admission import bearer, open_of, token_file
from daemon_fences import FENCE
from daemon_pushes import URL, request
from daemon_server import until_true
from running import SECONDS, Ended, expect, expect_end, run_on
from status_server import Shown, expect_guards, expect_status

PAGE = Path(__file__).resolve().parent.parent / "crates/wl_status/page/index.html"


# ---- what there is


def health(program):
    with Shown(program) as daemon:
        answer = expect_status(daemon, 200, "/health")
        expect("the body", answer.body, b"ok\n")
        expect("its type", answer.headers["content-type"], "text/plain; charset=utf-8")
        expect_guards(answer)
        head = expect_status(daemon, 200, "/health", method="HEAD")
        expect("the length that HEAD says", head.headers["content-length"], "3")
        expect_status(daemon, 200, "/health?x=y")
        expect("the status at its end", daemon.end()[0], 0)


def page(program):
    with Shown(program) as daemon:
        answer = expect_status(daemon, 200, "/")
        expect("the page", answer.body, PAGE.read_bytes())
        expect("its type", answer.headers["content-type"], "text/html; charset=utf-8")
        expect_guards(answer)


def metrics(program):
    with Shown(program) as daemon:
        peers = [daemon.opened(), daemon.opened()]
        answer = expect_status(daemon, 200, "/metrics")
        expect("its type", answer.headers["content-type"], "text/plain; version=0.0.4; charset=utf-8")
        expect_guards(answer)
        lines = answer.body.decode().splitlines()
        expect("the connections", "weblocks_connections 2" in lines, True)
        for peer in peers:
            peer.leave()
        gone = lambda: "weblocks_connections 0" in daemon.get("/metrics").body.decode().splitlines()
        until_true("they are gone", gone)


def bytes_sent(program):
    """Those of fencing tokens are among them."""
    with Shown(program, "--epoch", "1") as daemon:
        peer = daemon.peer(FENCE)
        told = [peer.ask(open_of(URL)), peer.ask(request(1))]
        expect("whether a token was told", "fence" in told[1], True)
        wanted = f"weblocks_sent_bytes_total {sum(map(len, told))}"
        until_true("they are counted", lambda: wanted in daemon.get("/metrics").body.decode().splitlines())


def metrics_are_well_formed(program):
    """A name's samples stand together behind its help and its type, and promtool accepts them, where it is there."""
    with Shown(program) as daemon:
        daemon.opened().leave()
        text = daemon.get("/metrics").body
        expect("whether it ends in a line feed", text.endswith(b"\n"), True)
        kinds, described = {}, set()
        for line in text.decode().splitlines():
            words = line.split(" ")
            if words[:2] == ["#", "HELP"]:
                described.add(words[2])
            elif words[:2] == ["#", "TYPE"]:
                named = words[2]
                expect(f"whether {named} has help, and one type", (named in described, named in kinds), (True, False))
                kinds[words[2]] = words[3]
            else:
                name = words[0].partition("{")[0]
                expect(f"whether {name} is the last that has a type", list(kinds)[-1], name)
                expect(f"whether {name} is named by its kind", name.endswith("_total"), kinds[name] == "counter")
                expect(f"whether the value of {name} is a whole number", words[1].isdigit(), True)
        if tool := shutil.which("promtool"):
            ended = subprocess.run([tool, "check", "metrics"], input=text, capture_output=True, timeout=SECONDS)
            expect_end(Ended(ended.returncode, ended.stdout, ended.stderr), b"")


def ask(name, mode="exclusive", number=1):
    return json.dumps({"id": number, "name": name, "op": "request", "options": {"mode": mode}})


def locks(program):
    name = '</script>"\\\u2028\u0001\U0001f512'
    with Shown(program) as daemon:
        nothing = {"left_out": {"managers": 0, "rows": 0}, "managers": []}
        expect("what there is at first", json.loads(daemon.get("/locks").body), nothing)
        holder, waiter, other = daemon.opened(), daemon.opened(), daemon.opened("https://b.test:8443/")
        holder.ask(ask(name))
        waiter.ask(ask(name, "shared", 2))
        other.ask(ask("x"))
        answer = expect_status(daemon, 200, "/locks")
        expect("its type", answer.headers["content-type"], "application/json")
        expect_guards(answer)
        found = json.loads(answer.body, object_pairs_hook=in_order)
        first, second = found["managers"]
        expect("the origins", [first["origin"], second["origin"]], ["https://a.test", "https://b.test:8443"])
        expect("the bucket", first["bucket"], "default")
        (held,), (pending,) = first["held"], first["pending"]
        mine = {"client": "client-1", "mode": "exclusive", "name": name, "request": 1}
        theirs = {"client": "client-2", "mode": "shared", "name": name, "request": 2}
        expect("who holds", without_times(held), mine)
        expect("who waits", without_times(pending), theirs)
        expect("whether who waits was granted", "since_granted" in pending, False)
        times = held["since_granted"], held["since_asked"]
        expect("whether it was asked for before", 0 <= times[0] <= times[1] < 6 * SECONDS, True)
        one = json.loads(daemon.get("/locks?origin=https%3A%2F%2Fb.test%3A8443").body)
        expect("one origin", [it["origin"] for it in one["managers"]], ["https://b.test:8443"])
        none = json.loads(daemon.get("/locks?origin=https://c.test").body)
        expect("an origin without locks", none["managers"], [])


def left_out_locks(program):
    """Ten origins with so many locks that their rows take all the room, and two behind them."""
    rows = {f"https://s{number:02}.test": 1_000 for number in range(11)} | {"https://s11.test": 7}
    rows["https://s00.test"] = 1_003
    with Shown(program) as daemon:
        peers = [daemon.opened(origin) for origin in rows]
        for peer, count in zip(peers, rows.values()):
            for number in range(1, count + 1):
                peer.ask(ask(f"lock {number}", number=number))
        found = json.loads(daemon.get("/locks").body)
        listed = {it["origin"]: len(it["held"]) + len(it["pending"]) for it in found["managers"]}
        expect("the rows of those that are listed", listed, dict.fromkeys(list(rows)[:10], 1_000))
        expect("what the first leaves out", found["managers"][0]["left_out"], 3)
        expect("what is left out", found["left_out"], {"managers": 2, "rows": 1_007})
        one = json.loads(daemon.get("/locks?origin=https://s11.test").body)
        expect("the rows of an origin that is asked for", len(one["managers"][0]["held"]), 7)
        expect("what is left out there", one["left_out"], {"managers": 0, "rows": 0})


def in_order(pairs):
    """An object, whose members have to stand in the order of their names."""
    names = [name for name, _ in pairs]
    expect("the order of the members", names, sorted(names))
    return dict(pairs)


def without_times(row):
    return {key: value for key, value in row.items() if not key.startswith("since")}


# ---- who is refused


def bad_queries(program):
    with Shown(program) as daemon:
        for query in ["origin=", "origin=nonsense", "origin=data:,x", "origin=null", "x=y", "origin", ""]:
            expect_status(daemon, 400, f"/locks?{query}")
        one = "origin=https://a.test"
        for query in [f"{one}&{one}", f"{one}&x=y", f"x=y&{one}", f"{one}&"]:
            expect_status(daemon, 400, f"/locks?{query}")


def no_such_page(program):
    with Shown(program) as daemon:
        for target in ["/x", "/health/", "/Health", "//health", "/locks/x", "/%6cocks", "/index.html", "*"]:
            expect_guards(expect_status(daemon, 404, target))


def other_methods(program):
    with Shown(program) as daemon:
        for method in ["POST", "PUT", "DELETE", "PATCH", "OPTIONS", "TRACE", "get"]:
            for target in ["/", "/health", "/metrics", "/locks"]:
                answer = expect_status(daemon, 405, target, method=method)
                expect("Allow", answer.headers.get("allow"), "GET, HEAD")
                expect_guards(answer)
        expect_status(daemon, 404, "/x", method="POST")
        expect_status(daemon, 413, "/health", "Content-Length: 1", method="POST")


def hosts(program):
    with Shown(program, "--status-host", "status.test", "--status-host", "[2001:db8::1]") as daemon:
        port = daemon.status_port
        known = [f"localhost:{port}", f"LocalHost:{port}", f"127.0.0.1:{port}", f"[::1]:{port}"]
        named = ["status.test", "Status.Test", "status.test:443", f"status.test:{port}", "[2001:db8::1]:1"]
        for host in [*known, *named]:
            expect_status(daemon, 200, host=host)
        strange = ["localhost", "127.0.0.1", "[::1]", f"localhost:{port + 1}", f"127.0.0.2:{port}", f"evil.test:{port}"]
        longer = ["status.test.evil.test", "xstatus.test", "status.tes", "[2001:db8::2]", "status.test:x"]
        for host in [*strange, *longer]:
            for target in ["/health", "/locks", "/metrics", "/", "/x"]:
                expect_status(daemon, 400, target, host=host)
        expect_guards(daemon.get(host="evil.test"))


def one_host(program):
    with Shown(program) as daemon:
        expect_status(daemon, 400, host="")
        expect_status(daemon, 400, host="", version="1.0")
        expect_status(daemon, 200, version="1.0")
        expect_status(daemon, 400, "/health", f"Host: {daemon.local()}")
        expect_status(daemon, 400, "/health", "Host: evil.test")


def absolute_targets(program):
    with Shown(program) as daemon:
        for target in [f"http://{daemon.local()}/health", "http://evil.test/health", daemon.local()]:
            expect_status(daemon, 400, target)


def basic(user, password):
    return "Authorization: Basic " + base64.b64encode(f"{user}:{password}".encode()).decode()


def tokens(program):
    """Beyond this machine a token is wanted."""
    with token_file("one\ntwo https://a.test\n") as path:
        options = ["--token-file", path]
        with Shown(program, *options, status="0.0.0.0:0") as daemon:
            for target in ["/health", "/metrics", "/locks", "/", "/x"]:
                answer = expect_status(daemon, 401, target)
                expect("what it asks for", answer.headers["www-authenticate"].startswith("Basic realm="), True)
                expect_guards(answer)
            written = ["authorization: BEARER one", "Authorization: basic Om9uZQ=="]
            for header in [bearer("one"), basic("", "one"), basic("x", "one"), *written]:
                expect_status(daemon, 200, "/health", header)
            bad = [bearer("x"), bearer(""), bearer("onee"), basic("one", ""), basic("one", "x"), basic("", "x:one")]
            odd = ["Basic", "Basic !", "Basic b25l", "one", "Digest one"]
            for header in [*bad, *(f"Authorization: {it}" for it in odd), "Cookie: one"]:
                expect_status(daemon, 401, "/health", header)
            expect_status(daemon, 403, "/locks", bearer("two"))
            expect_status(daemon, 400, "/locks", bearer("one"), bearer("one"))
            expect_status(daemon, 400, "/locks", bearer("one"), host="evil.test")
            expect_status(daemon, 404, "/x", bearer("one"))
            status, log = daemon.end()
            expect("the status", status, 0)
            expect("whether a token is in the log", "one" in log.replace("none", ""), False)
        with Shown(program, *options) as daemon:
            expect_status(daemon, 200, "/locks")


def tokens_are_read_again(program):
    with token_file("one\n") as path:
        with Shown(program, "--token-file", path, status="0.0.0.0:0") as daemon:
            expect_status(daemon, 200, "/health", bearer("one"))
            Path(path).write_text("two\n")
            until_true("the new token is one", lambda: daemon.get("/health", bearer("two")).status == 200, 12)
            expect_status(daemon, 401, "/health", bearer("one"))


def open_to_all(program):
    with Shown(program, "--open", status="0.0.0.0:0") as daemon:
        expect_status(daemon, 200, "/locks")
        expect_status(daemon, 400, "/locks", host="evil.test")


def refused(program, *options):
    return run_on([program, "daemon", "--listen", "127.0.0.1:0", "--while-input", *options])


def bad_addresses(program):
    why = b"0.0.0.0:0 is reached from other machines, and there is no --token-file: with --open all may come in"
    expect_end(refused(program, "--status", "0.0.0.0:0"), b"", 1, b"weblocks: " + why + b"\n")
    for address in ["localhost:1", "127.0.0.1", "127.0.0.1:65536", "x"]:
        ended = refused(program, "--status", address)
        expect(f"the status with {address}", (ended.status, ended.out), (2, b""))
        expect("whether it names the option", b"--status <ADDRESS:PORT>" in ended.err, True)
    expect("the status of an empty host", refused(program, "--status", "127.0.0.1:0", "--status-host", "").status, 2)


def port_in_use(program):
    with socket.create_server(("127.0.0.1", 0)) as taken:
        address = "127.0.0.1:%d" % taken.getsockname()[1]
        expect_end(refused(program, "--status", address), b"", 1, f"weblocks: cannot listen on {address}\n".encode())


def status_checks(program):
    for name, check in [
        ("the health of a daemon", health),
        ("the page", page),
        ("metrics", metrics),
        ("the bytes that were sent", bytes_sent),
        ("the text of metrics", metrics_are_well_formed),
        ("locks", locks),
        ("locks that are left out", left_out_locks),
        ("bad queries for locks", bad_queries),
        ("targets that aren't there", no_such_page),
        ("other methods", other_methods),
        ("the hosts that a request may name", hosts),
        ("a missing host, or a second", one_host),
        ("absolute targets", absolute_targets),
        ("tokens for the status", tokens),
        ("the status' tokens are read again", tokens_are_read_again),
        ("a status that all may read", open_to_all),
        ("bad addresses of a status", bad_addresses),
        ("a port of a status that is taken", port_in_use),
    ]:
        yield name, lambda c=check: c(program)
