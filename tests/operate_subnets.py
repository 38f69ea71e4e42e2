"""Clients with several addresses, behind a proxy: IPv6 addresses of one subnet count as one, each of IPv4 by itself.

As a program it is that check, in a network of its own, whose loopback it gives these addresses.
"""

import subprocess
import sys
from functools import partial
from pathlib import Path
from types import SimpleNamespace
from typing import Any

sys.dont_write_bytecode = True
from apart import apart
from daemon_server import Daemon, until_true
from daemon_subnets import ANOTHER, SUBNET, give_addresses
from operate_needs import Checks, Needs
from operate_package import Built
from operate_proxies import HAPROXYS_USER, Certificate, Haproxy, Nginx, front_of
from running import Wrong, expect

# A client and another one, each by the addresses of three connections, of which it may have two.
CLIENTS = [(SUBNET, ANOTHER), (["127.0.0.1"] * 3, "127.0.0.2")]


def bounds_subnets(kind: type[Nginx] | type[Haproxy], built: Any) -> None:
    certificate = Certificate(built.room)
    proxy = kind(built.room, certificate)
    # (root of this network is nobody else's root, and can't become another user)
    fewer = proxy.bounds(2) + [(HAPROXYS_USER, "")] * (kind is Haproxy)
    with Daemon(built.program) as daemon, front_of(built, proxy, certificate, daemon.port, *fewer) as front:
        for (first, second, third), another in CLIENTS:
            there = [front.peer(source=it) for it in (first, second)]
            expect(f"the statuses of {first} and {second}", [it.status for it in there], [101, 101])
            expect(f"the status of {third} beside them", front.peer(source=third).status, 503)
            expect(f"the status of {another}", front.peer(source=another).status, 101)
            there.pop().leave()
            until_true("a place is free again", lambda: front.peer(source=third).status == 101)


def in_its_own_network(kind: type[Nginx] | type[Haproxy], built: Built) -> None:
    room = built.place / f"{kind.name}-subnets"
    room.mkdir()
    words = [*apart(), sys.executable, str(Path(__file__).resolve()), kind.name, room, built.tree, built.program]
    ran = subprocess.run(words, stdin=subprocess.DEVNULL, capture_output=True, text=True)
    if ran.returncode:
        raise Wrong(" ".join(ran.stderr.split("Wrong: ")[-1].split()) or f"status {ran.returncode}")


def subnet_checks(built: Built, needs: Needs) -> Checks:
    for kind, package in ((Nginx, "nginx-light"), (Haproxy, "haproxy")):
        name = f"a subnet of IPv6 is one client, by {kind.name}"
        check = partial(in_its_own_network, kind, built)
        if apart():
            yield from needs.each(name, [package, "openssl"], lambda it=(name, check): iter([it]))
        else:
            yield from needs.lack("a network of its own", name)


if __name__ == "__main__":
    give_addresses()
    name, room, tree, program = sys.argv[1:]
    built = SimpleNamespace(room=Path(room), tree=Path(tree), program=Path(program))
    bounds_subnets({it.name: it for it in (Nginx, Haproxy)}[name], built)
