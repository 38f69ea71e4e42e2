"""Peers from several addresses of one subnet of IPv6, which count as one address.

As a program it is that check, in a network of its own, whose loopback it gives these addresses.
"""

import fcntl
import socket
import struct
import subprocess
import sys
from pathlib import Path

sys.dont_write_bytecode = True
from apart import apart
from daemon_server import Daemon, until_true
from running import Wrong, expect

# Three of one subnet, the last of which has no place, and one of another.
SUBNET = ["2001:db8::1", "2001:db8::2", "2001:db8::ffff:ffff:ffff:ffff"]
ANOTHER = "2001:db8:0:1::1"
PREFIX = 64


def give_addresses() -> None:
    """Gives the loopback these addresses."""
    set_address = 0x8916
    with socket.socket(socket.AF_INET6, socket.SOCK_DGRAM) as it:
        for address in [*SUBNET, ANOTHER]:
            number = socket.inet_pton(socket.AF_INET6, address)
            fcntl.ioctl(it, set_address, struct.pack("16sIi", number, PREFIX, socket.if_nametoindex("lo")))


def no_place_for_a_subnet(program: str) -> None:
    first, second, third = SUBNET
    with Daemon(program, "--open", "--per-address", "2", listen=f"[{first}]:0") as daemon:
        there = [daemon.peer(source=it) for it in (first, second)]
        expect("the statuses", [peer.status for peer in there], [101, 101])
        expect("a third address of the subnet", daemon.peer(source=third).status, 503)
        expect("another subnet", daemon.peer(source=ANOTHER).status, 101)
        there.pop().leave()
        until_true("a place is free", lambda: daemon.peer(source=third).status == 101)
        log = daemon.end()[1]
        expect("whether the log tells the address", f"{third}: refused: too many connections" in log, True)


def in_its_own_network(program: str) -> None:
    words = [*apart(), sys.executable, str(Path(__file__).resolve()), program]
    ran = subprocess.run(words, stdin=subprocess.DEVNULL, capture_output=True, text=True)
    if ran.returncode:
        raise Wrong(" ".join(ran.stderr.split("Wrong: ")[-1].split()) or f"status {ran.returncode}")


def subnet_checks(program: str):
    if apart():
        yield "no place for a subnet of IPv6", lambda: in_its_own_network(program)
    else:
        print("tests/run_daemon: skipped: places of a subnet of IPv6, as no network can be made for them")


if __name__ == "__main__":
    give_addresses()
    no_place_for_a_subnet(sys.argv[1])
