#!/usr/bin/env python3
"""Cycles a second over a server, beside a program that writes the same messages through the same library.

A cycle is a request for a free lock and its release, each awaited, on one connection. The two take turns, so that
both meet the same load of the machine. The time by the clock has the server's part in it, and means little on a machine
with other work; the processor time is that of the client's process alone, and there the best round is the least
disturbed.

    PYTHONPATH=clients/python/src /usr/bin/python3 clients/python/bench/cycles.py [--program ./weblocks] [--serve]
"""

from __future__ import annotations

import argparse
import asyncio
import contextlib
import json
import statistics
import subprocess
import sys
import time
from collections.abc import Callable, Coroutine, Iterator
from dataclasses import dataclass, field
from socket import create_server
from typing import Any

import websockets

import weblocks

ORIGIN = "https://bench.test"


@dataclass
class Times:
    """Seconds a cycle in each round, by the clock and of the processor."""

    clock: list[float] = field(default_factory=list)
    processor: list[float] = field(default_factory=list)

    async def add(self, cycles: int, work: Coroutine[Any, Any, None]) -> None:
        clock, processor = time.perf_counter(), time.process_time()
        await work
        self.clock.append((time.perf_counter() - clock) / cycles)
        self.processor.append((time.process_time() - processor) / cycles)


async def run_plain(socket: websockets.WebSocketClientProtocol, cycles: int, first: int) -> None:
    """A program that knows nothing but the messages."""
    for number in range(first, first + cycles):
        request = {"id": number, "op": "request", "name": "db", "options": {"signal": 1}}
        await socket.send(json.dumps(request))
        reply = json.loads(await socket.recv())
        assert reply["notices"] == [{"phase": "granted", "request": number}], reply
        await socket.send(json.dumps({"id": number, "op": "release", "request": number}))
        reply = json.loads(await socket.recv())
        assert reply["ok"] == {"release": "released"}, reply


async def run_client(locks: weblocks.LockManager, cycles: int) -> None:
    """A program that uses the package."""
    for _ in range(cycles):
        async with locks.request("db"):
            pass


async def compare(url: str, subprotocols: list[str] | None, cycles: int, rounds: int) -> None:
    plain, client = Times(), Times()
    async with (
        websockets.connect(url, subprotocols=subprotocols, compression=None, ping_interval=None) as socket,
        weblocks.connect(url, origin=ORIGIN, bucket="client") as locks,
    ):
        for message in ({"id": 1, "op": "open", "url": ORIGIN, "bucket": "plain"}, {"id": 2, "op": "signal"}):
            await socket.send(json.dumps(message))
            await socket.recv()
        for round in range(rounds):
            await plain.add(cycles, run_plain(socket, cycles, 1 + round * cycles))
            await client.add(cycles, run_client(locks, cycles))
    print(f"plain messages: {1 / statistics.median(plain.clock):6.0f} cycles/s")
    print(f"weblocks:       {1 / statistics.median(client.clock):6.0f} cycles/s")
    print(f"time by the clock, medians:      {compare_by(statistics.median, plain.clock, client.clock)}")
    print(f"time by the clock, best rounds:  {compare_by(min, plain.clock, client.clock)}")
    print(f"processor time, medians:         {compare_by(statistics.median, plain.processor, client.processor)}")
    print(f"processor time, best rounds:     {compare_by(min, plain.processor, client.processor)}")


def compare_by(choose: Callable[[list[float]], float], plain: list[float], client: list[float]) -> str:
    base, ours = choose(plain), choose(client)
    return f"{base * 1e6:6.0f} and {ours * 1e6:6.0f} us a cycle, ratio {ours / base:.2f}"


@contextlib.contextmanager
def run_server(command: list[str]) -> Iterator[str]:
    """Runs a server for as long as the block lasts, which gets its URL."""
    with subprocess.Popen(command, stdin=subprocess.PIPE, stdout=subprocess.PIPE, text=True) as server:
        try:
            assert server.stdout is not None
            said, _space, place = server.stdout.readline().strip().partition(" ")
            if said != "listening":
                sys.exit("the server does not listen")
            yield f"ws://127.0.0.1:{place.rpartition(':')[2]}"
        finally:
            server.terminate()


def free_port() -> int:
    with create_server(("127.0.0.1", 0)) as it:
        port: int = it.getsockname()[1]
        return port


def main() -> None:
    words = argparse.ArgumentParser(description="Cycles a second, with and without the package.")
    words.add_argument("--program", default="./weblocks", help="the program that serves (default: ./weblocks)")
    words.add_argument("--serve", action="store_true", help="by weblocks serve, which is polled, not by the daemon")
    words.add_argument("--cycles", type=int, default=100, help="in a round (default: 100)")
    words.add_argument("--rounds", type=int, default=50, help="of each (default: 50)")
    given = words.parse_args()
    command = [given.program, "daemon", "--listen", "127.0.0.1:0", "--while-input", "--log", "warn"]
    subprotocols: list[str] | None = ["weblocks.push"]
    if given.serve:
        command = [given.program, "serve", "--port", str(free_port()), "--clients", "10000"]
        subprotocols = None
    with run_server(command) as url:
        asyncio.run(compare(url, subprotocols, given.cycles, given.rounds))


if __name__ == "__main__":
    main()
