"""What the tests stand on: the built program as a server, polled or with pushes, and a proxy that can be cut."""

from __future__ import annotations

import asyncio
import contextlib
import itertools
import logging
import os
import signal
import socket
import subprocess
import tempfile
import threading
import time
import unittest
from collections.abc import AsyncIterator, Iterator
from pathlib import Path
from typing import Any

import websockets
from websockets.legacy.server import serve, unix_serve

import weblocks

TOP = Path(__file__).resolve().parents[3]
PACKAGE = TOP / "clients" / "python"
PROGRAM = os.environ.get("WEBLOCKS_PROGRAM", str(TOP / "weblocks"))
SECONDS = 60
"""How long anything may take on a machine with much else to do."""

_origins = itertools.count(1)


def new_origin() -> str:
    """An origin that no other test has."""
    return f"https://test-{next(_origins)}.test"


def free_port() -> int:
    with socket.socket() as it:
        it.bind(("127.0.0.1", 0))
        port: int = it.getsockname()[1]
        return port


class Server:
    """The program as `weblocks serve`, which is polled. It may be killed, stopped and started again on its port."""

    def __init__(self) -> None:
        self.port = free_port()
        self.start()
        self.url = f"ws://127.0.0.1:{self.port}"

    def command(self) -> list[str]:
        return [PROGRAM, "serve", "--port", str(self.port), "--clients", "10000"]

    def start(self) -> None:
        self._process = subprocess.Popen(self.command(), stdin=subprocess.PIPE, stdout=subprocess.PIPE)
        assert self._process.stdout is not None
        line = self._process.stdout.readline().decode()
        assert line.startswith("listening "), line
        self.port = int(line.replace(":", " ").split()[-1])

    def kill(self) -> None:
        self._process.kill()
        self._close()

    def stop(self) -> None:
        """It is there, and does nothing, as on a machine that has come to a halt."""
        self._process.send_signal(signal.SIGSTOP)

    def go_on(self) -> None:
        self._process.send_signal(signal.SIGCONT)

    def _close(self) -> None:
        assert self._process.stdin is not None and self._process.stdout is not None
        self._process.stdin.close()
        self._process.wait(SECONDS)
        self._process.stdout.close()


class Daemon(Server):
    """The program as `weblocks daemon`, which pushes; with further options of it. It ends with the tests at last."""

    def __init__(self, *words: str) -> None:
        self.words = words
        self.port = 0
        self.start()
        self.url = f"ws://127.0.0.1:{self.port}"

    def command(self) -> list[str]:
        return [PROGRAM, "daemon", "--listen", f"127.0.0.1:{self.port}", "--while-input", "--log", "off", *self.words]

    def end(self) -> None:
        """Ends it in good order: each of its clients is told."""
        self._close()


def daemon_with_tokens(case: unittest.TestCase, *lines: str, words: tuple[str, ...] = ()) -> Daemon:
    """A daemon for one test, that knows its clients by these lines of a file; with further options of it."""
    file = Path(case.enterContext(tempfile.TemporaryDirectory()), "tokens")
    file.touch(0o600)
    file.write_text("".join(f"{line}\n" for line in lines))
    daemon = Daemon("--token-file", str(file), *words)
    case.addCleanup(daemon.kill)
    return daemon


class LoopThread:
    """A thread with an event loop for a server of the tests, so that no client waits for itself."""

    def __init__(self) -> None:
        self.loop = asyncio.new_event_loop()
        self._thread = threading.Thread(target=self.loop.run_forever, daemon=True)
        self._thread.start()

    def run(self, work: Any) -> Any:
        return asyncio.run_coroutine_threadsafe(work, self.loop).result(SECONDS)

    def end(self) -> None:
        async def cancel_all() -> None:
            tasks = asyncio.all_tasks() - {asyncio.current_task()}
            for task in tasks:
                task.cancel()
            await asyncio.wait(tasks, timeout=5) if tasks else None

        self.run(cancel_all())
        self.loop.call_soon_threadsafe(self.loop.stop)
        self._thread.join()
        self.loop.close()


class Proxy:
    """Hands bytes on to a server, until it swallows them or cuts the connections."""

    def __init__(self, port: int) -> None:
        self.port = free_port()
        self.url = f"ws://127.0.0.1:{self.port}"
        self.swallows = False
        self.refuses = False
        self._target = port
        self._writers: set[asyncio.StreamWriter] = set()
        self._thread = LoopThread()
        self._server = self._thread.run(asyncio.start_server(self._serve, "127.0.0.1", self.port))

    def cut(self) -> None:
        """Ends all connections; new ones are made as before."""

        async def abort() -> None:
            for writer in self._writers:
                writer.transport.abort()

        self._thread.run(abort())

    def end(self) -> None:
        async def close() -> None:
            self._server.close()
            await self._server.wait_closed()

        self.cut()
        self._thread.run(close())
        self._thread.end()

    async def _serve(self, reader: asyncio.StreamReader, writer: asyncio.StreamWriter) -> None:
        if self.refuses:
            writer.transport.abort()
            return
        far_reader, far_writer = await asyncio.open_connection("127.0.0.1", self._target)
        self._writers |= {writer, far_writer}
        await asyncio.gather(self._hand_on(reader, far_writer), self._hand_on(far_reader, writer))

    async def _hand_on(self, reader: asyncio.StreamReader, writer: asyncio.StreamWriter) -> None:
        with contextlib.suppress(OSError):
            while data := await reader.read(65536):
                if not self.swallows:
                    writer.write(data)
        if not self.swallows:
            writer.transport.abort()


def serve_own(case: unittest.TestCase, handle: Any, path: Path | None = None, **words: Any) -> str:
    """A server of the tests' own for one test, on the Unix socket of that path or on a free port. Answers its URL."""
    thread = LoopThread()
    case.addCleanup(thread.end)

    async def listen() -> Any:
        if path is not None:
            return await unix_serve(handle, str(path), **words)
        return await serve(handle, "127.0.0.1", 0, **words)

    server = thread.run(listen())

    async def close() -> None:
        server.close()
        await server.wait_closed()

    case.addCleanup(lambda: thread.run(close()))
    return "ws://127.0.0.1:%d" % server.sockets[0].getsockname()[1] if path is None else f"unix:{path}"


def hand_on_to(url: str) -> Any:
    """What such a server does with a connection: it hands messages on to a server, and what comes from there back."""

    async def copy(source: Any, sink: Any) -> None:
        async for text in source:
            await sink.send(text)
        await sink.close()

    async def handle(client: Any, _path: str = "") -> None:
        selected = [client.subprotocol] if client.subprotocol else None
        async with websockets.connect(url, subprotocols=selected, compression=None) as service:
            with contextlib.suppress(websockets.ConnectionClosed):
                await asyncio.gather(copy(client, service), copy(service, client))

    return handle


@contextlib.contextmanager
def proxied(port: int) -> Iterator[Proxy]:
    proxy = Proxy(port)
    try:
        yield proxy
    finally:
        proxy.end()


class BothServersCase(unittest.TestCase):
    """Tests that have a server that is polled, and one that pushes."""

    server: Server
    daemon: Daemon

    @classmethod
    def setUpClass(cls) -> None:
        cls.server = Server()
        cls.addClassCleanup(cls.server.kill)
        cls.daemon = Daemon()
        cls.addClassCleanup(cls.daemon.kill)


class ServedCase(unittest.IsolatedAsyncioTestCase):
    """Tests that have a server for all of them, and an origin for each; what is logged is only asserted."""

    server: Server
    pushes = False
    """Whether the server is the daemon, which pushes."""

    @classmethod
    def setUpClass(cls) -> None:
        cls.server = cls.start_server()
        cls.addClassCleanup(cls.server.kill)
        cls.url = cls.server.url

    @classmethod
    def start_server(cls) -> Server:
        return Daemon() if cls.pushes else Server()

    def setUp(self) -> None:
        self.origin = new_origin()
        for name in ("weblocks", "asyncio", "websockets"):
            logger = logging.getLogger(name)
            self.addCleanup(logger.setLevel, logger.level)
            logger.setLevel(logging.CRITICAL)

    async def asyncSetUp(self) -> None:
        """Without the debug mode of event loops, which keeps a stack for each call and takes many times as long."""
        asyncio.get_running_loop().set_debug(False)

    def connect(self, **options: Any) -> contextlib.AbstractAsyncContextManager[weblocks.LockManager]:
        """A manager of the test's origin, at the test's server."""
        options.setdefault("origin", self.origin)
        options.setdefault("poll_interval", 0.005)
        return weblocks.connect(options.pop("url", self.url), **options)

    @contextlib.asynccontextmanager
    async def connected(self, count: int, **options: Any) -> AsyncIterator[list[weblocks.LockManager]]:
        """So many managers."""
        async with contextlib.AsyncExitStack() as stack:
            yield [await stack.enter_async_context(self.connect(**options)) for _ in range(count)]

    async def until_waiting(self, locks: weblocks.LockManager, count: int) -> None:
        """Waits until so many requests are pending."""
        end = time.monotonic() + SECONDS
        while len((await locks.query()).pending) != count:
            assert time.monotonic() < end, f"there were never {count} requests pending"

    async def until_held(self, locks: weblocks.LockManager, *names: str) -> None:
        """Waits until just these are held and nothing waits: the server learns of a lost connection by and by."""
        end = time.monotonic() + SECONDS
        while (left := await locks.query()).pending or [it.name for it in left.held] != [*names]:
            assert time.monotonic() < end, f"it was never so that just {names} were held"

    async def expect_nothing_left(self) -> None:
        """By another client's query, nothing is held or pending."""
        async with self.connect() as locks:
            snapshot = await locks.query()
            self.assertEqual(([], []), (snapshot.held, snapshot.pending))
