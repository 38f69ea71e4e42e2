"""A stand-in for a daemon with an epoch: it stands before one that has none, and adds the fencing tokens."""

import asyncio
import contextlib
import json

import websockets
from support import LoopThread
from websockets.legacy.server import serve

FENCES = "weblocks.fence"
PUSHES = "weblocks.push"


def fence_of(epoch, count):
    """A token as text."""
    return f"{epoch:016x}-{count:016x}"


class Fencing:
    """Hands messages on to a daemon, and what it says back, with the token of each grant where a client wants them."""

    def __init__(self, case, daemon, epoch):
        self.epoch = epoch
        """Where it is None, weblocks.push is selected."""
        self.count = 0
        self.offers = []
        self.ops = []
        self.told = []
        """The messages with tokens, as they were sent on."""
        self.member = self.number
        """What stands in a message as its member `fences`, by the requests that it tells granted."""
        self.unasked = None
        """What stands there for clients that want no tokens, where it is set."""
        self._daemon = daemon
        self._clients = set()
        self._thread = LoopThread()
        case.addCleanup(self._thread.end)
        self._server = self._thread.run(self._listen())
        case.addCleanup(self._end)
        self.url = "ws://127.0.0.1:%d" % self._server.sockets[0].getsockname()[1]

    def number(self, requests):
        """The requests' tokens, in the order of their grants."""
        fences = []
        for request in requests:
            self.count += 1
            fences.append({"fence": fence_of(self.epoch, self.count), "request": request})
        return fences

    def cut(self):
        """Ends all connections; new ones are made as before."""

        async def abort():
            for client in self._clients:
                client.transport.abort()

        self._thread.run(abort())

    async def _listen(self):
        words = {"subprotocols": [FENCES, PUSHES], "select_subprotocol": self._select, "compression": None}
        return await serve(self._serve, "127.0.0.1", 0, **words)

    def _end(self):
        async def close():
            self._server.close()
            await self._server.wait_closed()

        self._thread.run(close())

    def _select(self, offered, _known):
        self.offers.append(list(offered))
        return FENCES if FENCES in offered and self.epoch is not None else PUSHES

    async def _serve(self, client, _path=""):
        self._clients.add(client)
        async with websockets.connect(self._daemon.url, subprotocols=[PUSHES], compression=None) as service:
            ways = [asyncio.create_task(way(client, service)) for way in (self._ask, self._tell)]
            await asyncio.wait(ways, return_when=asyncio.FIRST_COMPLETED)
            for way in ways:
                way.cancel()
        self._clients.discard(client)
        await client.close()

    async def _ask(self, client, service):
        with contextlib.suppress(websockets.ConnectionClosed):
            async for text in client:
                self.ops.append(json.loads(text)["op"])
                await service.send(text)

    async def _tell(self, client, service):
        with contextlib.suppress(websockets.ConnectionClosed):
            async for text in service:
                await client.send(self._add_to(text, client.subprotocol))

    def _add_to(self, text, subprotocol):
        message = json.loads(text)
        granted = [notice["request"] for notice in message["notices"] if notice["phase"] == "granted"]
        member = self.member if subprotocol == FENCES else self.unasked
        if not granted or member is None:
            return text
        fenced = {"fences": member(granted), **message}
        self.told.append(fenced)
        return json.dumps(fenced)
