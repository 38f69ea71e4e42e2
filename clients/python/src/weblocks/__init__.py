"""Locks with the behaviour of the W3C Web Locks API, shared by the programs that connect to a `weblocks` server.

    async with weblocks.connect("ws://127.0.0.1:8080", origin="https://a.test") as locks:
        async with locks.request("db", mode="shared", timeout=5) as lock:
            ...

`weblocks.sync` has the same for threads, and `python3 -m weblocks` for the shell. `weblocks.local` has it in one
process, without a server, for tests.
"""

from . import sync
from .errors import Closed, Disconnected, Error, Forbidden, LockLost, LockStolen, Refused
from .library import MissingLibrary, World
from .in_process import Local, local
from .manager import LockManager, connect
from .messages import Kind, Mode
from .queries import LockInfo, Snapshot
from .requests import Lock, LockRequest

__all__ = [
    "Closed",
    "Disconnected",
    "Error",
    "Forbidden",
    "Kind",
    "Local",
    "Lock",
    "LockInfo",
    "LockLost",
    "LockManager",
    "LockRequest",
    "LockStolen",
    "MissingLibrary",
    "Mode",
    "Refused",
    "Snapshot",
    "World",
    "connect",
    "local",
    "sync",
]
