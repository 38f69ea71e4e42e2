"""The same locks for threads: `with weblocks.sync.connect(..) as locks: with locks.request(..) as lock: ..`."""

from __future__ import annotations

import asyncio
import contextlib
import os
import queue
import ssl as tls
import threading
from collections.abc import Callable, Coroutine, Iterator
from types import TracebackType
from typing import Any, Generic, Literal, TypeVar, cast, overload

from . import manager
from .errors import Closed, LockLost
from .messages import Kind, Mode
from .names import wire_of_checked
from .queries import Snapshot
from .requests import Lock, LockOrNone, Request, Wish, check_wish, wait_for_lock
from .transport import Options

Answer = TypeVar("Answer")


class Call(Generic[Answer]):
    """A coroutine that the loop runs for a thread, which waits for what comes of it.

    It waits by a queue of C code. What is written in Python, as `concurrent.futures`, may be left locked by an
    exception of a signal's handler, as Ctrl-C's, and then keeps the loop for ever.
    """

    def __init__(self, work: Callable[[], Coroutine[Any, Any, Answer]]) -> None:
        self._work = work
        self._task: asyncio.Task[Answer] | None = None
        self._outcome: queue.SimpleQueue[BaseException | None] = queue.SimpleQueue()
        """The error that ended it, or None where there is an answer."""
        self._answer: Answer

    def start(self) -> None:
        """Begins it, in the loop."""
        self._task = asyncio.create_task(self._work())
        self._task.add_done_callback(self._end)

    def cancel(self) -> None:
        """Cancels it, in the loop, if it was begun: what comes of it is nobody's any more."""
        if self._task is not None:
            self._task.cancel()

    def wait(self) -> Answer:
        """Waits for its end; raises Closed where the loop is stopped before."""
        error = self._outcome.get()
        if error is not None:
            raise error
        return self._answer

    def leave(self) -> None:
        """Has the thread wait no longer: the loop is stopped, or its tasks were cancelled."""
        self._outcome.put(Closed("the lock manager was closed"))

    def _end(self, task: asyncio.Task[Answer]) -> None:
        # It is freed here, as that is Python code, in which an interruption of the thread would be lost.
        self._task = None
        if task.cancelled():
            self.leave()
            return
        error = task.exception()
        if error is None:
            self._answer = task.result()
        self._outcome.put(error)


class LoopThread:
    """A thread that runs an event loop, in which other threads have coroutines run."""

    def __init__(self) -> None:
        self._loop = asyncio.new_event_loop()
        self._thread = threading.Thread(target=self._serve, name="weblocks", daemon=True)
        self._lock = threading.Lock()
        self._stopped = False
        self._calls: set[Call[Any]] = set()
        self._process = os.getpid()
        self._thread.start()

    @property
    def is_here(self) -> bool:
        """Whether this is its process, and none that was forked of it, which has no such thread."""
        return os.getpid() == self._process

    def run(self, work: Callable[[], Coroutine[Any, Any, Answer]]) -> Answer:
        """Runs a coroutine to its end; an interruption of the thread that waits cancels it.

        Raises Closed where the loop is stopped before, and RuntimeError in a forked process.
        """
        if not self.is_here:
            raise RuntimeError("a lock manager isn't there in a forked process: connect anew there")
        call = Call(work)
        try:
            with self._lock:
                if self._stopped:
                    raise Closed("the lock manager was closed")
                self._calls.add(call)
                self._loop.call_soon_threadsafe(call.start)
            return call.wait()
        except BaseException:
            self.call(call.cancel)
            raise
        finally:
            with self._lock:
                self._calls.discard(call)

    def call(self, work: Callable[[], None]) -> None:
        """Has the loop call a function soon, unless it is stopped, or isn't there."""
        if self.is_here:
            with self._lock:
                if not self._stopped:
                    self._loop.call_soon_threadsafe(work)

    def stop(self) -> None:
        """Cancels what still runs, and ends the thread."""
        if not self.is_here:
            return
        with self._lock:
            # (in this order, so that a further call does what an interruption leaves undone, and doesn't wait for ever)
            for call in self._calls:
                call.leave()
            if not self._stopped:
                self._loop.call_soon_threadsafe(self._loop.stop)
                self._stopped = True
        self._thread.join()

    def _serve(self) -> None:
        with asyncio.Runner(loop_factory=lambda: self._loop) as runner:
            runner.get_loop().run_forever()


class LockRequest(Generic[LockOrNone]):
    """The block that waits for a lock and holds it: `with locks.request("db") as lock: ..`.

    A lock that is lost meanwhile shows in `lock.lost`, by `lock.check()`, which raises, and at the block's end, which
    raises LockLost or LockStolen unless the block raised something itself.
    """

    def __init__(self, thread: LoopThread, locks: manager.LockManager, wish: Wish) -> None:
        self._thread = thread
        self._locks = locks
        self._wish = wish
        self._request: Request | None = None
        self._left = False
        """Whether nobody waits for the lock any more. The request may not have been made by then."""

    def __enter__(self) -> LockOrNone:
        if self._request is not None or self._left:
            raise RuntimeError("a request serves one block: call request() again for the next")
        try:
            return cast(LockOrNone, self._thread.run(self._acquire))
        except BaseException:
            # The lock may have come while the thread was interrupted.
            self._thread.call(self._give_up)
            raise

    def __exit__(
        self, kind: type[BaseException] | None, _error: BaseException | None, _trace: TracebackType | None
    ) -> None:
        # (what calls Python code before the `try` would be a place for an interruption that leaves the lock held)
        request = self._request
        if request is None or request.lock is None:
            return
        if kind is not None and not self._thread.is_here:
            # In a forked process the lock is the parent's, and the block's own error, as SystemExit, comes out of it.
            return
        try:
            lost = self._thread.run(request.release)
        except Closed:
            lost = request.lock.lost or LockLost("the lock manager was closed before the release was answered")
        except BaseException:
            # The thread may have been interrupted before the release was begun.
            self._thread.call(request.give_up)
            raise
        if lost is not None and kind is None:
            raise lost

    async def _acquire(self) -> Lock | None:
        if self._left:
            raise asyncio.CancelledError
        self._request = self._locks.submit(self._wish)
        return await wait_for_lock(self._request)

    def _give_up(self) -> None:
        self._left = True
        if self._request is not None:
            self._request.give_up()


class LockManager:
    """`weblocks.LockManager` for threads: any number of them may use it at once."""

    def __init__(self, thread: LoopThread, locks: manager.LockManager) -> None:
        self._thread = thread
        self._locks = locks

    @property
    def client_id(self) -> str | None:
        """By which `client_id` `query` shows what is this manager's own."""
        return self._locks.client_id

    @overload
    def request(
        self,
        name: str,
        *,
        mode: Mode = "exclusive",
        timeout: float | None = None,
        if_available: Literal[False] = False,
        steal: bool = False,
    ) -> LockRequest[Lock]: ...

    @overload
    def request(
        self,
        name: str,
        *,
        mode: Mode = "exclusive",
        timeout: float | None = None,
        if_available: bool,
        steal: bool = False,
    ) -> LockRequest[Lock | None]: ...

    def request(
        self,
        name: str,
        *,
        mode: Mode = "exclusive",
        timeout: float | None = None,
        if_available: bool = False,
        steal: bool = False,
    ) -> LockRequest[Lock] | LockRequest[Lock | None]:
        """A block that holds a lock, as `weblocks.LockManager.request` says.

        Only how a loss is told differs: no thread is interrupted, so ask `lock.lost`, or call `lock.check()`.
        """
        wish = Wish(name, wire_of_checked(name), mode, steal, if_available, timeout)
        check_wish(wish)
        return LockRequest(self._thread, self._locks, wish)

    def query(self) -> Snapshot:
        """What is held and pending in the origin's bucket, as `weblocks.LockManager.query` says."""
        return self._thread.run(self._locks.query)

    def close(self) -> None:
        """Gives up all, and ends the thread of this manager. May be called again.

        In a forked process it does nothing: what it would end is the parent's.
        """
        if self._thread.is_here:
            with contextlib.suppress(Closed):
                self._thread.run(self._locks.close)
            self._thread.stop()


@contextlib.contextmanager
def connect(
    url: str,
    *,
    origin: str,
    kind: Kind = "window",
    bucket: str = "default",
    token: str | None = None,
    heartbeat: float = 10.0,
    poll_interval: float = 0.05,
    reconnect: bool = True,
    fences: bool = False,
    open_timeout: float = 10.0,
    ssl: tls.SSLContext | None = None,
) -> Iterator[LockManager]:
    """Connects to a service, as `weblocks.connect` says, by a thread that it starts."""
    options = Options(
        url, origin, kind, bucket, token, heartbeat, poll_interval, reconnect, fences, open_timeout, ssl
    )
    thread = LoopThread()
    try:
        locks = LockManager(thread, thread.run(lambda: manager.LockManager.open(options)))
        try:
            yield locks
        finally:
            locks.close()
    finally:
        thread.stop()
