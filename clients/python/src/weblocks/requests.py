"""Requests for locks, from the call to the end of the lock, and the blocks that hold them."""

from __future__ import annotations

import asyncio
from collections.abc import Callable
from enum import Enum, auto
from numbers import Real
from types import TracebackType
from typing import Generic, NamedTuple, Protocol, TypeVar, cast

from .errors import LockLost
from .messages import Mode, Reason

LockOrNone = TypeVar("LockOrNone", bound="Lock | None", covariant=True)


class Lock:
    """A lock that is held, or was.

    `name` and `mode` are those of its request. `fence` is the fencing token of its grant, which compares with others as
    texts do; or None where the server gave none, or `connect` wasn't told `fences=True`: whoever wants tokens writes
    nothing then. `lost` is None for as long as nothing ended it but its own release, else the error that says what did.
    """

    def __init__(self, name: str, mode: Mode, fence: str | None) -> None:
        self.name = name
        self.mode = mode
        self.fence = fence
        self.lost: LockLost | None = None

    def check(self) -> None:
        """Raises LockLost, or LockStolen, if the lock is lost."""
        if self.lost is not None:
            raise self.lost

    def __repr__(self) -> str:
        state = "" if self.lost is None else " lost"
        return f"<Lock {self.name!r} {self.mode}{state}>"


class Wish(NamedTuple):
    """What a request asks for. `wire_name` is the text that stands for the name in messages."""

    name: str
    wire_name: str
    mode: Mode
    steal: bool = False
    if_available: bool = False
    timeout: float | None = None

    @property
    def only_if_available(self) -> bool:
        """Whether it is sent with `ifAvailable`. One that may wait for no time is: no reply comes before its timer."""
        return self.if_available or self.timeout == 0

    @property
    def waits(self) -> bool:
        """Whether the request may wait for its lock: then it wants a signal, and outlives a lost connection."""
        return not (self.steal or self.only_if_available)


def check_wish(wish: Wish) -> None:
    """Raises ValueError for options that exclude each other, as the standard's do, and TypeError for no number."""
    if wish.mode not in ("exclusive", "shared"):
        raise ValueError(f"mode is 'exclusive' or 'shared', not {wish.mode!r}")
    if wish.steal and wish.if_available:
        raise ValueError("steal and if_available exclude each other")
    if wish.steal and wish.mode == "shared":
        raise ValueError("only an exclusive lock can be stolen: steal excludes mode='shared'")
    timeout = wish.timeout
    if timeout is None:
        return
    if not isinstance(timeout, Real):
        raise TypeError(f"timeout is a number of seconds, not {type(timeout).__name__}")
    if not timeout >= 0:
        raise ValueError("timeout is a number of seconds, 0 or more")
    if wish.steal or wish.if_available and timeout > 0:
        raise ValueError("a request with steal or if_available doesn't wait, so it has no timeout")


class Phase(Enum):
    """How far a request has come."""

    WAITING = auto()
    """It isn't sent yet, or is to be sent again."""
    SENT = auto()
    HELD = auto()
    ENDED = auto()


class Service(Protocol):
    """What a request needs of the manager or the agent that has it."""

    def give_up(self, request: Request, reason: Reason) -> None: ...

    def release(self, request: Request) -> None: ...


class Sender(Protocol):
    """An agent, by which requests are sent."""

    def send(self, request: Request) -> bool: ...


class Request:
    """One request, and what its caller learns of it: `outcome` is its lock, None, or the error that ended it."""

    def __init__(self, wish: Wish, order: int, service: Service) -> None:
        self.wish = wish
        self.order = order
        self.service = service
        self.phase = Phase.WAITING
        self.given_up = False
        self.number = 0
        self.signal: int | None = None
        self.lock: Lock | None = None
        self.on_lost: Callable[[], None] | None = None
        """Called once, when the lock is lost before its release was begun."""
        self.outcome: asyncio.Future[Lock | None] = asyncio.get_running_loop().create_future()
        self._released: asyncio.Future[None] | None = None

    def send_by(self, agent: Sender) -> bool:
        """Sends it, unless it must wait for a signal of its own."""
        return agent.send(self)

    def grant(self, fence: str | None) -> None:
        """The service granted the lock and said so, and what its fencing token is, if it has one."""
        self.phase = Phase.HELD
        self.lock = Lock(self.wish.name, self.wish.mode, fence)
        self._settle(self.lock)

    def end_release(self) -> None:
        """The service has released the lock and said so."""
        self.phase = Phase.ENDED
        if self._released is not None and not self._released.done():
            self._released.set_result(None)

    def end(self, error: BaseException | None = None) -> None:
        """The request is gone from the service: its lock was not available, was lost, or could not be had."""
        self.phase = Phase.ENDED
        if error is None:
            self._settle(None)
        elif self.lock is not None and isinstance(error, LockLost):
            self._lose(self.lock, error)
        elif not self.outcome.done():
            self.outcome.set_exception(error)
            self.outcome.exception()

    def give_up(self, reason: Reason = "AbortError") -> None:
        """Leaves the request, or its lock, whatever its phase.

        One that is sent without a signal keeps its place in the service's queue until its turn, and is released then.
        """
        if not self.given_up:
            self.given_up = True
            self.outcome.cancel()
            self.service.give_up(self, reason)

    def expire(self) -> None:
        """Its time is over: unless it has its lock, its caller gets a TimeoutError."""
        if not self.outcome.done():
            self.outcome.set_exception(TimeoutError(f"the lock {self.wish.name!r} was not granted in time"))
            self.outcome.exception()
            self.give_up("TimeoutError")

    async def release(self) -> LockLost | None:
        """Releases the lock, and waits until the service has done it. Answers what ended it before, if something did.

        The release is on its way even where this is cancelled.
        """
        lock = cast(Lock, self.lock)
        if lock.lost is None and not self.given_up:
            self.given_up = True
            self._released = asyncio.get_running_loop().create_future()
            self.service.release(self)
            await self._released
        return lock.lost

    def _lose(self, lock: Lock, reason: LockLost) -> None:
        if lock.lost is None:
            lock.lost = reason
            if self._released is not None:
                self.end_release()
            elif self.on_lost is not None:
                self.on_lost()

    def _settle(self, lock: Lock | None) -> None:
        if not self.outcome.done():
            self.outcome.set_result(lock)


class LockRequest(Generic[LockOrNone]):
    """The block that waits for a lock and holds it: `async with locks.request("db") as lock: ..`.

    If the lock is lost meanwhile, the block's task is cancelled, and the block ends with LockLost or LockStolen. So a
    block that ends without one of them held its lock from its first line to its last, unless it raises an error of its
    own.
    """

    def __init__(self, submit: Callable[[Wish], Request], wish: Wish) -> None:
        self._submit = submit
        self._wish = wish
        self._request: Request | None = None
        self._task: asyncio.Task[object] | None = None
        self._cancels_before = 0
        self._cancelled = False

    async def __aenter__(self) -> LockOrNone:
        if self._request is not None:
            raise RuntimeError("a request serves one block: call request() again for the next")
        request = self._request = self._submit(self._wish)
        lock = await wait_for_lock(request)
        if lock is not None:
            self._task = cast("asyncio.Task[object]", asyncio.current_task())
            self._cancels_before = self._task.cancelling()
            lock.check()
            request.on_lost = self._cancel
        return cast(LockOrNone, lock)

    async def __aexit__(
        self, kind: type[BaseException] | None, error: BaseException | None, _trace: TracebackType | None
    ) -> None:
        request = cast(Request, self._request)
        if request.lock is None:
            return
        request.on_lost = None
        ours = self._uncancel() and kind is not None and issubclass(kind, asyncio.CancelledError)
        lost = await request.release()
        if lost is not None and (kind is None or ours):
            raise lost from error

    def _cancel(self) -> None:
        """Interrupts the block at its next await, as `asyncio.timeout` does."""
        if self._task is not None and not self._task.done():
            self._cancelled = True
            self._task.cancel("the lock was lost")

    def _uncancel(self) -> bool:
        """Takes back the block's interruption; whether nobody else cancelled the task too."""
        if not self._cancelled or self._task is None:
            return False
        self._cancelled = False
        return self._task.uncancel() <= self._cancels_before


async def wait_for_lock(request: Request) -> Lock | None:
    """Waits for a request's lock; if that is cancelled or takes too long, the request is given up."""
    wish = request.wish
    timer = None
    if wish.waits and wish.timeout is not None:
        timer = asyncio.get_running_loop().call_later(wish.timeout, request.expire)
    try:
        lock = await request.outcome
    except BaseException:
        request.give_up()
        raise
    finally:
        if timer is not None:
            timer.cancel()
    if lock is None and not wish.if_available:
        raise TimeoutError(f"the lock {wish.name!r} is not free")
    return lock
