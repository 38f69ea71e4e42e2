"""Runs a coroutine at once, as far as it comes without waiting."""

from __future__ import annotations

import asyncio
import sys
from collections.abc import Callable, Coroutine, Generator
from typing import Any


def start(work: Coroutine[Any, Any, None], in_task: bool = False) -> asyncio.Task[None] | None:
    """Runs the coroutine's first step now, and the rest as a task; None where it has come to its end.

    A task begins only when the event loop comes to it, which costs a turn of the loop. So that step runs in the task of
    whoever calls, or in none where a timer does. What looks for its task, as `asyncio.timeout` does to cancel it, is to
    run `in_task`: in one of its own from its first step on. Such a task begins at once too from Python 3.12 on, and
    before that in the loop's next turn.
    """
    if in_task:
        return _start_task(work)
    try:
        awaited = work.send(None)
    except StopIteration:
        return None
    return asyncio.get_running_loop().create_task(_finish(_Rest(work, awaited)))


def _start_task(work: Coroutine[Any, Any, None]) -> asyncio.Task[None] | None:
    loop = asyncio.get_running_loop()
    if sys.version_info >= (3, 12):
        task = asyncio.Task(work, loop=loop, eager_start=True)
        return None if task.done() else task
    return loop.create_task(work)


async def _finish(rest: _Rest) -> None:
    await rest


class _Rest:
    """What is left of a coroutine that was begun: it hands on what that awaits, and what came of it, until it ends."""

    def __init__(self, work: Coroutine[Any, Any, None], awaited: object) -> None:
        self._work = work
        self._awaited = awaited

    def __await__(self) -> Generator[Any, Any, None]:
        awaited = self._awaited
        while True:
            step: Callable[[Any], Any] = self._work.send
            try:
                given = yield awaited
            except BaseException as error:
                step, given = self._work.throw, error
            try:
                awaited = step(given)
            except StopIteration:
                return
