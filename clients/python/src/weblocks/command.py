"""Runs a command while a lock is held."""

from __future__ import annotations

import asyncio
import contextlib
import os
import signal
import sys
from collections.abc import Iterator
from dataclasses import dataclass

from .errors import LockLost, LockStolen
from .manager import LockManager
from .messages import Mode
from .requests import Lock

LOST = 1
NOT_RUNNABLE = 126
NOT_FOUND = 127
BY_SIGNAL = 128
KILL_SECONDS = 10.0
LOOK_SECONDS = 0.05
FENCE = "WEBLOCKS_FENCE"

PASSED_ON = (signal.SIGHUP, signal.SIGINT, signal.SIGQUIT, signal.SIGTERM, signal.SIGUSR1, signal.SIGUSR2)
OF_TERMINAL = (signal.SIGINT, signal.SIGQUIT)


@dataclass(frozen=True, slots=True)
class Job:
    """A command, the lock that it wants, how many seconds it may wait for it, and whether it wants its fencing token.

    A wait of None is for ever.
    """

    name: str
    mode: Mode
    steal: bool
    wait: float | None
    fence: bool
    command: list[str]


def complain(text: str) -> None:
    """Says what went wrong, on standard error; where nobody reads that, what is to be done goes on all the same."""
    try:
        print(f"weblocks: {text}", file=sys.stderr, flush=True)
    except (OSError, ValueError):
        # What wasn't written is kept, and the interpreter would end with status 120 where its last flush fails too.
        sys.stderr = open(os.devnull, "w")


class CannotRun(Exception):
    """The command can't be run; `status` is what shells end with then."""

    def __init__(self, text: str, status: int) -> None:
        super().__init__(text)
        self.status = status


class NoFence(Exception):
    """The command wants a fencing token, and the server gives none."""

    def __init__(self) -> None:
        super().__init__("the server gives no fencing tokens, so the command was not run")


class TakenSignals:
    """Takes the signals that this program gets: they end its waiting, or go to the command while that runs."""

    def __init__(self) -> None:
        self.child: Child | None = None
        self.waiting: asyncio.Task[int] | None = None
        """Who is cancelled by a signal while no command runs; by each, as what ends by the first may wait too."""
        self.first: int | None = None
        """The signal that ended the waiting."""

    @contextlib.contextmanager
    def taken(self) -> Iterator[None]:
        """While the block runs. Those that are ignored, as by `nohup`, stay so, here and in the command."""
        loop = asyncio.get_running_loop()
        numbers = [number for number in PASSED_ON if signal.getsignal(number) is not signal.SIG_IGN]
        for number in numbers:
            loop.add_signal_handler(number, self._take, number)
        try:
            yield
        finally:
            for number in numbers:
                loop.remove_signal_handler(number)

    def _take(self, number: int) -> None:
        if self.child is not None:
            self.child.pass_on(number)
        elif self.waiting is not None and not self.waiting.done():
            self.first = self.first or number
            self.waiting.cancel()


class Child:
    """The command as a process.

    It has a process group of its own, which signals go to, so that nothing that it started works on without the lock.
    In a terminal's foreground it stays in the group of this program, as the terminal's keys are for both.
    """

    def __init__(self, process: asyncio.subprocess.Process, own_group: bool) -> None:
        self._process = process
        self._own_group = own_group

    @classmethod
    async def start(cls, command: list[str], environment: dict[str, str]) -> Child:
        """Raises CannotRun."""
        own_group = not in_foreground()
        try:
            # It has what this program was started with, as a shell's <(..) wants it; Python's own is closed by `exec`.
            process = await asyncio.create_subprocess_exec(
                *command, env=environment, process_group=0 if own_group else None, close_fds=False
            )
        except FileNotFoundError as error:
            raise CannotRun(f"{command[0]}: there is no such command", NOT_FOUND) from error
        except (OSError, ValueError) as error:
            raise CannotRun(f"{command[0]}: it can't be run: {error}", NOT_RUNNABLE) from error
        return cls(process, own_group)

    async def wait(self) -> int:
        """Its exit status, as shells tell it: 128 and the signal's number, where one ended it."""
        status = await self._process.wait()
        return status if status >= 0 else BY_SIGNAL - status

    def pass_on(self, number: int) -> None:
        """A key's signal goes from the terminal to the command by itself."""
        if self._own_group or number not in OF_TERMINAL:
            self._send(number)

    async def end(self) -> int:
        """Ends it, with all of its group: TERM, and KILL after 10 seconds. One that may not be ended is waited for."""
        waiting = asyncio.create_task(self.wait())
        if self._send(signal.SIGTERM):
            until = asyncio.get_running_loop().time() + KILL_SECONDS
            await asyncio.wait([waiting], timeout=KILL_SECONDS)
            while self._is_there() and asyncio.get_running_loop().time() < until:
                await asyncio.sleep(LOOK_SECONDS)
            if self._is_there():
                what = "what the command started" if waiting.done() else "the command"
                complain(f"{what} did not end in {KILL_SECONDS:g} seconds: killing it")
                self._send(signal.SIGKILL, what)
        return await waiting

    def _is_there(self) -> bool:
        """Whether it runs, or something of its group does, by which that keeps its number."""
        if self._process.returncode is None:
            return True
        if not self._own_group:
            return False
        with contextlib.suppress(ChildProcessError):
            # Where this program is the init of a container, it is the one to take note of what ended there.
            while os.waitpid(-self._process.pid, os.WNOHANG)[0]:
                pass
        try:
            os.killpg(self._process.pid, 0)
        except ProcessLookupError:
            return False
        except PermissionError:
            pass
        return True

    def _send(self, number: int, what: str = "the command") -> bool:
        """Sends the signal, and answers True, unless nothing of it may be signalled, which is told."""
        try:
            if self._own_group:
                os.killpg(self._process.pid, number)
            elif self._process.returncode is None:
                os.kill(self._process.pid, number)
        except ProcessLookupError:
            pass
        except PermissionError:
            complain(f"{what} may not be signalled, and runs on: it gets no {signal.Signals(number).name}")
            return False
        return True


def in_foreground() -> bool:
    """Whether this program is in the foreground of its terminal."""
    try:
        terminal = os.open("/dev/tty", os.O_RDONLY | os.O_NOCTTY)
    except OSError:
        return False
    try:
        return os.tcgetpgrp(terminal) == os.getpgrp()
    except OSError:
        return False
    finally:
        os.close(terminal)


def environment_of(job: Job, lock: Lock) -> dict[str, str]:
    """The command's environment, with the lock's token if it wants one, and never one of before; raises NoFence."""
    environment = {name: value for name, value in os.environ.items() if name != FENCE}
    if job.fence:
        if lock.fence is None:
            raise NoFence
        environment[FENCE] = lock.fence
    return environment


async def run_job(locks: LockManager, job: Job, signals: TakenSignals) -> int:
    """Waits for the lock, runs the command, and answers the exit status.

    Raises TimeoutError where the lock wasn't had in time, NoFence, and CannotRun. Where the lock is lost, the command
    is ended, or not begun. One that had ended before the connection was lost keeps its status. A theft of which the
    release alone learns may have come while it ran, as a server that is polled doesn't tell of it.
    """
    if job.fence and not locks.may_give_fences:
        # Before the lock is waited for, or stolen.
        raise NoFence
    status, begun, ended = 0, False, False
    try:
        async with locks.request(job.name, mode=job.mode, steal=job.steal, timeout=job.wait) as lock:
            environment = environment_of(job, lock)
            begun = True
            child = await Child.start(job.command, environment)
            signals.child = child
            try:
                status = await child.wait()
                ended = True
            except asyncio.CancelledError:
                status = await child.end()
                raise
            finally:
                # From now on a signal interrupts the release.
                signals.child = None
    except LockLost as error:
        if not ended:
            complain(f"{error}, {'while' if begun else 'before'} the command ran")
            return status or LOST
        if isinstance(error, LockStolen):
            complain(f"{error}, before it was released")
            return status or LOST
        complain(f"{error}, while it was released")
    return status
