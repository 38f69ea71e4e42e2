"""Commands that run side by side, and end when they are stopped."""

from __future__ import annotations

import os
import signal
import subprocess
import threading
from contextlib import suppress
from pathlib import Path


class Broken(Exception):
    """A command was ended from outside, so that nothing can be said of what it was to do."""


class Runs:
    """The commands that are running."""

    def __init__(self) -> None:
        self.lock, self.is_stopped, self.thread = threading.Lock(), False, threading.local()
        self.running: set[subprocess.Popen[str]] = set()
        self.environment = {name: value for name, value in os.environ.items() if name != "CI"}

    def run(self, folder: Path, *words: str) -> tuple[int, list[str]]:
        """Runs a command, and answers its status and its lines."""
        with self.lock:
            if self.is_stopped:
                raise Broken
            ran = subprocess.Popen(
                words,
                cwd=folder,
                env=self.environment,
                text=True,
                errors="replace",
                stdin=subprocess.DEVNULL,
                stdout=subprocess.PIPE,
                stderr=subprocess.STDOUT,
            )
            self.running.add(ran)
        out = ran.stdout.read() if ran.stdout else ""
        _, status, used = os.wait4(ran.pid, 0)
        ran.returncode = os.waitstatus_to_exitcode(status)
        self.thread.seconds = getattr(self.thread, "seconds", 0.0) + used.ru_utime + used.ru_stime
        with self.lock:
            self.running.discard(ran)
        if ran.returncode < 0 or self.is_stopped:
            raise Broken
        return ran.returncode, out.rstrip("\n").split("\n")

    def take_seconds(self) -> float:
        """The seconds of a processor that this thread's commands took since it was asked before."""
        seconds, self.thread.seconds = getattr(self.thread, "seconds", 0.0), 0.0
        return seconds

    def stop(self) -> None:
        with self.lock:
            self.is_stopped = True
            for ran in self.running:
                # (Popen's own way would take its status, for which run waits)
                with suppress(ProcessLookupError):
                    os.kill(ran.pid, signal.SIGTERM)
