"""What the tests of the command line stand on."""

import contextlib
import ctypes
import fcntl
import os
import signal
import subprocess
import sys
import tempfile
import termios
import time
from pathlib import Path

import weblocks.sync
from support import PACKAGE, SECONDS, BothServersCase, new_origin

ENVIRONMENT = {name: value for name, value in os.environ.items() if not name.startswith("WEBLOCKS_")}
SET_CHILD_SUBREAPER = 36


class CommandLineCase(BothServersCase):
    def setUp(self):
        self.origin = new_origin()
        self.folder = Path(self.enterContext(tempfile.TemporaryDirectory()))

    def start(self, *words, url=None, origin=None, environment=None, before=None, **options):
        """Starts the command line with the service's place in its environment, and behind a program if one is given."""
        service = {"WEBLOCKS_URL": url or self.daemon.url, "WEBLOCKS_ORIGIN": origin or self.origin}
        path = {"PYTHONPATH": str(PACKAGE / "src")}
        options.setdefault("stdout", subprocess.PIPE)
        options.setdefault("stderr", subprocess.PIPE)
        options.setdefault("preexec_fn", reset_signals)
        run = ["-c", f"{before}\nimport sys\nfrom weblocks.__main__ import main\nsys.exit(main())"]
        process = subprocess.Popen(
            [sys.executable, *(["-m", "weblocks"] if before is None else run), *words],
            env={**ENVIRONMENT, **path, **(service if environment is None else environment)},
            text=True,
            **options,
        )
        self.addCleanup(self.end, process)
        return process

    def end(self, process):
        if process.poll() is None:
            process.kill()
        process.communicate()

    def run_whole(self, *words, **options):
        """Runs it to its end; status, output, and what it says on standard error."""
        process = self.start(*words, **options)
        out, err = process.communicate(timeout=SECONDS)
        self.assertNotIn("Traceback", err)
        return process.returncode, out, err

    def connect(self):
        return weblocks.sync.connect(self.daemon.url, origin=self.origin)

    def wait_for(self, condition):
        end = time.monotonic() + SECONDS
        while not condition():
            self.assertLess(time.monotonic(), end, "it did not come about")
            time.sleep(0.02)

    def hold(self, script, *words, **options):
        """Starts a command that says in a file that it runs, and waits until it does."""
        mark = self.folder / "runs"
        mark.unlink(missing_ok=True)
        process = self.start("with", "db", *words, "--", "sh", "-c", f"{script}", "sh", str(mark), **options)
        self.wait_for(lambda: mark.exists() and mark.read_text().endswith("\n"))
        self.addCleanup(end_group, int(mark.read_text()))
        return process


def runs(process):
    """Whether a process is there, and no zombie."""
    try:
        return Path(f"/proc/{process}/stat").read_text().rpartition(")")[2].split()[0] != "Z"
    except OSError:
        return False


def end_group(leader):
    """Ends what a failed test left of a command."""
    with contextlib.suppress(OSError):
        os.killpg(leader, signal.SIGKILL)


def reset_signals():
    """Whatever runs the tests may ignore some, as shells have it for what they start with &."""
    for number in (signal.SIGHUP, signal.SIGINT, signal.SIGQUIT, signal.SIGTERM):
        signal.signal(number, signal.SIG_DFL)


def ignore_hangups():
    """As `nohup` does."""
    reset_signals()
    signal.signal(signal.SIGHUP, signal.SIG_IGN)


def ignore_ends():
    """As a program may that takes no note of how its children end."""
    reset_signals()
    signal.signal(signal.SIGCHLD, signal.SIG_IGN)


def closing(descriptor):
    """As a shell's `2>&-` does; for a stream that is neither a pipe of the test's nor a file."""

    def close():
        reset_signals()
        os.close(descriptor)

    return close


def adopt_orphans():
    """As the init of a container does (prctl(2))."""
    reset_signals()
    ctypes.CDLL(None).prctl(SET_CHILD_SUBREAPER, 1, 0, 0, 0)


def take_terminal(terminal):
    """Makes a terminal the one of this new session."""
    reset_signals()
    fcntl.ioctl(terminal, termios.TIOCSCTTY, 0)


def read_all(terminal):
    """What is shown until nobody writes any more."""
    shown = b""
    try:
        while data := os.read(terminal, 4096):
            shown += data
    except OSError:
        pass
    return shown
