"""Runs the built program, and holds what it wrote and how it ended to what is wanted."""

import array
import fcntl
import os
import select
import subprocess
import tempfile
import termios
import time

SECONDS = 20


class Wrong(Exception):
    """What a check found."""


class Ended:
    """What a run left: its status, and what it wrote."""

    def __init__(self, status, out, err):
        self.status, self.out, self.err = status, out, err


def text(data):
    shown = data.decode(errors="backslashreplace")
    return shown if len(shown) <= 400 else shown[:400] + " .."


def expect(what, found, wanted):
    if found != wanted:
        found, wanted = (text(x) if isinstance(x, bytes) else x for x in (found, wanted))
        raise Wrong(f"{what} is\n{found}\nand not\n{wanted}")


def expect_end(ended, out, status=0, err=b""):
    expect("standard output", ended.out, out)
    expect("standard error", ended.err, err)
    expect("the status", ended.status, status)


class Running:
    """The program with a pipe as its input. Both outputs go to files, so that they never fill up."""

    def __init__(self, words, out=None):
        self.files = [tempfile.TemporaryFile(), tempfile.TemporaryFile()]
        self.unread, self.to = os.pipe()
        self.child = subprocess.Popen(
            words, stdin=self.unread, stdout=out or self.files[0], stderr=self.files[1]
        )
        self.until = time.monotonic() + SECONDS

    def in_time(self):
        if time.monotonic() > self.until:
            raise Wrong(f"it did not go on for {SECONDS} seconds")

    def is_running(self):
        return self.child.poll() is None

    def unread_bytes(self):
        count = array.array("i", [0])
        fcntl.ioctl(self.unread, termios.FIONREAD, count)
        return count[0]

    def give(self, piece):
        """Writes the piece, and returns once the program took it: no two pieces come as one."""
        self.until = time.monotonic() + SECONDS
        while piece and self.is_running():
            piece = piece[os.write(self.to, piece[:4096]) :]
            while self.unread_bytes() and self.is_running():
                self.in_time()
                time.sleep(0)

    def close(self):
        if self.to is not None:
            os.close(self.to)
            self.to = None

    def end(self):
        """Closes the input and waits."""
        self.close()
        try:
            status = self.child.wait(SECONDS)
        except subprocess.TimeoutExpired:
            raise Wrong(f"it did not end in {SECONDS} seconds")
        for file in self.files:
            file.seek(0)
        return Ended(status, self.files[0].read(), self.files[1].read())

    def __enter__(self):
        return self

    def __exit__(self, *_):
        if self.is_running():
            self.child.kill()
            self.child.wait()
        self.close()
        os.close(self.unread)
        for file in self.files:
            file.close()


def run_whole(words, script, seconds=SECONDS):
    """The script from a file."""
    with tempfile.TemporaryFile() as file:
        file.write(script)
        file.seek(0)
        return run_on(words, file, seconds=seconds)


def run_on(words, stdin=subprocess.DEVNULL, stdout=subprocess.PIPE, seconds=SECONDS):
    try:
        ended = subprocess.run(
            words, stdin=stdin, stdout=stdout, stderr=subprocess.PIPE, timeout=seconds
        )
    except subprocess.TimeoutExpired:
        raise Wrong(f"it did not end in {seconds} seconds")
    return Ended(ended.returncode, ended.stdout or b"", ended.stderr)


def run_in_pieces(words, script, size):
    with Running(words) as running:
        for at in range(0, len(script), size):
            running.give(script[at : at + size])
        return running.end()


def answers_as_the_model(words, script, wanted):
    """Where a line of the output is wrong, that line alone is told."""
    ended = run_whole(words, script)
    for number, (found, due) in enumerate(zip(ended.out.splitlines(), wanted.splitlines()), 1):
        expect(f"line {number} of the output", found, due)
    expect_end(ended, wanted)


def read_line(source, until):
    """A line from a pipe, or what came of it until then."""
    line = b""
    while not line.endswith(b"\n"):
        left = until - time.monotonic()
        if left <= 0 or not select.select([source], [], [], left)[0]:
            break
        byte = os.read(source, 1)
        if not byte:
            break
        line += byte
    return line


def run_checks(*groups):
    """Runs the checks, each by its name, and answers the status to end with. The last line is 'N passed, M failed'."""
    passed = failed = 0
    for checks in groups:
        for name, check in checks:
            try:
                check()
                passed += 1
            except (Wrong, OSError) as why:
                failed += 1
                print(f"FAILED {name}: {why}\n", flush=True)
    print(f"{passed} passed, {failed} failed")
    return 1 if failed or not passed else 0
