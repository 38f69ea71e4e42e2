"""The command line: `python3 -m weblocks with|query|watch ..`."""

from __future__ import annotations

import argparse
import asyncio
import logging
import os
import signal
import sys
import time
from collections.abc import Callable
from pathlib import Path
from typing import Any

from .command import BY_SIGNAL, FENCE, CannotRun, Job, NoFence, TakenSignals, complain, run_job
from .errors import BUCKET_RULE, Disconnected, Error, Forbidden, Refused
from .manager import LockManager, connect
from .table import draw_table

DEFAULT_URL = "ws://127.0.0.1:8080"
BAD_WORDS = 2
NO_SERVER = 69
NOT_IN_TIME = 75
NOT_ALLOWED = 77

STATUSES = """\
exit status: that of the command (128 and the signal's number, where one ended it), or
  1    the lock was lost, and the command ended well all the same, or was not run yet
  2    the words can't be understood
  69   no server answers, or the connection was lost
  75   the lock was not had in time
  77   the server refused the token, the target, the origin or the request, or gives no fencing tokens
  126  the command can't be run
  127  there is no such command
  141  whoever read the output has gone
"""


def main(words: list[str] | None = None) -> int:
    """Does what the words say, and answers the exit status."""
    words = sys.argv[1:] if words is None else words
    words, command = split_command(words)
    # Nobody reads a stream that is closed. (What is for standard error would go to standard output in some places.)
    if sys.stdout is None:
        sys.stdout = open(os.devnull, "w")
    if sys.stderr is None:
        sys.stderr = open(os.devnull, "w")
    given = read_words(words, command)
    logging.basicConfig(level=logging.WARNING, format="weblocks: %(message)s", stream=sys.stderr)
    reconfigure: Callable[..., None] | None = getattr(sys.stdout, "reconfigure", None)
    if reconfigure is not None:
        reconfigure(errors="backslashreplace")
    # Whoever started this may ignore it, and then the system keeps no status of a command that has ended.
    signal.signal(signal.SIGCHLD, signal.SIG_DFL)
    try:
        return asyncio.run(run_interruptibly(given))
    except BrokenPipeError:
        # Whoever read the output has gone; the interpreter's own last flush would complain.
        os.dup2(os.open(os.devnull, os.O_WRONLY), sys.stdout.fileno())
        return BY_SIGNAL + signal.SIGPIPE


def split_command(words: list[str]) -> tuple[list[str], list[str] | None]:
    """The words before the first `--`, and those after it."""
    if "--" not in words:
        return words, None
    at = words.index("--")
    return words[:at], words[at + 1 :]


def read_words(words: list[str], command: list[str] | None) -> argparse.Namespace:
    """Reads the words, or ends the program with status 2 and the reason on standard error."""
    parser, jobs = make_parser()
    given, unknown = parser.parse_known_args(words)
    job = jobs[given.job]
    if unknown and (given.job != "with" or command is not None or unknown[0].startswith("-")):
        job.error(f"unrecognized arguments: {' '.join(unknown)}")
    if given.job != "with":
        if command is not None:
            parser.error(f"{given.job} runs no command")
    elif not command:
        job.error("name the command behind --")
    elif given.shared and given.steal:
        job.error("--steal and --shared exclude each other: only an exclusive lock can be stolen")
    elif given.steal and given.wait is not None:
        job.error("--steal and --wait exclude each other: who steals a lock doesn't wait for it")
    if given.origin is None:
        job.error("name the origin by --origin or WEBLOCKS_ORIGIN, such as https://a.test")
    given.command = command
    given.token = read_token(job, given.token_file)
    return given


def make_parser() -> tuple[argparse.ArgumentParser, dict[str, argparse.ArgumentParser]]:
    """The parser of the words, and that of each job."""
    parser = argparse.ArgumentParser(
        prog="python3 -m weblocks", description="Locks that programs of several machines share."
    )
    jobs = parser.add_subparsers(dest="job", required=True, metavar="with | query | watch")
    holding = jobs.add_parser(
        "with",
        help="run a command while a lock is held",
        usage="python3 -m weblocks with NAME [options] -- COMMAND ..",
        epilog=STATUSES,
        formatter_class=argparse.RawDescriptionHelpFormatter,
    )
    holding.add_argument("name", metavar="NAME", help="the name of the lock")
    holding.add_argument("--shared", action="store_true", help="a shared lock, beside which others may be shared")
    holding.add_argument("--wait", type=seconds, metavar="SECONDS", help="how long to wait (without: for ever)")
    holding.add_argument("--steal", action="store_true", help="take the lock from whoever holds it")
    holding.add_argument(
        "--fence", action="store_true", help=f"give the command the lock's fencing token as {FENCE}, or don't run it"
    )
    jobs.add_parser("query", help="show what is held and pending")
    watching = jobs.add_parser("watch", help="show what is held and pending, as it changes")
    watching.add_argument("--every", type=seconds, default=1.0, metavar="SECONDS", help="how often to look (1)")
    for job in jobs.choices.values():
        add_service(job)
    return parser, dict(jobs.choices)


def add_service(job: argparse.ArgumentParser) -> None:
    """The words that say where the service is and as whom it is asked."""
    job.add_argument(
        "--url",
        default=variable("WEBLOCKS_URL") or DEFAULT_URL,
        help=f"a URL, or unix: and the path of a socket; or WEBLOCKS_URL, or {DEFAULT_URL}",
    )
    job.add_argument(
        "--origin",
        default=variable("WEBLOCKS_ORIGIN"),
        help="or WEBLOCKS_ORIGIN: programs that name the same one share locks",
    )
    job.add_argument(
        "--bucket", default=variable("WEBLOCKS_BUCKET") or "default", help="or WEBLOCKS_BUCKET, or default"
    )
    job.add_argument("--token-file", type=Path, metavar="FILE", help="a file with the token, or WEBLOCKS_TOKEN")
    # (without it argparse takes the word for the one above, and the token for a file that it names)
    job.add_argument("--token", nargs="?", action=NoToken, help=argparse.SUPPRESS)


def variable(name: str) -> str | None:
    """What the environment says; an empty variable counts as none, as a file of settings may leave it."""
    return os.environ.get(name) or None


class NoToken(argparse.Action):
    """Refuses a token among the words, and doesn't repeat it."""

    def __call__(self, parser: argparse.ArgumentParser, *_found: Any) -> None:
        parser.error(
            "there is no --token, since other users of the machine see it: set WEBLOCKS_TOKEN, or name a file that has "
            "the token by --token-file"
        )


def seconds(text: str) -> float:
    """A number of seconds, 0 or more."""
    value = float(text)
    if not 0 <= value < float("inf"):
        raise ValueError(text)
    return value


def read_token(parser: argparse.ArgumentParser, file: Path | None) -> str | None:
    """The token of the file, or else of the environment; none may be wanted."""
    if file is None:
        return variable("WEBLOCKS_TOKEN")
    try:
        words = file.read_text().split()
    except (OSError, UnicodeDecodeError) as error:
        parser.error(f"the token file can't be read: {error}")
    if len(words) != 1:
        parser.error(f"the token file {file} is to have one token alone, without origins")
    return words[0]


async def run_interruptibly(given: argparse.Namespace) -> int:
    """Does the job; a signal that comes while no command runs ends it."""
    signals = TakenSignals()
    with signals.taken():
        job = signals.waiting = asyncio.create_task(run(given, signals))
        await asyncio.wait([job])
        if job.cancelled() and signals.first is not None:
            return BY_SIGNAL + signals.first
        return job.result()


async def run(given: argparse.Namespace, signals: TakenSignals) -> int:
    """Connects and does the job; what fails is told in a line on standard error."""
    fences = given.job == "with" and given.fence
    try:
        async with connect(
            given.url, origin=given.origin, bucket=given.bucket, token=given.token, fences=fences
        ) as locks:
            return await do_job(locks, given, signals)
    except CannotRun as error:
        complain(str(error))
        return error.status
    except TimeoutError as error:
        complain(str(error))
        return NOT_IN_TIME
    except (Forbidden, Refused, NoFence) as error:
        complain(explain(error, given))
        return NOT_ALLOWED
    except Error as error:
        complain(str(error))
        return NO_SERVER
    except ValueError as error:
        complain(str(error))
        return BAD_WORDS


def explain(error: Exception, given: argparse.Namespace) -> str:
    """Why the service refused, with what was given to it."""
    if isinstance(error, Refused):
        if error.name == "BadUrl":
            return f"the origin {given.origin!r} is no URL, such as https://a.test"
        if error.name == "BadBucket":
            return f"{given.bucket!r} can't be the name of a bucket: {BUCKET_RULE}"
        if error.name == "SecurityError":
            return f"{given.origin!r} is of an opaque origin, which has no locks"
    return str(error)


async def do_job(locks: LockManager, given: argparse.Namespace, signals: TakenSignals) -> int:
    """Does what the first word says."""
    if given.job == "with":
        mode: Any = "shared" if given.shared else "exclusive"
        job = Job(given.name, mode, given.steal, given.wait, given.fence, given.command)
        return await run_job(locks, job, signals)
    if given.job == "query":
        sys.stdout.write(draw_table(await locks.query(), sys.stdout.isatty()))
        sys.stdout.flush()
        return 0
    await watch(locks, given)
    return 0


async def watch(locks: LockManager, given: argparse.Namespace) -> None:
    """Draws the table each time that it changes, until a signal comes."""
    terminal = sys.stdout.isatty()
    drawn = ""
    while True:
        try:
            table = draw_table(await locks.query(), terminal)
        except Disconnected as error:
            if isinstance(error, Forbidden):
                raise
            table = f"{error}\n"
        if table != drawn:
            heading = f"{given.origin}  {given.bucket}  {time.strftime('%H:%M:%S')}"
            sys.stdout.write(f"\x1b[H\x1b[2J{heading}\n\n{table}" if terminal else f"{heading}\n{table}\n")
            sys.stdout.flush()
            drawn = table
        await asyncio.sleep(given.every)


if __name__ == "__main__":
    sys.exit(main())
