"""The blocks of a document: what is to be run of them, and a bash that runs it command by command."""

import os
import re
import select
import signal
import subprocess
import time
from collections.abc import Iterator
from dataclasses import dataclass, field
from pathlib import Path

from running import SECONDS, Wrong, text

FENCE = re.compile(r" {0,3}(```+|~~~+)\s*(\S*)")
HEREDOC = re.compile(r"<<-?\s*(['\"]?)(\w+)\1")
# What would run this test within itself, or prove for minutes.
GATE = re.compile(r"(?<![^\s;&|(`])(\./test|\./build|\.ci/run|rt\s+ci)(?![^\s;&|)`])")


@dataclass
class Command:
    """A command, the line of the document at which it stands, and the lines that are shown behind it."""

    line: int
    words: str
    shown: list[str] = field(default_factory=list)

    def stays_behind(self) -> bool:
        return self.words.rstrip().endswith("&")


@dataclass
class Block:
    line: int
    kind: str
    lines: list[str]

    def name(self) -> str:
        return f"line {self.line}, {self.kind}"


def blocks_of(document: str) -> Iterator[Block]:
    """The blocks between fences, and those that four spaces make."""
    block, fence, indented, before = None, "", False, ""
    for number, line in enumerate(document.splitlines(), 1):
        found = FENCE.match(line)
        if block and found and line.strip().startswith(fence) and not found[2]:
            yield block
            block = None
        elif block:
            block.lines.append(line)
        elif found:
            block, fence = Block(number, found[2] or "a block without a language", []), found[1]
        elif line.startswith("    ") and line.strip():
            if not indented and not before.strip():
                yield Block(number, "a block that is made by four spaces", [])
            indented = True
        elif line.strip():
            indented = False
        before = line
    if block:
        raise Wrong(f"{block.name()}: the block doesn't end")


def commands_of(block: Block) -> Iterator[Command]:
    """The commands of a console block. A heredoc's lines belong to its command, and those behind a \\ too."""
    command, end, goes_on = None, "", False
    for number, line in enumerate(block.lines, block.line + 1):
        if command and (end or goes_on):
            command.words += f"\n{line}"
            goes_on = not end and line.endswith("\\")
            end = "" if line.strip() == end else end
        elif line.startswith("$ "):
            if command:
                yield command
            command, goes_on = Command(number, line[2:]), line.endswith("\\")
            found = HEREDOC.search(line)
            end = found[2] if found else ""
        elif command:
            command.shown.append(line)
        else:
            raise Wrong(f"line {number}: the block doesn't begin with a command, which is a line '$ ..'")
    if end:
        raise Wrong(f"line {command.line}: the lines of its input don't end with {end}")
    if not command:
        raise Wrong(f"{block.name()}: the block has no command")
    yield command


def refuse_gate(command: Command) -> None:
    found = GATE.search(command.words)
    if found:
        why = "which would run within itself or prove for minutes: show it within a sentence"
        raise Wrong(f"line {command.line}: {found[1]} can't be run here, {why}")


def raise_it(why: Wrong) -> None:
    """Fails the check that stands in the place of a document's blocks."""
    raise why


# It takes the names of files with commands, runs each in turn, and tells the status of each.
SHELL = """
while IFS= read -r -u "$1" file; do
    source "$file" </dev/null >"$file.out" 2>"$file.err" {0}<&- {1}>&-
    echo "$?" >&"$2"
done
"""


class Session:
    """One bash, in which all commands of a document are run in turn."""

    def __init__(self, top: Path, notes: Path, before: list):
        self.notes, self.count, self.unseen = notes, 0, []
        taken, self.to = os.pipe()
        self.source, told = os.pipe()
        shell = SHELL.format(taken, told)
        words = [*before, "bash", "--noprofile", "--norc", "-c", shell, "bash", str(taken), str(told)]
        how = {"stdin": subprocess.DEVNULL, "start_new_session": True, "pass_fds": (taken, told)}
        self.child = subprocess.Popen(words, cwd=top, **how)
        os.close(taken)
        os.close(told)

    def run(self, command: Command) -> None:
        """Runs it, and holds what it prints to what is shown."""
        self.count += 1
        file = self.notes / f"command{self.count}"
        file.write_text(command.words + "\n")
        os.write(self.to, f"{file}\n".encode())
        status = self.status_of(command)
        printed, told = Path(f"{file}.out"), Path(f"{file}.err").read_text(errors="replace")
        if command.stays_behind():
            self.unseen.append((printed, 0))
            found = self.next_unseen(len(command.shown))
        else:
            found = printed.read_text(errors="replace").splitlines()
            # (what a command left behind may print now)
            if found != command.shown and found == command.shown[: len(found)]:
                found += self.next_unseen(len(command.shown) - len(found))
        if found != command.shown:
            found, wanted = ("\n".join(it) for it in (found, command.shown))
            raise Wrong(f"it prints\n{text(found.encode())}\nand not\n{wanted}\nand tells\n{told}")
        if status:
            raise Wrong(f"it ends with status {status}, and tells\n{told}")

    def status_of(self, command: Command) -> int:
        if not select.select([self.source], [], [], SECONDS)[0]:
            raise Wrong(f"it did not end in {SECONDS} seconds")
        told = os.read(self.source, 16)
        if not told:
            raise Wrong("bash ended with it")
        return int(told)

    def next_unseen(self, count: int) -> list[str]:
        """So many lines that commands which were left behind print next, or what came of them in time."""
        found, until = [], time.monotonic() + SECONDS
        while len(found) < count and time.monotonic() < until:
            for number, (file, seen) in enumerate(self.unseen):
                lines = file.read_text(errors="replace").split("\n")[seen:-1][: count - len(found)]
                self.unseen[number] = file, seen + len(lines)
                found += lines
            time.sleep(0.01)
        return found

    def end(self) -> None:
        """Ends bash, and all that it started."""
        try:
            os.killpg(self.child.pid, signal.SIGKILL)
        except ProcessLookupError:
            pass
        self.child.wait()
        os.close(self.to)
        os.close(self.source)
