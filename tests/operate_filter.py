"""Runs a command under the filters of system calls that the service's unit sets, as systemd would install them.

usage: operate_filter.py CALLS COMMAND ..

CALLS is a file with the name of an allowed system call on each line. Beside them no memory is both writable and
executable (MemoryDenyWriteExecute), and sockets are of the families AF_UNIX, AF_INET and AF_INET6
(RestrictAddressFamilies).
"""

import contextlib
import errno
import os
import socket
import sys
from pathlib import Path

import seccomp

WRITABLE, EXECUTABLE = 2, 4


def deny_memory() -> None:
    """No mapping is made writable and executable at once, and none is made executable later."""
    rules = seccomp.SyscallFilter(seccomp.ALLOW)
    refused, both = seccomp.ERRNO(errno.EPERM), WRITABLE | EXECUTABLE
    rules.add_rule(refused, "mmap", seccomp.Arg(2, seccomp.MASKED_EQ, both, both))
    for call in ("mprotect", "pkey_mprotect"):
        rules.add_rule(refused, call, seccomp.Arg(2, seccomp.MASKED_EQ, EXECUTABLE, EXECUTABLE))
    rules.load()


def deny_families() -> None:
    """The families above, and those below and between."""
    rules = seccomp.SyscallFilter(seccomp.ALLOW)
    refused = seccomp.ERRNO(errno.EAFNOSUPPORT)
    rules.add_rule(refused, "socket", seccomp.Arg(0, seccomp.GT, int(socket.AF_INET6)))
    for family in set(range(int(socket.AF_INET6))) - {int(socket.AF_UNIX), int(socket.AF_INET)}:
        rules.add_rule(refused, "socket", seccomp.Arg(0, seccomp.EQ, family))
    rules.load()


def allow_only(calls: list[str]) -> None:
    rules = seccomp.SyscallFilter(seccomp.ERRNO(errno.EPERM))
    for call in calls:
        # (some names are of other machines, or newer than the library)
        with contextlib.suppress(RuntimeError, ValueError, OSError):
            rules.add_rule(seccomp.ALLOW, call)
    rules.load()


def main() -> None:
    calls = Path(sys.argv[1]).read_text().split()
    deny_memory()
    deny_families()
    # The last: it leaves no call by which a further filter is installed but those that it names.
    allow_only(calls)
    os.execv(sys.argv[2], sys.argv[2:])


if __name__ == "__main__":
    main()
