"""A network of its own for what a document starts, where a port that it names is free.

As a program it goes on as the command that its words are, once the loopback of its network is up.
"""

import fcntl
import os
import socket
import struct
import subprocess
import sys
from pathlib import Path

APART = ["unshare", "--user", "--map-root-user", "--net", "--"]


def with_loopback(words: list[str]) -> None:
    """Goes on as this command, in a new network whose loopback is up."""
    set_flags, is_up, is_running = 0x8914, 0x1, 0x40
    with socket.socket(socket.AF_INET, socket.SOCK_DGRAM) as it:
        fcntl.ioctl(it, set_flags, struct.pack("16sh22x", b"lo", is_up | is_running))
    os.execvp(words[0], words)


def apart() -> list[str]:
    """The words that have a command run in a network of its own, where that is possible."""
    words = [*APART, sys.executable, str(Path(__file__).resolve())]
    try:
        tried = subprocess.run([*words, "true"], stdin=subprocess.DEVNULL, capture_output=True)
    except OSError:
        return []
    return [] if tried.returncode else words


if __name__ == "__main__":
    with_loopback(sys.argv[1:])
