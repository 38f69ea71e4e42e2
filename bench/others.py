"""Servers of others, started for a benchmark as Debian's packages have them, with nothing kept on a disk."""

import glob
import os
import shutil
import socket
import subprocess
import sys
import tempfile
import time
from contextlib import contextmanager

sys.dont_write_bytecode = True
from serving import free_port

# Seconds until a server listens.
SECONDS = 30


class Other:
    """A server that was started, which serves once it listens and has written a text. It is ended by its number."""

    def __init__(self, words, port, says=b"", **how):
        self.port, self.says = port, says
        self.log = tempfile.TemporaryFile()
        self.child = subprocess.Popen(list(map(str, words)), stdout=self.log, stderr=self.log, **how)

    def written(self):
        return os.pread(self.log.fileno(), 2**20, 0)

    def serves(self):
        try:
            socket.create_connection(("127.0.0.1", self.port)).close()
        except ConnectionError:
            return False
        return self.says in self.written()

    def await_service(self):
        until = time.monotonic() + SECONDS
        while not self.serves():
            if time.monotonic() > until or self.child.poll() is not None:
                sys.exit(f"{self.child.args[0]} doesn't serve: {self.written().decode(errors='replace')}")
            time.sleep(0.05)

    def __enter__(self):
        try:
            self.await_service()
        except BaseException:
            self.__exit__()
            raise
        return self

    def __exit__(self, *_):
        self.child.terminate()
        try:
            self.child.wait(SECONDS)
        except subprocess.TimeoutExpired:
            self.child.kill()
            self.child.wait()
        self.log.close()


def beside(command, connections):
    """Another program for our protocol, for so many connections, one of which sees that it listens."""
    port = free_port()
    return Other([*command.split(), "serve", "--port", port, "--clients", connections], port)


def folder_in_memory():
    return tempfile.TemporaryDirectory(prefix="weblocks-bench-", dir="/dev/shm" if os.path.isdir("/dev/shm") else None)


def find(name, package, places=()):
    """The program of this name, or None where its package isn't installed, which is said."""
    elsewhere = (it for place in places for it in sorted(glob.glob(f"{place}/{name}")))
    found = [*filter(None, [shutil.which(name)]), *elsewhere]
    if not found:
        print(f"not run: {name} isn't here (Debian's package {package})", file=sys.stderr)
        return None
    return found[-1]


@contextmanager
def redis(program):
    with folder_in_memory() as folder:
        port = free_port()
        words = [program, "--port", port, "--bind", "127.0.0.1", "--save", "", "--appendonly", "no", "--dir", folder]
        with Other(words, port) as server:
            yield server


@contextmanager
def postgres(program):
    """It runs as the user postgres where this is root, as it must."""
    port = free_port()
    how = {"user": "postgres", "group": "postgres", "extra_groups": []} if os.geteuid() == 0 else {}
    with folder_in_memory() as folder:
        data = os.path.join(folder, "data")
        os.mkdir(data, 0o700)
        if how:
            os.chmod(folder, 0o755)
            shutil.chown(data, "postgres", "postgres")
        make = [os.path.join(os.path.dirname(program), "initdb"), "-D", data, "-A", "trust", "-U", "postgres"]
        made = subprocess.run(make, capture_output=True, check=False, cwd=folder, **how)
        if made.returncode:
            sys.exit(f"initdb: {made.stderr.decode(errors='replace')}")
        words = [program, "-D", data, "-p", port, "-c", "listen_addresses=127.0.0.1", "-c", "fsync=off"]
        words += ["-c", "unix_socket_directories=", "-c", "max_connections=100"]
        with Other(words, port, says=b"ready to accept connections", cwd=folder, **how) as server:
            yield server


@contextmanager
def etcd(program):
    with folder_in_memory() as folder:
        port, peers = free_port(), free_port()
        here, there = f"http://127.0.0.1:{port}", f"http://127.0.0.1:{peers}"
        words = [program, "--data-dir", folder, "--listen-client-urls", here, "--advertise-client-urls", here]
        words += ["--listen-peer-urls", there, "--initial-advertise-peer-urls", there]
        with Other([*words, "--initial-cluster", f"default={there}"], port) as server:
            # It takes no lock before it has been elected.
            time.sleep(3)
            yield server


# Of each its program, Debian's package, where that puts it, and how it is started.
OTHERS = {
    "postgres": ("postgres", "postgresql", ["/usr/lib/postgresql/*/bin"], postgres),
    "redis": ("redis-server", "redis-server", [], redis),
    "etcd": ("etcd", "etcd-server", [], etcd),
}


def other(name):
    """A server of this name to be started, or None where it can't be had here."""
    command, package, places, start = OTHERS[name]
    program = find(command, package, places)
    return start(program) if program else None
