"""What the benchmarks of servers share: servers that they start, what those took, and the client in Rust (client/)."""

import glob
import json
import os
import resource
import shutil
import subprocess
import sys
import tempfile
from contextlib import contextmanager
from pathlib import Path

sys.dont_write_bytecode = True
TOP = Path(__file__).resolve().parent.parent
sys.path.insert(0, str(TOP / "tests"))
from daemon_server import Daemon
from network import Serving, free_port

PROGRAM = str(TOP / "crates/weblocks/out/weblocks")
# How a client of each job is told of a grant.
TELLING = {"serve": "polled", "daemon": "pushed"}
# Of a round's time, for how much at most a processor may be kept from a machine that is calm.
STOLEN = 0.02


def raise_file_limit():
    """As many files as may be had, here and in each server that is started."""
    _, hard = resource.getrlimit(resource.RLIMIT_NOFILE)
    resource.setrlimit(resource.RLIMIT_NOFILE, (hard, hard))


@contextmanager
def built_client():
    """Builds the client by `rustc`, without any crate, and answers its path."""
    if not shutil.which("rustc"):
        sys.exit("the client is built by rustc, which isn't here")
    with tempfile.TemporaryDirectory(prefix="weblocks-bench-") as folder:
        words = ["rustc", "-O", "--edition", "2021", "-o", f"{folder}/client", TOP / "bench/client/main.rs"]
        if subprocess.run(words, check=False).returncode:
            sys.exit("the client can't be built")
        yield f"{folder}/client"


def ask(client, *words, seconds=None):
    """Runs the client, for so many seconds at most, and answers what it found."""
    try:
        ran = subprocess.run([client, *map(str, words)], stdout=subprocess.PIPE, check=False, timeout=seconds)
    except subprocess.TimeoutExpired:
        sys.exit(f"the client did not end in {seconds} seconds")
    if ran.returncode:
        sys.exit(f"the client ended with status {ran.returncode}")
    return json.loads(ran.stdout)


def variables():
    """What ./weblocks and the package's service say to the C library's allocator, unless the environment does."""
    return [] if "MALLOC_ARENA_MAX" in os.environ else ["MALLOC_ARENA_MAX=1"]


@contextmanager
def started(program, job, connections, *options):
    """The program as `serve` for so many connections, or as `daemon` with these options. It has .child and .port."""
    before = ["env", *variables()]
    if job == "serve":
        server = Serving(program, connections, before)
    else:
        server = Daemon(program, "--log", "off", *options, before=before)
    with server:
        yield server


@contextmanager
def bound_to(cores):
    """What is started meanwhile has these processors alone, by their numbers; where there are none, all of ours."""
    ours = os.sched_getaffinity(0)
    os.sched_setaffinity(0, cores or ours)
    try:
        yield
    finally:
        os.sched_setaffinity(0, ours)


def stolen_seconds():
    """For how long the hypervisor has kept processors that had work from this machine, all of them together."""
    with open("/proc/stat") as file:
        return int(file.readline().split()[8]) / os.sysconf("SC_CLK_TCK")


def is_calm(found):
    """Whether the hypervisor kept hardly anything of a round's time from this machine."""
    return found["stolen"] <= STOLEN * found["seconds"]


def cpu_seconds(pid):
    """What a process and its children, those that ended too, have used of the processor."""
    ticks = 0
    for path in glob.glob("/proc/[0-9]*/stat"):
        try:
            with open(path) as file:
                fields = file.read().rpartition(") ")[2].split()
        except OSError:
            continue
        if path == f"/proc/{pid}/stat":
            ticks += sum(map(int, fields[11:15]))
        elif fields[1] == str(pid):
            ticks += sum(map(int, fields[11:13]))
    return ticks / os.sysconf("SC_CLK_TCK")


def status(pid, key):
    """A number of /proc/PID/status, as VmRSS or VmHWM in KB."""
    with open(f"/proc/{pid}/status") as file:
        return next(int(line.split()[1]) for line in file if line.startswith(key + ":"))


def row(*cells):
    print("| " + " | ".join(map(str, cells)) + " |", flush=True)


def head(*titles):
    row(*titles)
    row(*["---"] * len(titles))


def numbers(text):
    """Numbers with commas between them."""
    return [int(it) for it in text.split(",")]
