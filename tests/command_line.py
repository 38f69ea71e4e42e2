"""The words on the built program's command line: its help, its version, and what it says of wrong words."""

import re
import shutil
from pathlib import Path

from running import Wrong, expect, expect_end, run_on, text

TOP = Path(__file__).resolve().parent.parent

SCRIPT = """\
Example:
  weblocks run < script.jsonl

  A line of a script, and its reply:
  {"agent":"a","id":1,"op":"open","url":"https://a.test/"}
  {"id":1,"notices":[],"ok":{"client":"client-1"}}

"""

HELP = (
    """\
A lock service with the behaviour of the Web Locks API

Usage: weblocks <COMMAND>

Commands:
  run       Answer each line of standard input by one line on standard output
  audit     Do each line of standard input, and say for each manager whether its journal is legal
  timeline  Do each line of standard input, and draw what became of each request as an SVG
  serve     Serve locks over WebSocket on 127.0.0.1
  client    Send each line of standard input to a server, and print its reply as a line
  daemon    Serve locks over WebSocket until it is stopped, and push grants to those who want that
  help      Print this message or the help of the given subcommand(s)

Options:
  -h, --help     Print help
  -V, --version  Print version

"""
    + SCRIPT
    + """\
'weblocks help <COMMAND>' shows a command's options and an example. Read more in README.md.
"""
)

RUN_HELP = (
    """\
Answer each line of standard input by one line on standard output

Usage: weblocks run

Options:
  -h, --help  Print help

"""
    + SCRIPT
    + """\
All messages and replies: docs/FORMATS.md.
"""
)

AUDIT_HELP = """\
Do each line of standard input, and say for each manager whether its journal is legal

Usage: weblocks audit

Options:
  -h, --help  Print help

Example:
  weblocks audit < script.jsonl

  A line for each manager, here those of two buckets:
  {"entries":4,"legal":true,"origin":"https://a.test"}
  {"bucket":"inbox","entries":3,"legal":true,"origin":"https://a.test"}

Scripts and audits: docs/FORMATS.md.
"""

TIMELINE_HELP = """\
Do each line of standard input, and draw what became of each request as an SVG

Usage: weblocks timeline

Options:
  -h, --help  Print help

Example:
  weblocks timeline < script.jsonl > script.svg

  Bars from the line that asks for a lock to the line that ends it, in a lane for each label.

What the picture has: docs/FORMATS.md.
"""

SERVE_HELP = """\
Serve locks over WebSocket on 127.0.0.1

Usage: weblocks serve --port <PORT> --clients <NUMBER>

Options:
      --port <PORT>       Port to listen on, 1 to 65535 [required]
      --clients <NUMBER>  Number of connections after which it ends, 1 to 10000 [required]
  -h, --help              Print help

Example:
  weblocks serve --port 8080 --clients 100

  A line once it listens, and one at the end:
  listening 8080
  served 100 failed 0

Clients in other languages, and limits: docs/CLIENTS.md.
"""

CLIENT_HELP = """\
Send each line of standard input to a server, and print its reply as a line

Usage: weblocks client --port <PORT>

Options:
      --port <PORT>  Port that the server listens on, 1 to 65535 [required]
  -h, --help         Print help

Example:
  weblocks client --port 8080 < messages.jsonl

  A message, and its reply:
  {"id":1,"op":"open","url":"https://a.test/"}
  {"id":1,"notices":[],"ok":{"client":"client-1"}}

All messages and replies: docs/FORMATS.md.
"""

DAEMON_HELP = """\
Serve locks over WebSocket until it is stopped, and push grants to those who want that

Usage: weblocks daemon [OPTIONS]

Options:
      --listen <ADDRESS:PORT|unix:PATH>
          Address and port to listen on, port 0 being any that is free, or socket of this machine. May be given again \
[default: 127.0.0.1:8080]
      --connections <NUMBER>
          Connections at once, 1 to 1000000 [default: 10000]
      --per-address <NUMBER>
          Connections at once from one address, 1 to 1000000 [default: a quarter of all; all from this machine]
      --managers <NUMBER>
          Buckets at once that have an agent, 1 to 10000000 [default: 100000]
      --idle <SECONDS>
          Seconds of silence after which a peer is pinged, 1 to 86400; it is ended after twice as many [default: 30]
      --loops <NUMBER>
          Event loops, 1 to 64 [default: one a core]
      --token-file <FILE>
          File with a token a line, and the origins that it may open; whoever has none stays out
      --open
          Listen beyond this machine without a token file
      --sharded
          Have each connection open URLs of one origin alone, which its target /?origin=ORIGIN names
      --allow-origin <ORIGIN>
          Origin whose pages may open any URL; '*' is each origin. May be given again
      --status <ADDRESS:PORT>
          Address and port to show the status at, over HTTP; port 0 is any that is free
      --status-host <NAME>
          Host by which requests for the status may name it too, as behind a proxy. May be given again
      --epoch <NUMBER>
          Epoch of the fencing tokens, 1 to 9223372036854775807: greater than at each start before
      --epoch-file <FILE>
          File that keeps the epoch, which each start makes one greater; 1 where there is none yet
      --while-input
          End when standard input ends
      --log <LEVEL>
          What goes to standard error: off, error, warn, info, debug or trace [default: info]
  -h, --help
          Print help

Example:
  weblocks daemon --listen 127.0.0.1:8080

  A line once it listens:
  listening 127.0.0.1:8080

  With --status 127.0.0.1:8081 a second one, and http://127.0.0.1:8081/ shows the locks:
  status 127.0.0.1:8081

Tokens, pages, pushes and close codes: docs/FORMATS.md.
"""

PAGES = {
    "run": RUN_HELP,
    "audit": AUDIT_HELP,
    "timeline": TIMELINE_HELP,
    "serve": SERVE_HELP,
    "client": CLIENT_HELP,
    "daemon": DAEMON_HELP,
}

# How a page of help is asked for, and the page.
HELPS = [(words, HELP) for words in ("--help", "-h", "help")] + [
    (words, page)
    for command, page in PAGES.items()
    for words in (f"{command} --help", f"{command} -h", f"help {command}")
]

VERSION = "0.1.0"

# As `rt version` names a kit: its release and its logic.
KIT = r"rattle-kit-\S+ (logic [0-9a-f]{16})"


def names_documents(page):
    """Each document that a page of help names is there, and it names one."""
    named = re.findall(r"[\w/]+\.md\b", page)
    if not named:
        raise Wrong(f"no document is named by\n{page}")
    for name in named:
        if not (TOP / name).is_file():
            raise Wrong(f"there is no {name}, which help names")


def tells_its_version(words):
    """The kit has the logic of the one at hand, where there is one: releases of one logic prove the same."""
    ended = run_on(words)
    found = re.fullmatch(rf"weblocks {re.escape(VERSION)} \(({KIT})\)\n", ended.out.decode())
    if not found:
        raise Wrong(f"the version is {text(ended.out)}")
    expect_end(ended, ended.out)
    if shutil.which("rt"):
        at_hand = re.fullmatch(KIT, run_on(["rt", "version"]).out.decode().strip())
        expect("the kit's logic", found[2], at_hand and at_hand[1])


def full_output(words):
    """What was asked for is lost, and so it isn't a success."""
    with open("/dev/full", "wb") as full:
        expect_end(run_on(words, stdout=full), b"", 1, b"weblocks: cannot write after line 0\n")


# ---- wrong words

TRY_HELP = "\n\nFor more information, try '--help'.\n"

# The usage of each command, as its help has it.
USAGE = {
    command: "\n\n" + next(line for line in page.splitlines() if line.startswith("Usage: "))
    for command, page in [("", HELP), *PAGES.items()]
}
# (the option of a tip counts as used)
USAGE["--listen"] = USAGE["daemon"].replace("[OPTIONS]", "--listen <ADDRESS:PORT|unix:PATH>")
USAGE["--version"] = USAGE[""].replace("weblocks", "weblocks --version")


def unknown(word, command, tip=""):
    """A word that begins with -, or that nothing takes."""
    return f"unexpected argument '{word}' found" + tip + USAGE[command]


def no_command(word, tip=""):
    return f"unrecognized subcommand '{word}'" + tip + USAGE[""]


def near_argument(name):
    return f"\n\n  tip: a similar argument exists: '{name}'"


def near_command(name):
    return f"\n\n  tip: a similar subcommand exists: '{name}'"


def missing(command, *options):
    lines = "".join(f"\n  {option}" for option in options)
    return "the following required arguments were not provided:" + lines + USAGE[command]


def out_of_range(option, value, most):
    return f"invalid value '{value}' for '{option}': {value} is not in 1..={most}"


def no_value(option, value, why):
    """A value that the daemon's option can't have."""
    return f"invalid value '{value}' for '{option}': {why}" + USAGE[""]


PORT, CLIENTS = "--port <PORT>", "--clients <NUMBER>"
LISTEN, LOG, EPOCH = "--listen <ADDRESS:PORT|unix:PATH>", "--log <LEVEL>", "--epoch <NUMBER>"

# Words, and what is said of them.
WRONG = [
    ("serv", no_command("serv", near_command("serve"))),
    ("clients", no_command("clients", near_command("client"))),
    ("auditt", no_command("auditt", near_command("audit"))),
    ("timelines", no_command("timelines", near_command("timeline"))),
    ("walk", no_command("walk")),
    ("help walk", no_command("walk")),
    ("--versoin", unknown("--versoin", "--version", near_argument("--version"))),
    ("--port 80 serve", unknown("--port", "", "\n\n  tip: 'serve --port' exists")),
    ("serve --prot 80", unknown("--prot", "serve", near_argument("--port"))),
    ("serve --client 3", unknown("--client", "serve", near_argument("--clients"))),
    ("client --prt 80", unknown("--prt", "client", near_argument("--port"))),
    ("serve --version", unknown("--version", "serve")),
    ("serve 8080", unknown("8080", "serve")),
    ("run script.jsonl", unknown("script.jsonl", "run")),
    ("audit script.jsonl", unknown("script.jsonl", "audit")),
    ("timeline script.jsonl", unknown("script.jsonl", "timeline")),
    ("client", missing("client", PORT)),
    ("serve", missing("serve", PORT, CLIENTS)),
    ("serve --port 8080", missing("serve", CLIENTS)),
    ("client --port", f"a value is required for '{PORT}' but none was supplied"),
    ("client --port x", f"invalid value 'x' for '{PORT}': invalid digit found in string"),
    ("client --port 80 --port 81", f"the argument '{PORT}' cannot be used multiple times" + USAGE["client"]),
    ("client --port 0", out_of_range(PORT, 0, 65535)),
    ("client --port 65536", out_of_range(PORT, 65536, 65535)),
    ("serve --port 0 --clients 1", out_of_range(PORT, 0, 65535)),
    ("serve --port 65536 --clients 1", out_of_range(PORT, 65536, 65535)),
    ("serve --port 8080 --clients 0", out_of_range(CLIENTS, 0, 10000)),
    ("serve --port 8080 --clients 10001", out_of_range(CLIENTS, 10001, 10000)),
    ("daemon --listn 1", unknown("--listn", "--listen", near_argument("--listen"))),
    ("daemon 8080", unknown("8080", "daemon")),
    *((f"daemon --listen {value}", no_value(LISTEN, value, "neither an address and a port nor a socket's path"))
      for value in ("8080", "localhost:8080", "127.0.0.1", "127.0.0.1:65536", "::1:8080", "1.2.3:80", "unix:")),
    ("daemon --listen unix:x --listen y", no_value(LISTEN, "y", "neither an address and a port nor a socket's path")),
    ("daemon --sharded --sharded", "the argument '--sharded' cannot be used multiple times" + USAGE["daemon"]),
    ("daemon --log loud", no_value(LOG, "loud", "not a level")),
    *((f"daemon --{name} {value}", out_of_range(f"--{name} <{shown}>", value, most))
      for name, shown, most in (
          ("connections", "NUMBER", 1000000),
          ("per-address", "NUMBER", 1000000),
          ("managers", "NUMBER", 10000000),
          ("idle", "SECONDS", 86400),
          ("loops", "NUMBER", 64),
      )
      for value in (0, most + 1)),
    ("daemon --idle x", "invalid value 'x' for '--idle <SECONDS>': invalid digit found in string"),
    ("daemon --token-file", "a value is required for '--token-file <FILE>' but none was supplied"),
    ("daemon --epoch 1 --epoch-file e",
     "the argument '--epoch <NUMBER>' cannot be used with '--epoch-file <FILE>'" + USAGE[""]),
    # The greatest number of its type is to `clap` as no limit.
    ("daemon --epoch 0", f"invalid value '0' for '{EPOCH}': 0 is not in 1..{2**63 - 1}"),
    (f"daemon --epoch {2**63}", f"invalid value '{2**63}' for '{EPOCH}': number too large to fit in target type"),
    ("daemon --epoch-file", "a value is required for '--epoch-file <FILE>' but none was supplied"),
]

NO_COMMAND = """\
'weblocks' requires a subcommand but one was not provided
  [subcommands: run, audit, timeline, serve, client, daemon, help]"""


def is_refused(words, why):
    """Nothing goes to standard output."""
    expect_end(run_on(words), b"", 2, f"error: {why}".encode())


def command_line_checks(program):
    for words, page in HELPS:
        yield f"help by {words}", lambda w=words, p=page: expect_end(run_on([program, *w.split()]), p.encode())
    for command, page in [("the program", HELP), *PAGES.items()]:
        yield f"the documents that the help of {command} names", lambda p=page: names_documents(p)
    for words in ("--version", "-V", "--version run"):
        yield f"the version by {words}", lambda w=words: tells_its_version([program, *w.split()])
    for words in ("--help", "--version"):
        yield f"{words} on a full output", lambda w=words: full_output([program, w])
    yield "no subcommand", lambda: is_refused([program], NO_COMMAND + USAGE[""] + TRY_HELP)
    for words, why in WRONG:
        yield f"the words {words}", lambda w=words, y=why: is_refused([program, *w.split()], y + TRY_HELP)
    yield "a word that is no text", lambda: is_refused([program, b"run\xff"], "an argument is no UTF-8 text\n")
