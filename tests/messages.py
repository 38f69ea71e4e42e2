"""A message of a script, by docs/FORMATS.md: its JSON value, its faults, its bucket, and the origin of a simple URL."""

import json
import math
import re
from urllib.parse import urlsplit

LARGEST, LARGEST_CODE = 2**53 - 1, 2**16 - 1
DEEPEST = 127
PORTS = {"http": 80, "https": 443, "ws": 80, "wss": 443}


class Refused(Exception):
    """What an error's reply says: its name and its rule, and in `more` the other members of the error."""

    def __init__(self, name, rule, **more):
        super().__init__(name, rule)
        self.error = {"name": name, "rule": rule, **more}


class Inexact:
    """A number with a sign, a fraction or an exponent."""


def whole(text):
    return Inexact() if text.startswith("-") else finite(text, int(text))


def finite(text, value=None):
    if math.isinf(float(text)):
        raise ValueError
    return Inexact() if value is None else value


def no_json(text):
    raise ValueError


def depth(value):
    inner = value.values() if isinstance(value, dict) else value if isinstance(value, list) else None
    return 0 if inner is None else 1 + max(map(depth, inner), default=0)


def texts(value):
    """All texts of a value, one after another."""
    if isinstance(value, dict):
        return "".join(key + texts(item) for key, item in value.items())
    if isinstance(value, list):
        return "".join(map(texts, value))
    return value if isinstance(value, str) else ""


def value_of(line):
    try:
        value = json.loads(line.decode(), parse_int=whole, parse_float=finite, parse_constant=no_json)
        # It has no lone surrogate.
        texts(value).encode()
        if depth(value) > DEEPEST:
            raise ValueError
        return value
    except (ValueError, RecursionError):
        raise Refused("BadJson", "json") from None


def is_whole(value):
    return type(value) is int and value <= LARGEST


def is_text(value):
    return isinstance(value, str)


def is_flag(value):
    return isinstance(value, bool)


def one_of(*words):
    return lambda value: is_text(value) and value in words


def is_reason(value):
    """One of the two words, or a code."""
    return value in ("AbortError", "TimeoutError") if is_text(value) else is_whole(value) and value <= LARGEST_CODE


def is_object(value):
    return value is None or isinstance(value, dict)


# Of each operation: the members in the order in which they are checked, whether each must be there, and what it may be.
MEMBERS = {
    "open": [("url", True, is_text), ("kind", False, one_of("window", "worker")), ("bucket", False, is_text)],
    "signal": [],
    "request": [("name", True, is_text), ("options", False, is_object)],
    "release": [("request", True, is_whole)],
    "abort": [("signal", True, is_whole), ("reason", False, is_reason)],
    "active": [("active", True, is_flag)],
    "query": [],
    "poll": [],
    "close": [],
}
OPTIONS = [
    ("ifAvailable", False, is_flag),
    ("mode", False, one_of("exclusive", "shared")),
    ("signal", False, is_whole),
    ("steal", False, is_flag),
]


def check(members, rules):
    for member, must, is_good in rules:
        if not is_good(members[member]) if member in members else must:
            raise Refused("TypeError", member)


def check_message(message):
    if not is_text(message.get("agent")):
        raise Refused("TypeError", "agent")
    op = message.get("op")
    if not is_text(op) or op not in MEMBERS:
        raise Refused("BadOp", "op")
    check(message, MEMBERS[op])
    if op == "request":
        check(message.get("options") or {}, OPTIONS)


def origin_of(url):
    """Scheme, host and port; none where the origin is opaque."""
    parts = urlsplit(url)
    if not parts.scheme:
        raise Refused("BadUrl", "url")
    if parts.scheme not in PORTS:
        return None
    return parts.scheme, parts.hostname, parts.port or PORTS[parts.scheme]


def bucket_of(message):
    bucket = message.get("bucket", "default")
    if not re.fullmatch("[a-z0-9][a-z0-9_-]{0,63}", bucket):
        raise Refused("BadBucket", "bucket")
    return bucket
