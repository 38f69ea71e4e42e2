"""What can go wrong, as exceptions of one family."""

from __future__ import annotations

BUCKET_RULE = "1 to 64 of a-z, 0-9, - and _, the first a letter or a digit"
"""Which texts can be the name of a bucket."""

_WORDS = {
    "url": "the origin is no URL, such as https://a.test",
    "bucket": f"the bucket's name isn't {BUCKET_RULE}",
    "opaque-origin": "an opaque origin, as a file's, has no locks",
    "requests": "as many requests are live as it takes",
    "agents": "as many agents are live as it takes",
}
"""What a rule says to whoever broke it, where its own word doesn't."""


class Error(Exception):
    """The parent of all that this package raises of its own."""


class Disconnected(Error, ConnectionError):
    """There is no connection to the service: it could not be made, or it was lost before the answer came.

    A steal, or a request with `if_available` or `timeout=0`, that raises this may have been done by the service, and is
    undone by it since the connection ended. Requests that may wait don't raise it while the manager reconnects: they
    are asked again.
    """


class Forbidden(Disconnected):
    """The service doesn't let this client in: its token or its target was refused, or it may not open this origin.

    Where no connection is left, no further one is tried after it.
    """


class Closed(Error):
    """The lock manager was closed, by `close()` or by the end of its block."""


class Refused(Error):
    """The service refused what was asked.

    `name` is the kind of the refusal: the standard's name of the exception where it has one (`InvalidStateError`,
    `SecurityError`, `NotSupportedError`), else one of the service's (`Limit`, `BadUrl`, `BadBucket`). `rule` names
    the rule that refused it, such as `opaque-origin` or `requests`.
    """

    def __init__(self, name: str, rule: str) -> None:
        why = f": {_WORDS[rule]}" if rule in _WORDS else ""
        super().__init__(f"the service refused: {name} ({rule}){why}")
        self.name = name
        self.rule = rule


class LockLost(Error):
    """A lock ended before its block did: the connection was lost, the manager was closed, or the lock was stolen."""


class LockStolen(LockLost):
    """A lock ended before its block did: another agent's request stole it."""
