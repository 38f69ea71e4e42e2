"""Opens a WebSocket to the service, with either interface of the library `websockets`."""

from __future__ import annotations

import importlib
import os
import re
import ssl as tls
from collections.abc import Awaitable, Callable
from dataclasses import dataclass
from functools import partial
from typing import Any, Protocol

from websockets.exceptions import InvalidHandshake, InvalidURI

from .errors import Disconnected, Forbidden
from .messages import Kind
from .names import has_lone_surrogate
from .targets import url_with_target

UNIX = "unix:"
"""What stands before the path of a Unix socket, in the place of a URL."""

PUSHES = "weblocks.push"
"""The subprotocol of a server that tells what changed without being asked."""

FENCES = "weblocks.fence"
"""That of a server that does so, and tells of each grant its fencing token."""

CLOSE_SECONDS = 1.0


class Aborts(Protocol):
    """What is used of the transport below a connection."""

    def abort(self) -> None: ...


class Socket(Protocol):
    """What is used of a connection of the library."""

    @property
    def subprotocol(self) -> str | None: ...

    @property
    def transport(self) -> Aborts: ...

    async def send(self, message: str, /) -> None: ...

    async def recv(self) -> str | bytes: ...

    async def close(self) -> None: ...


@dataclass(frozen=True, slots=True)
class Options:
    """Where the service is, as whom it is asked, and how; `weblocks.connect` says what each is for."""

    url: str
    origin: str
    kind: Kind = "window"
    bucket: str = "default"
    token: str | None = None
    heartbeat: float = 10.0
    poll_interval: float = 0.05
    reconnect: bool = True
    fences: bool = False
    open_timeout: float = 10.0
    ssl: tls.SSLContext | None = None
    opener: Callable[[Options], Awaitable[Socket]] | None = None
    """What connects in place of the library, where there is no server."""

    def __post_init__(self) -> None:
        for name in ("url", "origin", "bucket"):
            value = getattr(self, name)
            if not isinstance(value, str):
                raise TypeError(f"{name} is a str, not {type(value).__name__}")
        for name in ("origin", "bucket"):
            # Names of locks have an escape for it. A URL's own reader refuses it, and a path may need it.
            if has_lone_surrogate(getattr(self, name)):
                raise ValueError(f"{name} {getattr(self, name)!r} has a lone surrogate, which no message can carry")
        if self.url == UNIX or self.url.startswith(UNIX) and "\0" in self.url:
            raise ValueError(f"{self.url!r} names no Unix socket, as unix:/run/weblocks/socket does")
        if self.kind not in ("window", "worker"):
            raise ValueError(f"kind is 'window' or 'worker', not {self.kind!r}")
        if self.token is not None and not re.fullmatch("[!-~]+", self.token):
            raise ValueError("a token has one or more visible ASCII characters, and no space")
        for name in ("heartbeat", "poll_interval", "open_timeout"):
            if not getattr(self, name) > 0:
                raise ValueError(f"{name} is a number of seconds above 0")


async def open_socket(options: Options) -> Socket:
    """Connects, and offers pushes, with fencing tokens if they are wanted; the chosen subprotocol says what there is.

    A server that refuses a handshake with subprotocols, and may do so because of them, is tried without. Whoever calls
    sets a bound to how long that takes. Raises ValueError for a bad URL, Forbidden where the token or the target is
    refused, and Disconnected where no server answers.
    """
    if options.opener is not None:
        return await options.opener(options)
    try:
        return await _connect(options, [FENCES, PUSHES] if options.fences else [PUSHES])
    except InvalidHandshake as error:
        if _has_other_reason(error):
            raise _explain(options, error) from error
    except (InvalidURI, EOFError, OSError) as error:
        raise _explain(options, error) from error
    try:
        return await _connect(options, None)
    except (InvalidHandshake, InvalidURI, EOFError, OSError) as error:
        raise _explain(options, error) from error


def sends_in_tasks(socket: Socket) -> bool:
    """Whether it is to send in tasks alone, as a connection of the library's newer interface.

    While that closes, its `send` sets a timeout, by which the task that called it is cancelled.
    """
    return type(socket).__module__.startswith("websockets.asyncio.")


def _find_library() -> tuple[Any, str]:
    """The library's module that connects, and what it calls the headers that it adds."""
    try:
        return importlib.import_module("websockets.asyncio.client"), "additional_headers"
    except ImportError:
        return importlib.import_module("websockets.client"), "extra_headers"


_library, _headers_word = _find_library()


async def _connect(options: Options, subprotocols: list[str] | None) -> Socket:
    words: dict[str, Any] = {}
    if options.token is not None:
        words[_headers_word] = {"Authorization": f"Bearer {options.token}"}
    if options.ssl is not None:
        words["ssl"] = options.ssl
    # The heartbeat of a connection stands in for the library's pings: only replies show that the service answers. The
    # older interface's own timeout is asyncio.wait_for's, which on Python 3.11 loses a cancellation that comes as the
    # handshake ends; and neither's is for more than one handshake.
    socket: Socket = await _opening(options)(
        subprotocols=subprotocols,
        compression=None,
        max_size=None,
        ping_interval=None,
        open_timeout=None,
        close_timeout=CLOSE_SECONDS,
        **words,
    )
    return socket


def _opening(options: Options) -> Callable[..., Awaitable[Socket]]:
    """The library's function that connects, with where the server is."""
    if options.url.startswith(UNIX):
        return partial(_library.unix_connect, options.url.removeprefix(UNIX), _url(options))
    return partial(_library.connect, _url(options))


def _url(options: Options) -> str:
    """The URL of which a handshake has its host and its target."""
    return url_with_target("ws://localhost/" if options.url.startswith(UNIX) else options.url, options.origin)


def _status(error: BaseException) -> int | None:
    """The HTTP status by which a handshake was refused, as either interface of the library has it."""
    status = getattr(error, "status_code", None)
    if status is None:
        status = getattr(getattr(error, "response", None), "status_code", None)
    return status if isinstance(status, int) else None


def _is_cut(error: BaseException) -> bool:
    """Whether the connection ended before its handshake was answered, as either interface of the library has it."""
    if isinstance(error, InvalidHandshake):
        return isinstance(error.__cause__, (EOFError, OSError))
    return isinstance(error, EOFError)


def _has_other_reason(error: InvalidHandshake) -> bool:
    """Whether a handshake failed for another reason than its subprotocols, as that a proxy reaches no daemon.

    Such a reason may be gone a moment later. A handshake without subprotocols would succeed then, and its connection be
    polled and have no fencing tokens, for as long as it lasts.
    """
    status = _status(error)
    if status is None:
        return _is_cut(error)
    return status in (401, 403) or status >= 500


def _explain(options: Options, error: Exception) -> Exception:
    """What to raise for an error of the library or the system."""
    server = f"the server at {options.url}"
    if isinstance(error, InvalidURI):
        if error.uri != _url(options):
            return Disconnected(f"{server} redirects to {error.uri!r}, which is no URL of a WebSocket server")
        return ValueError(f"{options.url!r} is no URL of a WebSocket server, such as ws://127.0.0.1:8080")
    status = _status(error)
    if status in (401, 403):
        fault = "wants a token" if options.token is None else "refused the token"
        return Forbidden(f"{server} {fault} (HTTP status {status})")
    if status == 400:
        return Forbidden(f"{server} refused the handshake for {_url(options)} (HTTP status 400)")
    if status is not None and status >= 500:
        return Disconnected(f"{server} has no room for a further client, or reaches no daemon (HTTP status {status})")
    if status is not None:
        return Disconnected(f"{server} does not speak WebSocket here (HTTP status {status})")
    if _is_cut(error):
        return Disconnected(f"{server} ended the connection before it answered")
    if isinstance(error, InvalidHandshake):
        return Disconnected(f"{server} does not speak WebSocket: {error}")
    # Errors of TLS have numbers of their own, which aren't the system's.
    if isinstance(error, tls.SSLCertVerificationError):
        return Disconnected(f"{server} has a certificate that isn't trusted: {error.verify_message}")
    if isinstance(error, tls.SSLError):
        return Disconnected(f"{server} does not speak TLS as wanted: {error}")
    errno = error.errno if isinstance(error, OSError) else None
    reason = os.strerror(errno) if errno is not None and errno > 0 else str(error)
    return Disconnected(f"no server answers at {options.url}: {reason}")
