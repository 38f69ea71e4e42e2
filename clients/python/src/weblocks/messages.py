"""Messages to the service and its replies, as Python values."""

from __future__ import annotations

import json
import re
from dataclasses import dataclass
from typing import Any, Literal

from .errors import Refused

Mode = Literal["exclusive", "shared"]
Kind = Literal["window", "worker"]
Reason = Literal["AbortError", "TimeoutError"]
Message = str
"""The members of a message as JSON, all but its id: `write_message` makes them whole."""

POLL: Message = '"op": "poll"'
SIGNAL: Message = '"op": "signal"'
QUERY: Message = '"op": "query"'
CLOSE: Message = '"op": "close"'


_FENCE = re.compile("[0-9a-f]{16}-[0-9a-f]{16}")


class BadReply(Exception):
    """What came is no reply of the service."""


@dataclass(slots=True)
class Reply:
    """One message of the service: the answer to the message of that id, or a push of what changed, whose id is None.

    `ok` has what was answered, unless `refusal` says why it was refused. `notices` are pairs of a request's number and
    its new phase: granted, unavailable, aborted or stolen. `fences` has the fencing tokens of those that were granted,
    by their numbers, where the server gives some.
    """

    id: int | None
    ok: dict[str, Any]
    refusal: Refused | None
    notices: list[tuple[int, str]]
    fences: dict[int, str]


def write_message(id: int, message: Message) -> str:
    """A message as JSON, with its id."""
    return f'{{"id": {id}, {message}}}'


def read_reply(text: str | bytes, fenced: bool = False) -> Reply:
    """Reads a reply, or raises BadReply. One that isn't `fenced` has no fencing tokens, whatever it says of them."""
    try:
        value = json.loads(text)
        error = value.get("error")
        notices = [(int(notice["request"]), str(notice["phase"])) for notice in value["notices"]]
        fences = _read_fences(value["fences"]) if fenced and "fences" in value else {}
        if error is not None:
            return Reply(value["id"], {}, Refused(error["name"], error["rule"]), notices, fences)
        ok = value["ok"]
        if not isinstance(ok, dict):
            raise BadReply("its member ok is no object")
        return Reply(value["id"], ok, None, notices, fences)
    except (ValueError, KeyError, TypeError, AttributeError) as error:
        raise BadReply(f"it can't be read: {error!r}") from error


def _read_fences(entries: object) -> dict[int, str]:
    """The fencing tokens by the numbers of their requests; whoever wrote by a malformed one could do harm."""
    if not isinstance(entries, list):
        raise BadReply("its member fences is no list")
    fences = {}
    for entry in entries:
        request, fence = entry["request"], entry["fence"]
        if type(request) is not int or not isinstance(fence, str) or _FENCE.fullmatch(fence) is None:
            raise BadReply(f"it has a malformed fence: {entry!r}")
        fences[request] = fence
    return fences


def open_message(origin: str, kind: Kind, bucket: str) -> Message:
    """Opens the connection as an agent of an origin's bucket."""
    return f'"op": "open", "url": {json.dumps(origin)}, "kind": {json.dumps(kind)}, "bucket": {json.dumps(bucket)}'


def request_message(wire_name: str, mode: Mode, signal: int | None, steal: bool, if_available: bool) -> Message:
    """Requests a lock. The defaults of the format are left out."""
    options = []
    if mode == "shared":
        options.append('"mode": "shared"')
    if signal is not None:
        options.append(f'"signal": {signal}')
    if steal:
        options.append('"steal": true')
    if if_available:
        options.append('"ifAvailable": true')
    return f'"op": "request", "name": {json.dumps(wire_name)}, "options": {{{", ".join(options)}}}'


def release_message(number: int) -> Message:
    """Releases the lock of the request of that number."""
    return f'"op": "release", "request": {number}'


def abort_message(signal: int, reason: Reason) -> Message:
    """Ends what the signal's requests wait for."""
    return f'"op": "abort", "signal": {signal}, "reason": "{reason}"'
