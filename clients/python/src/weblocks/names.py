"""Names of locks as the service's JSON texts carry them.

A name is a sequence of UTF-16 code units, and may have lone surrogates; JSON texts of the service can't. So U+FDD0, a
noncharacter, introduces an escape: a lone surrogate goes as U+FDD0 and its four lowercase hexadecimal digits, and
U+FDD0 itself as U+FDD0 twice. All else goes as it is, so no two names have one text.
"""

from __future__ import annotations

import re

MARK = "\ufdd0"
LONGEST = 1024
"""The most bytes of UTF-8 that the service takes as a name."""

_SURROGATES = re.compile("[\ud800-\udfff]")
_ESCAPED_UNITS = re.compile("[\ud800-\udfff\ufdd0]")
_ESCAPES = re.compile("\ufdd0(\ufdd0|d[89a-f][0-9a-f]{2})")


def to_wire(name: str) -> str:
    """The text that stands for a name in messages."""
    if name.isascii():
        return name
    return _ESCAPED_UNITS.sub(_escape, _join_pairs(name))


def from_wire(text: str) -> str:
    """The name that a text of a message stands for; a text that no name has is shown as it is."""
    if MARK not in text:
        return text
    name = _ESCAPES.sub(_unescape, text)
    return name if to_wire(name) == text else text


def wire_of_checked(name: object) -> str:
    """The text that stands for a name in messages, or the error of a name that no lock can have.

    Raises TypeError where it is no text, and ValueError where it begins with "-", which the standard reserves, or is
    longer than the service takes.
    """
    if not isinstance(name, str):
        raise TypeError(f"the name of a lock is a str, not {type(name).__name__}")
    if name.startswith("-"):
        raise ValueError("the name of a lock can't begin with '-'")
    wire = to_wire(name)
    length = len(wire.encode())
    if length > LONGEST:
        raise ValueError(f"the name of a lock has at most {LONGEST} bytes of UTF-8, and this one has {length}")
    return wire


def has_lone_surrogate(text: str) -> bool:
    """Whether a surrogate of the text is no half of a pair, so that its JSON isn't the service's."""
    return _SURROGATES.search(_join_pairs(text)) is not None


def _join_pairs(name: str) -> str:
    """The same code units, where each surrogate pair is one character."""
    return name.encode("utf-16-le", "surrogatepass").decode("utf-16-le", "surrogatepass")


def _escape(found: re.Match[str]) -> str:
    unit = found[0]
    return MARK + (MARK if unit == MARK else f"{ord(unit):04x}")


def _unescape(found: re.Match[str]) -> str:
    digits = found[1]
    return MARK if digits == MARK else chr(int(digits, 16))
