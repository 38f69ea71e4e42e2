"""The target of a handshake: the origin, by which a proxy or a server that has only some origins tells its own."""

from __future__ import annotations

import re
import socket
from ipaddress import AddressValueError, IPv6Address
from urllib.parse import quote, unquote, urlsplit, urlunsplit

_PORTS = {"http": 80, "https": 443, "ws": 80, "wss": 443, "ftp": 21}
_OUTER = "".join(map(chr, range(33)))
_SCHEME = re.compile("([a-z][a-z0-9+.-]*):", re.IGNORECASE)
_HOST_AND_PORT = re.compile(r"(\[[^\]]*\]|[^:]*)(?::([0-9]*))?", re.ASCII)
_NUMBER = re.compile("[0-9]+|0x[0-9a-f]*")
_FORBIDDEN = re.compile(r"[\x00-\x20\x7f-\U0010ffff#/:<>?@\[\\\]^|%]")


def url_with_target(url: str, origin: str) -> str:
    """The server's URL with `/?origin=..` as its target, unless it has a path or a query of its own."""
    try:
        scheme, place, path, query, fragment = urlsplit(url)
    except ValueError:
        return url
    if path not in ("", "/") or query:
        return url
    return urlunsplit((scheme, place, "/", query_of(origin), fragment))


def query_of(origin: str) -> str:
    """`origin=` and the origin's canonical text, as JavaScript's `encodeURIComponent` spells it.

    An opaque origin, as that of `data:` and `file:` URLs, and a text without a scheme have no query. A text that can't
    be made canonical goes as it is.
    """
    text = _without_spaces(origin)
    if text[:5].lower() == "blob:":
        text = text[5:]
        if _scheme_of(text) not in ("http", "https"):
            return ""
    if _scheme_of(text) not in _PORTS:
        return ""
    return "origin=" + quote(canonical_origin(text) or origin, safe="!~*'()", errors="replace")


def canonical_origin(url: str) -> str | None:
    """The origin of an `http:`, `https:`, `ws:`, `wss:` or `ftp:` URL as the URL standard serializes it.

    That is its scheme and its host, in lower case, and its port where it isn't the scheme's own. A host may be escaped,
    or an IPv4 address in any of the forms of inet_aton(3); an IPv6 address is compressed. One that isn't of ASCII is
    encoded by Python's codec `idna`, of IDNA 2003: a few letters come out otherwise than by the standard's UTS 46, as
    `ß`, which becomes `ss`, and letters that Unicode has had since version 3.2 are left out. None where there is no
    such text.
    """
    text = _without_spaces(url)
    scheme = _scheme_of(text)
    if scheme not in _PORTS:
        return None
    authority = re.split(r"[/\\?#]", text[len(scheme) + 1 :].lstrip("/\\"), maxsplit=1)[0]
    found = _HOST_AND_PORT.fullmatch(authority.rpartition("@")[2])
    host = None if found is None else _canonical_host(found[1])
    if found is None or host is None:
        return None
    port = int(found[2] or _PORTS[scheme])
    if port > 65535:
        return None
    return f"{scheme}://{host}" if port == _PORTS[scheme] else f"{scheme}://{host}:{port}"


def _without_spaces(url: str) -> str:
    """As the parser of URLs takes it: without tabs, ends of lines, and spaces around it."""
    return re.sub("[\t\n\r]", "", url.strip(_OUTER))


def _scheme_of(url: str) -> str:
    found = _SCHEME.match(url)
    return "" if found is None else found[1].lower()


def _canonical_host(host: str) -> str | None:
    if host.startswith("["):
        return _canonical_ipv6(host[1:-1])
    try:
        name = unquote(host, errors="strict")
        ascii = name.lower() if name.isascii() else name.encode("idna").decode().lower()
    except UnicodeError:
        return None
    if ascii == "" or _FORBIDDEN.search(ascii):
        return None
    if _NUMBER.fullmatch(ascii.removesuffix(".").rpartition(".")[2]):
        return _canonical_ipv4(ascii.removesuffix("."))
    return ascii


def _canonical_ipv4(host: str) -> str | None:
    try:
        return socket.inet_ntoa(socket.inet_aton(host))
    except OSError:
        return None


def _canonical_ipv6(host: str) -> str | None:
    """The standard writes no part as an IPv4 address, which Python does from version 3.13 on."""
    try:
        address = IPv6Address(host)
    except AddressValueError:
        return None
    if address.scope_id is not None:
        return None
    if address.ipv4_mapped is not None:
        number = int(address.ipv4_mapped)
        return f"[::ffff:{number >> 16:x}:{number & 0xFFFF:x}]"
    return f"[{address.compressed}]"
