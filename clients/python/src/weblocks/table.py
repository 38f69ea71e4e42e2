"""Tables of what is held and pending, for a terminal."""

from __future__ import annotations

from .queries import LockInfo, Snapshot

HEADINGS = ("NAME", "STATE", "MODE", "CLIENT")
LONGEST_NAME = 60


def draw_table(snapshot: Snapshot, bold: bool = False) -> str:
    """The table of a snapshot: a line for each lock that is held, then for each request that waits, by name."""
    rows = [_row(info, "held") for info in snapshot.held] + [_row(info, "waits") for info in snapshot.pending]
    if not rows:
        return "no locks are held, and none are waited for\n"
    rows.sort(key=lambda row: row[0])
    widths = [max(len(row[column]) for row in [HEADINGS, *rows]) for column in range(len(HEADINGS))]
    lines = [_line(row, widths) for row in [HEADINGS, *rows]]
    if bold:
        lines[0] = f"\x1b[1m{lines[0]}\x1b[0m"
    count = f"{len(snapshot.held)} held, {len(snapshot.pending)} waiting"
    return "\n".join([*lines, "", count]) + "\n"


def show_name(name: str) -> str:
    """A name as a terminal can show it, in a line: what isn't printable is escaped, and a long one cut."""
    shown = "".join(_show_character(character) for character in name)
    if len(shown) > LONGEST_NAME:
        shown = shown[: LONGEST_NAME - 1] + "…"
    return shown or '""'


def _show_character(character: str) -> str:
    return character if character.isprintable() else character.encode("unicode_escape", "replace").decode()


def _row(info: LockInfo, state: str) -> tuple[str, ...]:
    return (show_name(info.name), state, info.mode, info.client_id)


def _line(row: tuple[str, ...], widths: list[int]) -> str:
    return "  ".join(cell.ljust(width) for cell, width in zip(row, widths)).rstrip()
