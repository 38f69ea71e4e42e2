"""The rules that docs/FORMATS.md says a reply may name, beside those that the daemon counts for its status."""

import re
from collections.abc import Callable, Iterator
from pathlib import Path

from map_checks import coded, rows_below

TOP = Path(__file__).resolve().parent.parent
COUNTED = TOP / "crates" / "wl_daemon" / "src" / "said.rt"
MEMBERS = "| `op` | Members, in the order in which they are checked |"
FAULTS = "| `name` | `rule` | Where | The reply's `id` |"
REFUSALS = "| No. | Where | `name` | `rule` |"

Check = tuple[str, Callable[[], str | None]]


def members_of(page: str) -> set[str]:
    """The members of messages that have to be of some kind: each is the rule of a fault."""
    cells = [row[1] for row in rows_below(page, MEMBERS)]
    return {name for cell in cells for name in re.findall(r"`(\w+)`: ", cell)}


def rules_of(page: str) -> set[str]:
    """All rules that the document names."""
    faults = {name for row in rows_below(page, FAULTS) for name in coded(row[1])}
    refusals = {name for row in rows_below(page, REFUSALS) for name in coded(row[3])}
    return members_of(page) | faults | refusals | {*re.findall(r'"rule":"([\w-]+)"', page)}


def counted_rules(code: str) -> list[str]:
    """The rules in the daemon's list, in its order."""
    listed = re.search(r"\bRULES: \[&str; \d+\] = \[(.*?)\];", code, re.DOTALL)
    return re.findall(r'"([^"]+)"', listed[1]) if listed else []


def rules_fault(page: str, code: str) -> str | None:
    """Rules that one of the two lacks."""
    named, counted = rules_of(page), counted_rules(code)
    if counted != sorted({*counted}):
        return "they don't stand in order, each once"
    if missing := sorted(named - {*counted}):
        return f"it counts no {', '.join(missing)}"
    if strange := sorted({*counted} - named):
        return f"docs/FORMATS.md names no {', '.join(strange)}"
    return None


def rule_checks(page: str) -> Iterator[Check]:
    """The check, with what it looks at, of this text of docs/FORMATS.md."""
    yield COUNTED.relative_to(TOP).as_posix(), lambda: rules_fault(page, COUNTED.read_text())
