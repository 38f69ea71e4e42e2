"""The abort signals of one agent: 1,024 for its life, of which an aborted one is used up."""

from __future__ import annotations

LIMIT = 1024
"""How many signals the service makes for an agent."""

RESERVE = 16
"""With so few left to take, it is time to open the next agent."""

MOST_ABANDONED = LIMIT
"""So many requests that were given up and had no signal may be left in the service's queues."""


class Signals:
    """Which signals serve the next requests, and how many may still be made.

    A request that may wait has a signal of its own meanwhile, as long as one can be had. Once it has its lock the
    signal serves another request, since an abort leaves locks alone that their agents have.
    """

    def __init__(self) -> None:
        self._free: list[int] = []
        self._asked = 0
        self._made = 0

    def take(self) -> int | None:
        """A signal that nobody uses, if there is one."""
        return self._free.pop() if self._free else None

    def give_back(self, number: int) -> None:
        """A signal that was not aborted serves again."""
        self._free.append(number)

    def count_to_ask(self, waiting: int) -> int:
        """How many more to ask the service for, so that so many requests have one and a spare is left.

        They count as asked for from now on.
        """
        wanted = waiting + 1 - len(self._free) - self._asked
        count = max(0, min(wanted, LIMIT - self._made - self._asked))
        self._asked += count
        return count

    def add(self, number: int) -> None:
        """One that was asked for was made."""
        self._asked -= 1
        self._made += 1
        self._free.append(number)

    def refuse(self) -> None:
        """One that was asked for was refused: no more can be had."""
        self._asked -= 1
        self._made = LIMIT - self._asked

    @property
    def left(self) -> int:
        """How many requests can still take one."""
        return LIMIT - self._made + len(self._free)
