"""Progress of a tool on standard error."""

from __future__ import annotations

import os
import time
from collections.abc import Iterable, Iterator
from typing import TypeVar

from .faults import log

# Seconds before the first line, and the least between two lines on a terminal. Later the interval is a tenth of the
# elapsed time. Elsewhere each interval is twice the last one, so that a log has few lines.
FIRST = 2.0
BETWEEN = 1.0

_T = TypeVar("_T")


class Progress:
    """Prints how long a tool has worked and how much is done. The first line comes after two seconds."""

    def __init__(self, tool: str, what: str) -> None:
        """Makes the progress of a tool; `what` names the things that it counts, for example `cells`."""
        self._tool, self._what = tool, what
        self._start = time.monotonic()
        self._next = self._start + FIRST
        self._is_terminal = os.isatty(2)

    def over(self, things: Iterable[_T]) -> Iterator[_T]:
        """Yields the things; each counts as done when the next one is requested."""
        for done, thing in enumerate(things):
            if time.monotonic() >= self._next:
                self._say(f"{done} {self._what}")
            yield thing

    def over_lists(self, lists: Iterable[list[_T]]) -> Iterator[list[_T]]:
        """Yields lists of things; those of a list count as done when the next list is requested."""
        done = 0
        for things in lists:
            if time.monotonic() >= self._next:
                self._say(f"{done} {self._what}")
            yield things
            done += len(things)

    @property
    def seconds_left(self) -> float:
        """The seconds until the next line is due."""
        return max(0.0, self._next - time.monotonic())

    def tell(self, text: str | None) -> None:
        """Prints a line if one is due: the text, or else what this is the progress of."""
        if time.monotonic() >= self._next:
            self._say(text or self._what)

    def _say(self, text: str) -> None:
        now = time.monotonic()
        elapsed = now - self._start
        self._next = now + (max(BETWEEN, elapsed / 10) if self._is_terminal else max(FIRST, elapsed))
        log(self._tool, f"{text}, {elapsed:.0f} s")
