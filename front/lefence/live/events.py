"""The last events, each with its number, for pages that wait for them."""

from __future__ import annotations

import contextlib
import json
import threading
from collections import deque
from collections.abc import Callable, Iterator
from typing import Any

# The events that are kept, and the most bytes of them. A page that lacks more reads all cells again.
_KEPT, _BYTES = 4096, 16 << 20


class EventLog:
    """Numbers events and wakes those that wait. Threads may share it."""

    def __init__(self, on_looked: Callable[[bool], None] = lambda is_looked: None) -> None:
        """Makes an empty log. Calls `on_looked` when the first page begins to wait, and when the last one is gone."""
        self.sequence = 0
        self.on_looked = on_looked
        self._lines: deque[tuple[int, bytes]] = deque()
        self._bytes = 0
        self._added = threading.Condition()
        self._lookers = 0
        self._is_ended = False

    def add(self, event: dict[str, Any]) -> None:
        """Adds an event."""
        line = json.dumps(event, separators=(",", ":")).encode()
        with self._added:
            self.sequence += 1
            self._lines.append((self.sequence, line))
            self._bytes += len(line)
            while len(self._lines) > _KEPT or (self._bytes > _BYTES and len(self._lines) > 1):
                self._bytes -= len(self._lines.popleft()[1])
            self._added.notify_all()

    @contextlib.contextmanager
    def looker(self) -> Iterator[None]:
        """Counts a page while the block runs."""
        self._count(1)
        try:
            yield
        finally:
            self._count(-1)

    def _count(self, more: int) -> None:
        with self._added:
            was_looked, self._lookers = self._lookers > 0, self._lookers + more
            if was_looked != (self._lookers > 0):
                self.on_looked(self._lookers > 0)

    @property
    def is_looked_at(self) -> bool:
        """Whether a page waits for events."""
        return self._lookers > 0

    def wait(self, known: int, seconds: float) -> list[tuple[int, bytes]] | None:
        """Waits for events after a number, at most for these seconds; returns them, each with its number.

        Returns None if some of them are no longer kept. Raises EOFError after `end`.
        """
        with self._added:
            if known > self.sequence:
                return None
            self._added.wait_for(lambda: self.sequence > known or self._is_ended, seconds)
            if self._is_ended:
                raise EOFError
            found = [line for line in self._lines if line[0] > known]
            return found if len(found) == self.sequence - known else None

    def end(self) -> None:
        """Ends all waiting."""
        with self._added:
            self._is_ended = True
            self._added.notify_all()
