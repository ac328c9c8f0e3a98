"""The last lines of a shell with their replies, as they were shown."""

from __future__ import annotations

from collections import deque

# Lines that are kept, and the most lines of a reply that are shown.
_KEPT, _SHOWN = 1000, 3


class History:
    """The last lines of a shell."""

    def __init__(self) -> None:
        self._entries: deque[tuple[str, list[str], int]] = deque(maxlen=_KEPT)

    def add(self, line: str, reply: list[str]) -> None:
        """Adds a line, with the prompt before it, and its reply."""
        self._entries.append((line, reply[:_SHOWN], len(reply)))

    def lines(self, most: int) -> list[str]:
        """Returns the last lines, at most so many, each with the start of its reply."""
        found: list[str] = []
        for line, start, count in list(self._entries)[-most:] if most else []:
            more = [f".. and {count - len(start)} more lines"] if count > len(start) else []
            found += [line, *start, *more]
        return found or ["no line yet"]
