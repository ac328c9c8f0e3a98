"""A log with a rate limit."""

from __future__ import annotations

from collections.abc import Callable

from ..base.clock import Clock


class RateLimitedLog:
    """Prints one line of each kind a minute, then how many lines it left out."""

    def __init__(self, say: Callable[[str], None], clock: Clock, seconds: float = 60) -> None:
        self._say = say
        self._clock = clock
        self._seconds = seconds
        # For each kind: when the next line may be printed, and how many lines were left out.
        self._kinds: dict[str, tuple[float, int]] = {}

    def __call__(self, kind: str, text: str) -> None:
        now = self._clock.now()
        after, count = self._kinds.get(kind, (now, 0))
        if now < after:
            self._kinds[kind] = after, count + 1
            return
        self._kinds[kind] = now + self._seconds, 0
        self._say(f"{text} (and {count} more since the last such line)" if count else text)
