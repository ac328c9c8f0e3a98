"""The time of a hub. Everything in it that measures, limits or waits for seconds asks one clock; tests set their own.

Pauses of milliseconds that only make reads and writes larger are not part of it.
"""

from __future__ import annotations

import asyncio
import time
from collections.abc import Callable
from typing import Any, Protocol


class Timer(Protocol):
    """A call in the future."""

    def cancel(self) -> None:
        """Drops the call. Nothing happens if it was made."""


class Clock:
    """The system's time."""

    def now(self) -> float:
        """Seconds since some fixed moment. They never go back."""
        return time.monotonic()

    def date(self) -> float:
        """Seconds since 1970."""
        return time.time()

    def call_later(self, seconds: float, callback: Callable[..., object], *words: Any) -> Timer:
        """Calls a function with these arguments when the seconds have passed, in the running event loop."""
        return asyncio.get_running_loop().call_later(seconds, callback, *words)

    async def sleep(self, seconds: float) -> None:
        """Waits until the seconds have passed."""
        await asyncio.sleep(seconds)

    async def wait(self, task: asyncio.Task[Any], seconds: float) -> bool:
        """Waits until a task is done, at most for these seconds; returns whether it is done."""
        late: asyncio.Future[None] = asyncio.get_running_loop().create_future()
        timer = self.call_later(seconds, late.set_result, None)
        try:
            await asyncio.wait({task, late}, return_when=asyncio.FIRST_COMPLETED)
        finally:
            timer.cancel()
        return task.done()


# The clock of everything that is not given another one.
SYSTEM_CLOCK = Clock()
