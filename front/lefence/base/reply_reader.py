"""Reads the replies of a program from a pipe, for asyncio: in few large pieces, and a text of known length into its own
buffer. A long reply must cost the event loop as little as possible, since it serves all programs.
"""

from __future__ import annotations

import asyncio
import contextlib
import fcntl
import os

from .clock import SYSTEM_CLOCK, Clock
from .program import PIECE

# Bytes read at a time while the length of a reply is unknown, and first.
_LINES, _FIRST = 1 << 18, 1 << 16
# If a read returns at least this many bytes, the program is writing a long reply. The next read is this number of
# seconds later, when the pipe has more.
_MANY, _PAUSE = 1 << 15, 0.001


def reply_pipe(clock: Clock = SYSTEM_CLOCK) -> tuple[ReplyReader, int]:
    """Makes a pipe, with a large buffer if the system allows it; returns a reader of it, and the end to write to."""
    near, far = os.pipe()
    with contextlib.suppress(OSError):
        fcntl.fcntl(near, fcntl.F_SETPIPE_SZ, PIECE)
    return ReplyReader(near, clock), far


class ReplyReader:
    """Reads one end of a pipe, one call at a time. Whoever makes it closes it."""

    def __init__(self, pipe: int, clock: Clock = SYSTEM_CLOCK) -> None:
        """Makes a reader of this end of a pipe, which it owns."""
        # When bytes came last, and the number of reads.
        self.last_heard = clock.now()
        self.reads = 0
        self._clock = clock
        self._pipe = pipe
        # Where the next bytes go, and their number when they have come.
        self._target = self._first = memoryview(bytearray(_FIRST))
        self._count: asyncio.Future[int] | None = None
        # Whether the event loop watches the pipe. It goes on between short replies: each change is a system call.
        self._is_watched = False

    async def lines(self, count: int) -> list[bytes]:
        """Waits for this number of lines; returns them with their line feeds, and what was read after them.

        Raises EOFError at the end of the pipe.
        """
        text, line_feeds, target = bytearray(), 0, self._first
        while line_feeds < count:
            before = len(text)
            text += target[: await self._read(target)]
            line_feeds += text.count(b"\n", before)
            if len(target) == _FIRST < len(text):
                target = memoryview(bytearray(_LINES))
        return _split(text, count)

    async def fill(self, target: memoryview) -> None:
        """Waits for as many bytes as the target has, and puts them there. Raises EOFError at the end of the pipe."""
        while target:
            target = target[await self._read(target) :]

    def close(self) -> None:
        """Closes the pipe. A call that waits raises EOFError."""
        if self._pipe >= 0:
            self._stop()
            os.close(self._pipe)
            self._pipe = -1
            if self._count and not self._count.done():
                self._count.set_result(0)

    async def _read(self, target: memoryview) -> int:
        """Waits until the pipe has bytes, and puts them into the target; returns their number.

        Raises EOFError at the end of the pipe.
        """
        count = 0
        if self._pipe >= 0:
            loop = asyncio.get_running_loop()
            self._target, self._count = target, loop.create_future()
            if not self._is_watched:
                loop.add_reader(self._pipe, self._take)
                self._is_watched = True
            count = await self._count
        if not count:
            raise EOFError("end of its replies")
        if _MANY <= count < len(target):
            await asyncio.sleep(_PAUSE)
        return count

    def _take(self) -> None:
        """Reads what the pipe has if a call waits for it; otherwise it is not watched until the next call."""
        if not self._count or self._count.done():
            self._stop()
            return
        count = os.readv(self._pipe, [self._target])
        self.last_heard = self._clock.now()
        self.reads += 1
        self._count.set_result(count)

    def _stop(self) -> None:
        if self._is_watched:
            asyncio.get_running_loop().remove_reader(self._pipe)
            self._is_watched = False


def _split(text: bytearray, count: int) -> list[bytes]:
    """Splits a text after each of its first `count` line feeds. One line may be long: it is not copied."""
    if count == 1 and len(text) > _LINES:
        end = text.index(b"\n") + 1
        after = text[end:]
        del text[end:]
        return [text, after]
    *lines, rest = bytes(text).split(b"\n", count)
    return [*(line + b"\n" for line in lines), rest]
