"""Group commit: a hub's journal is used in a thread, one step at a time, so that the event loop never waits for a disk.

Changes that arrive during a sync share the next one. They are one frame, in the order of their arrival.
"""

from __future__ import annotations

import asyncio
import contextlib
import errno
from collections.abc import AsyncIterator, Awaitable, Callable
from concurrent.futures import ThreadPoolExecutor
from pathlib import Path
from typing import TypeVar

from ..journal.frames import Record
from ..journal.journal import Journal
from ..journal.segments import Position, Tail
from .connection import Entry

T = TypeVar("T")
# More bytes than a frame with a state's note has.
_MOST_NOTE = 1024


async def complete(work: Awaitable[T]) -> T:
    """Waits for the end of the work, even if the caller is cancelled meanwhile."""
    task, cancelled = asyncio.ensure_future(work), None
    while not task.done():
        try:
            await asyncio.wait({task})
        except asyncio.CancelledError as error:
            cancelled = error
    result = task.result()
    if cancelled:
        raise cancelled
    return result


class _Changes:
    """The accepted changes of a batch, and whether they are on the disk."""

    def __init__(self, entries: list[Entry]) -> None:
        self.entries = entries
        self.is_kept = False


class JournalWriter:
    """Appends to a journal, and gives access to it between two steps of its thread."""

    def __init__(self, journal: Journal, on_kept: Callable[[list[Entry]], None]) -> None:
        """Makes a writer, which calls `on_kept` after each sync with the changes that it has put on the disk, in the
        order of the journal.
        """
        self.journal = journal
        self._on_kept = on_kept
        # Held while the journal is used.
        self._turn = asyncio.Lock()
        self._thread = ThreadPoolExecutor(1, "journal")
        self._waiting: list[_Changes] = []
        # The bytes reserved for batches that are executed or wait; whether the journal is continued in a new segment.
        self._reserved = 0
        self._is_rolling = False

    @property
    def changes(self) -> int:
        """The number of changes in the journal."""
        return self.journal.changes

    async def reserve(self, count: int) -> bool:
        """Reserves bytes for the changes of a batch until `release`. Returns False if the disk is full."""
        wanted = self._reserved + count
        if self._is_rolling or not self.journal.is_reserved(wanted):
            async with self._turn:
                wanted = self._reserved + count
                if not await self._in_thread(lambda: self.journal.has_room(wanted)):
                    return False
        self._reserved += count
        return True

    def release(self, count: int) -> None:
        """Gives back reserved bytes, which the batch has used or does not need."""
        self._reserved -= count

    async def append(self, entries: list[Entry]) -> None:
        """Appends the changes of a batch, in a task that is not cancelled. They are on the disk when this returns.

        After a Fault nobody knows what is on the disk: the hub must end.
        """
        changes = _Changes(entries)
        self._waiting.append(changes)
        async with self._turn:
            if not changes.is_kept:
                await self._commit()

    async def _commit(self) -> None:
        """Appends all waiting changes as one frame."""
        waiting = self._waiting[:]
        entries = [entry for changes in waiting for entry in changes.entries]
        records = [Record(entry.line, entry.reply_text, entry.who) for entry in entries]
        await self._in_thread(lambda: self.journal.append(records))
        del self._waiting[: len(waiting)]
        for changes in waiting:
            changes.is_kept = True
        self._on_kept(entries)

    async def add_note(self, note: bytes) -> bool:
        """Appends a note. It is on the disk when this returns. Returns False if the disk is full."""
        room = _MOST_NOTE + len(note)
        return await self.run(lambda: self._has_room_for(room) and self.journal.add_note(note))

    async def keep_state(self, path: Path, size: int, digest: str) -> None:
        """Makes a written file the state at the start of the last segment, as `Journal.keep_state` does."""

        def keep() -> None:
            if not self._has_room_for(_MOST_NOTE):
                raise OSError(errno.ENOSPC, "the disk is full: the state cannot be named in the journal")
            self.journal.keep_state(path, size, digest)

        await self.run(keep)

    def _has_room_for(self, count: int) -> bool:
        """Reserves bytes in addition to those of batches; returns False if the disk is full."""
        return self.journal.has_room(self._reserved + count)

    async def run(self, step: Callable[[], T]) -> T:
        """Runs a step that uses the journal in the thread."""
        async with self._turn:
            return await self._in_thread(step)

    async def roll(self, notes: Callable[[], list[bytes]]) -> None:
        """Continues the journal in a new segment if the last one has changes. The segment starts with the notes at that
        position. Raises OSError if that failed, and then the journal continues in the old one.
        """
        async with self._turn:
            if not self.journal.has_changes:
                return
            found, room = notes(), self._reserved
            self._is_rolling = True
            try:
                await self._in_thread(lambda: self.journal.roll(found, room=room))
            finally:
                self._is_rolling = False

    async def position(self) -> Position:
        """The end of what is on the disk."""
        async with self._turn:
            return self.journal.position

    @contextlib.asynccontextmanager
    async def tail(self, position: Position | None = None) -> AsyncIterator[Tail]:
        """Returns what comes before a position, or before the end. It can be read until the end of the block."""
        with contextlib.ExitStack() as stack:
            async with self._turn:
                tail = stack.enter_context(self.journal.tail(position or self.journal.position))
            yield tail

    async def _in_thread(self, step: Callable[[], T]) -> T:
        """Runs a step in the thread to its end, even if the caller is cancelled. The caller has the turn."""
        return await complete(asyncio.get_running_loop().run_in_executor(self._thread, step))
