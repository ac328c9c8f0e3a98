"""Exports of a hub: a side program writes them from the journal while the first program serves."""

from __future__ import annotations

import asyncio
import os
import shutil
from collections.abc import Callable
from pathlib import Path

from ..base.async_run import in_threads
from ..base.atomic_file import is_special, partial_file
from ..base.clock import Clock
from ..base.compression import is_packed_name, packing
from ..base.faults import FAILED, Fault, reason_of
from ..journal.journal import Journal
from ..journal.segments import Position
from ..journal.texts import texts_folder
from .journal_writer import JournalWriter
from .replay_process import Divergence, ReplayLost, ReplayProcess
from .slice_store import slices_folder


class SideProgram:
    """A second program that replays the journal and writes an export or a state, one at a time."""

    def __init__(
        self, replay: ReplayProcess, writer: JournalWriter, clock: Clock, on_divergence: Callable[[bytes, str], None]
    ) -> None:
        """Makes the side program of the design that `replay` has, and of a writer's journal.

        `on_divergence` is called with a team, and a text, if the program's reply to one of its changes is not the one
        in the journal.
        """
        # Take the turn before each write.
        self.turn = asyncio.Lock()
        # The running side program.
        self.replay: ReplayProcess | None = None
        self._replay = replay
        self._writer = writer
        self._clock = clock
        self._on_divergence = on_divergence

    async def write(
        self, position: Position, export: str | None = None, save: Path | None = None
    ) -> tuple[float, float]:
        """Replays the journal up to a position and writes the files; returns the seconds of loading and replaying.

        Raises a Fault or ReplayLost if the files are not complete.
        """
        program, sums = self._replay.program, self._replay.sums
        self.replay = side_replay = ReplayProcess(program, sums, export, save, self._clock)
        try:
            await self._writer.run(self._writer.journal.refuse_loss)
            begin = self._clock.now()
            async with self._writer.tail(position) as tail:
                await side_replay.start(tail.state)
                loaded = self._clock.now()
                await side_replay.restore(tail.records, None, tail.changes)
            replayed = self._clock.now()
            if await side_replay.end():
                raise Fault(FAILED, "the program could not write the file; see the hub's standard error")
            return loaded - begin, replayed - loaded
        except Divergence as divergence:
            self._on_divergence(divergence.team, str(divergence))
            raise
        finally:
            self.replay = None
            await side_replay.kill()


class Exporter:
    """Writes one export at a time."""

    def __init__(
        self, replay: ReplayProcess, journal: Journal, side_program: SideProgram, say: Callable[[str], None]
    ) -> None:
        """Makes the exporter of a program and its journal."""
        # Files that no export may replace, besides the journal and its copies of the design.
        self.protected: list[Path] = []
        self._replay = replay
        self._journal = journal
        self._side_program = side_program
        self._say = say

    def refuse(self, path: str) -> None:
        """Raises a Fault if an export to the path would replace the journal or the design, or cannot be written."""
        inputs = [file for file in (self._journal.path, *self._replay.program.texts, *self.protected) if file.exists()]
        if os.path.exists(path) and any(
            os.path.samefile(path, file) for file in [*inputs, *self._journal.archive.files()]
        ):
            raise Fault(FAILED, f"{path} is the journal or a file of the design")
        path_of_journal = self._journal.path
        folders = (self._journal.archive.folder, texts_folder(path_of_journal), slices_folder(path_of_journal))
        if any(folder in Path(os.path.realpath(path)).parents for folder in folders):
            raise Fault(FAILED, f"{path} is in a folder of the journal")
        if os.path.isdir(path) or not os.access(os.path.dirname(os.path.abspath(path)), os.W_OK):
            raise Fault(FAILED, f"cannot write {path}")

    async def write(self, path: str, position: Position) -> str | None:
        """Writes the committed places at a position of the journal; returns None, or the reason of the failure."""
        async with self._side_program.turn:
            try:
                self.refuse(path)
                if is_special(Path(path)):
                    await self._side_program.write(position, export=path)
                    return None
                # (A killed hub leaves a program that writes what it has. The bytes are on the disk before the file gets
                # its name.)
                async with in_threads(partial_file(Path(path))) as partial:
                    if is_packed_name(Path(path)):
                        await self._write_packed(path, partial, position)
                    else:
                        await self._side_program.write(position, export=str(partial))
                return None
            except (Fault, OSError, ReplayLost) as fault:
                self._say(f"export: {reason_of(fault)}")
                return reason_of(fault)

    async def _write_packed(self, path: str, partial: Path, position: Position) -> None:
        """Has the program write the text next to the file, and compresses it into the file as the path's name says."""
        plain = Path(f"{partial}.text")
        try:
            await self._side_program.write(position, export=str(plain))
            await asyncio.to_thread(_pack, plain, partial, Path(path))
        finally:
            plain.unlink(missing_ok=True)


def _pack(plain: Path, target: Path, named: Path) -> None:
    """Compresses a file into another, as the name says, and syncs it to the disk."""
    with open(plain, "rb") as source, open(target, "wb") as file:
        with packing(named, file) as packed:
            shutil.copyfileobj(source, packed, 1 << 20)
        file.flush()
        os.fsync(file.fileno())
