"""Another number of session slots per team for a journal with changes."""

from __future__ import annotations

import asyncio
import os
from pathlib import Path

from ..base.faults import FAILED, Fault
from ..base.program import Program
from ..base.state_text import with_slots
from ..journal.frames import sum_of
from ..journal.journal import Journal
from ..journal.segments import State
from .replay_process import ReplayLost, ReplayProcess


async def change_slots(journal: Journal, replay: ReplayProcess, slots: int, notes: list[bytes]) -> None:
    """Continues the journal with this number of slots; `notes` are about its teams. Its last change has a state.

    Raises a Fault if a session of a greater number is open, or the program refuses the state.
    """
    assert journal.state and not journal.tail_changes
    copy = journal.archive.temporary_state(journal.header.number + 1)
    try:
        await asyncio.to_thread(_write, journal.state.path, copy, slots)
        state = State(copy, copy.stat().st_size, sum_of(copy))
        second = ReplayProcess(Program(replay.program.path, replay.program.texts, slots), replay.sums)
        try:
            await second.start(state)
        except ReplayLost as lost:
            raise Fault(FAILED, f"the state with {slots} session slots: {lost}") from None
        finally:
            await second.kill()
        journal.roll_with_state(copy, state.size, state.sum, notes, slots)
    finally:
        copy.unlink(missing_ok=True)


def _write(source: Path, target: Path, slots: int) -> None:
    """Writes a state text with another number of slots, and syncs it to the disk."""
    with open(source, "rb") as lines, open(target, "xb") as file:
        file.writelines(with_slots(lines, slots))
        file.flush()
        os.fsync(file.fileno())
