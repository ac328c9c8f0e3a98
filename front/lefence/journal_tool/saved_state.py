"""The state of a hub, from its journal alone."""

from __future__ import annotations

from pathlib import Path

from ..base.faults import FAILED, REFUSED, Fault
from ..base.program import Program
from ..hub.replay_process import ReplayLost, ReplayProcess
from ..journal.segments import last_state, open_segments, records_in
from ..journal.texts import kept_text


async def save_state(journal: Path, program: str, target: Path) -> list[Path]:
    """Saves the state at the end of a journal, whose hub may be running; returns the kept copies of its design's files.

    Raises a Fault if a copy is missing, the journal is damaged, or the program replies otherwise than recorded.
    """
    with open_segments(journal) as readers:
        header = readers[0].header()
        kept = [found for text in header.texts if (found := kept_text(journal, text))]
        if len(kept) != len(header.texts):
            raise Fault(REFUSED, f"{journal}: {len(header.texts)} files, but {len(kept)} are kept next to it")
        state, following = last_state(journal, readers, is_all=False)
        sums = [text.sum for text in header.texts]
        replay = ReplayProcess(Program(program, kept, following[0].header().slots), sums, save=target)
        try:
            await replay.start(state)
            await replay.restore(records_in(following))
            if await replay.end():
                raise Fault(FAILED, f"{journal}: the program could not save its state; see its message above")
        except ReplayLost as lost:
            raise Fault(FAILED, f"{journal}: {lost}") from None
        finally:
            await replay.kill()
    return kept
