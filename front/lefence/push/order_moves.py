"""Finds lines that bring the cells of a team from their places to others, on a program over the team's slice.

A cell in the way of another is unplaced, and goes to a place near its own new one in the next lines. The program's
refusals name the cell in the way: this module has no rules of legality.
"""

from __future__ import annotations

import tempfile
from collections import defaultdict
from collections.abc import Iterable
from pathlib import Path

from ..base.faults import REFUSED, Fault
from ..base.program import Program
from ..base.protocol import is_accepted
from ..client.blocking import Session
from ..client.endpoint import start_program
from ..client.refusals import Illegal, refusal_of
from .records import Record
from ..slice.splice import Spot, spots_in

# The number of the rule of overlaps.
_OVERLAP = 8


class Planner:
    """Finds the lines that bring cells to new places, in a session of a program over the team's slice.

    `groups` has the accepted lines in order. Between two groups no cell lacks a place that it had.
    """

    def __init__(self, session: Session, targets: dict[str, Spot]) -> None:
        """Makes a planner for the cells that are not yet at these places."""
        self.groups: list[list[Record]] = []
        self._session = session
        # The number of cells to bring to new places.
        self.cells = len(targets)
        self._targets = targets
        # Cells to try; for each other cell the one in its way; and the cells that wait for a cell.
        self._ready = [*targets]
        self._blockers: dict[str, str] = {}
        self._waiting: defaultdict[str, list[str]] = defaultdict(list)
        self._group: list[Record] = []
        self._count = 0

    def plan(self) -> None:
        """Finds the lines. Raises a Fault if a new place breaks a rule."""
        while self._targets:
            while self._ready:
                self._try_ready()
            # All others wait for each other.
            if self._targets:
                homeless = self._make_way(next(iter(self._targets)))
                while homeless:
                    homeless += self._make_way(homeless.pop())
                self.groups.append(self._group)
                self._group = []

    def _try_ready(self) -> None:
        """Brings cells to their new places if nothing is in the way. Each line is a group of its own."""
        cells = [cell for cell in dict.fromkeys(self._ready) if cell in self._targets]
        self._ready = []
        for cell, reply in zip(cells, self._changes(map(self._place, cells))):
            if not self._is_placed(cell, reply):
                self._waiting[self._blockers[cell]].append(cell)
        self.groups += ([record] for record in self._group)
        self._group = []

    def _make_way(self, cell: str) -> list[str]:
        """Brings a cell to its new place. Each cell in the way is unplaced before, and goes near its own new one after.

        Returns the cells that find no place then.
        """
        evicted = [other for other in [self._blockers.pop(cell, "")] if other in self._targets]
        *_, reply = self._changes([*map(self._unplace, evicted), self._place(cell)])
        while not self._is_placed(cell, reply):
            evicted.append(self._blockers[cell])
            *_, reply = self._changes([self._unplace(evicted[-1]), self._place(cell)])
        homeless = []
        for other, reply in zip(evicted, self._changes(map(self._park, evicted))):
            if not is_accepted(reply):
                homeless.append(other)
            elif reply.decode().split()[2:] == [str(word) for word in self._targets[other]]:
                self._finish(other)
            self._ready.extend(self._waiting.pop(other, ()))
        return homeless

    def _is_placed(self, cell: str, reply: bytes) -> bool:
        """Whether a cell is at its new place by this reply. If not, another one is in its way, which will move."""
        if is_accepted(reply):
            self._finish(cell)
            return True
        refusal = refusal_of(reply.rstrip(b"\n"))
        if isinstance(refusal, Illegal) and refusal.rule == _OVERLAP and refusal.other in self._targets:
            self._blockers[cell] = refusal.other
            return False
        x, y, orient = self._targets[cell]
        raise Fault(REFUSED, f"the new place of {cell}, {x} {y} {orient}: {refusal or reply!r}; nothing is sent")

    def _finish(self, cell: str) -> None:
        del self._targets[cell]
        self._ready.extend(self._waiting.pop(cell, ()))

    def _place(self, cell: str) -> str:
        x, y, orient = self._targets[cell]
        return f"place {self._scope} {cell} {x} {y} {orient}"

    def _park(self, cell: str) -> str:
        x, y, _ = self._targets[cell]
        return f"legalize {self._scope} {cell} {x} {y}"

    def _unplace(self, cell: str) -> str:
        return f"unplace {self._scope} {cell}"

    @property
    def _scope(self) -> str:
        return f"{self._session.team} {self._session.number}"

    def _changes(self, lines: Iterable[str]) -> list[bytes]:
        """Sends changes at once; returns their replies, and keeps what is accepted."""
        connection = self._session.connection
        sent = [connection.send(line.encode()) for line in lines]
        replies = [connection.wait(each) for each in sent]
        for each, reply in zip(sent, replies):
            if is_accepted(reply):
                self._count += 1
                self._group.append((self._count, each.line, reply))
        return replies


def plan_of(program: Program, team: str, sliced: bytes, wanted: dict[str, Spot], padding: int = 0) -> Planner:
    """Finds the lines that bring cells of a slice to the wanted places, with this padding of the team.

    The program's LEF files are those of the slice. Raises a Fault if a wanted place breaks a rule.
    """
    present = spots_in(sliced)
    targets = {cell: spot for cell, spot in wanted.items() if present.get(cell) != spot}
    with tempfile.TemporaryDirectory(prefix="lefence-plan") as folder:
        path = Path(folder) / "slice.def"
        path.write_bytes(sliced)
        endpoint = start_program(program.path, [path, *program.texts[1:]])
        try:
            with endpoint.connection.session(team) as session:
                if padding:
                    session.pad(padding)
                planner = Planner(session, targets)
                planner.plan()
        finally:
            endpoint.close()
    return planner
