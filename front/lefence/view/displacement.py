"""Statistics of each team's cells between two placements of a design: how many moved, how far, and what they break."""

from __future__ import annotations

import statistics
import struct
from array import array
from bisect import bisect_left
from collections.abc import Callable, Iterable, Sequence
from dataclasses import dataclass, field
from itertools import zip_longest
from typing import NamedTuple

from ..base.description import Cell, Frame
from ..base.protocol import ORIENTS
from .team_area import areas_of
from .wires import Wires

# The upper ends of the bins of a histogram, in rows; the last bin has none.
BINS = (0, 1, 2, 5, 10, 20, 50)
# The default number of farthest cells listed.
MOST_FAR = 10


class Place(NamedTuple):
    """A lower left corner and an orientation."""

    x: int
    y: int
    orient: str


@dataclass
class Team:
    """Statistics of a team's cells. They count the cells of the design after, except `lost` and those of before.

    - `moved` cells have another lower left corner, `turned` ones only another orientation, `kept` ones neither.
    - `placed` cells had no place before, `unplaced` ones have none after.
    - `added` and `lost` cells are only in the design after or before.
    - `moves` has the displacement of each moved cell, along x plus along y. Lengths are database units.
    """

    name: str
    cells: int = 0
    moved: int = 0
    turned: int = 0
    kept: int = 0
    placed: int = 0
    unplaced: int = 0
    added: int = 0
    lost: int = 0
    illegal_before: int = 0
    illegal_after: int = 0
    placeless_before: int = 0
    placeless_after: int = 0
    cell_area: int = 0
    ground_area: int = 0
    moves: array[int] = field(default_factory=lambda: array("q"))

    @property
    def utilization(self) -> float | None:
        """The area of its cells divided by the area of its ground; None without ground."""
        return self.cell_area / self.ground_area if self.ground_area else None

    @property
    def mean(self) -> float:
        """The mean displacement of the moved cells; 0 without any, as for the next two."""
        return sum(self.moves) / len(self.moves) if self.moves else 0.0

    @property
    def median(self) -> float:
        return float(statistics.median(self.moves)) if self.moves else 0.0

    @property
    def largest(self) -> int:
        return max(self.moves, default=0)

    def histogram(self, row_height: int) -> list[int]:
        """Counts the cells that moved up to each of `BINS` rows, and farther. It needs places before and after."""
        ends = [end * row_height for end in BINS]
        counts = [self.kept + self.turned, *(0 for _ in BINS)]
        for move in self.moves:
            counts[bisect_left(ends, move)] += 1
        return counts

    def add(self, other: Team) -> None:
        """Adds another team's counts."""
        for name in vars(other):
            if name != "name":
                setattr(self, name, getattr(self, name) + getattr(other, name))


class FarCell(NamedTuple):
    """A cell that moved, its displacement, and its places before and after."""

    distance: int
    name: str
    team: str
    before: Place
    after: Place


class _Farthest:
    """The farthest cells; equally far ones by name."""

    def __init__(self, most: int) -> None:
        self._most = most
        self._found: list[FarCell] = []
        # The least displacement that counts.
        self._least = 0

    def take(self, cell: FarCell) -> None:
        if cell.distance >= self._least and self._most:
            self._found.append(cell)
            if len(self._found) >= 2 * self._most + 100:
                self._least = self.cells()[-1].distance

    def cells(self) -> list[FarCell]:
        self._found.sort(key=lambda cell: (-cell.distance, cell.name))
        del self._found[self._most :]
        return self._found


@dataclass
class Summary:
    """The teams in the order of the frame after, their sum, the cells of one design only, and the farthest cells.

    `notes` lists other differences in words. `wires` has the wire lengths, if the design has nets.
    """

    frame: Frame
    teams: list[Team]
    all: Team
    only_before: list[str]
    only_after: list[str]
    notes: list[str]
    farthest: list[FarCell]
    wires: Wires | None = None


# Takes the name of a cell of both designs, and its places before and after.
Taker = Callable[[str, Place | None, Place | None], None]


def summary_of(
    before: Iterable[Cell], after: Iterable[Cell], frame: Frame, most_far: int = MOST_FAR, taker: Taker | None = None
) -> Summary:
    """Compares two placements; `frame` is of the design after. It reads both once, in parallel. `taker` gets each cell
    of both designs.

    Memory: eight bytes for a moved cell in the same order (about 50 at the end, for the median), about 200 for a cell
    in another order.
    """
    count = _Count(frame, most_far, taker)
    early, late = _Waiting(), _Waiting()
    for first, second in zip_longest(before, after):
        if first is not None:
            count.add_before(first)
        if second is not None:
            count.add_after(second)
        if first is not None and second is not None and first.name == second.name:
            count.compare(first.name, (first.team, _place_of(first)), (second.team, _place_of(second)))
            continue
        if first is not None and (found := late.match(first, early)):
            count.compare(first.name, (first.team, _place_of(first)), found)
        if second is not None and (found := early.match(second, late)):
            count.compare(second.name, found, (second.team, _place_of(second)))
    return count.summary(early.cells(), late.cells())


def _place_of(cell: Cell) -> Place | None:
    return None if cell.box is None or cell.orient is None else Place(cell.box.left, cell.box.bottom, cell.orient)


class _Waiting:
    """Cells of one design that are not found yet in the other, in few bytes each."""

    # The team's number, the corner, and the orientation's number, or one more without a place.
    _FORM = struct.Struct("<HqqB")

    def __init__(self) -> None:
        self._states: dict[str, bytes] = {}
        # The teams by number, and their numbers.
        self._teams: list[str] = []
        self._numbers: dict[str, int] = {}

    def match(self, cell: Cell, own: _Waiting) -> tuple[str, Place | None] | None:
        """Removes the cell with this name and returns its team and place; else adds the cell to `own`."""
        state = self._states.pop(cell.name, None)
        if state is None:
            own._store(cell)
            return None
        return self._opened(state)

    def cells(self) -> list[tuple[str, str]]:
        """The name and team of each remaining cell."""
        return [(name, self._opened(state)[0]) for name, state in self._states.items()]

    def _store(self, cell: Cell) -> None:
        if cell.team not in self._numbers:
            self._numbers[cell.team] = len(self._teams)
            self._teams.append(cell.team)
        place = _place_of(cell)
        x, y, orient = (0, 0, len(ORIENTS)) if place is None else (place.x, place.y, ORIENTS.index(place.orient))
        self._states[cell.name] = self._FORM.pack(self._numbers[cell.team], x, y, orient)

    def _opened(self, state: bytes) -> tuple[str, Place | None]:
        team, x, y, orient = self._FORM.unpack(state)
        return self._teams[team], None if orient == len(ORIENTS) else Place(x, y, ORIENTS[orient])


class _Count:
    """The teams while their cells are counted."""

    def __init__(self, frame: Frame, most_far: int, taker: Taker | None) -> None:
        self._frame = frame
        self._taker = taker
        self._farthest = _Farthest(most_far)
        self._teams = {name: Team(name, ground_area=area) for name, area in areas_of(frame).items()}
        self._changed_team = 0

    def _team(self, name: str) -> Team:
        """The team with this name; it may exist only in the design before."""
        return self._teams.get(name) or self._teams.setdefault(name, Team(name))

    def add_before(self, cell: Cell) -> None:
        team = self._team(cell.team)
        team.illegal_before += cell.rule is not None
        team.placeless_before += cell.box is None

    def add_after(self, cell: Cell) -> None:
        team = self._team(cell.team)
        team.cells += 1
        team.cell_area += cell.width * cell.height
        team.illegal_after += cell.rule is not None
        team.placeless_after += cell.box is None

    def compare(self, name: str, early: tuple[str, Place | None], late: tuple[str, Place | None]) -> None:
        """Counts one cell of both designs, given its team and place before and after."""
        (team_before, before), (team_after, after) = early, late
        self._changed_team += team_before != team_after
        if self._taker:
            self._taker(name, before, after)
        team = self._team(team_after)
        if before is None:
            team.placed += after is not None
        elif after is None:
            team.unplaced += 1
        elif before[:2] != after[:2]:
            team.moved += 1
            distance = abs(after.x - before.x) + abs(after.y - before.y)
            team.moves.append(distance)
            self._farthest.take(FarCell(distance, name, team_after, before, after))
        elif before.orient != after.orient:
            team.turned += 1
        else:
            team.kept += 1

    def summary(self, early: list[tuple[str, str]], late: list[tuple[str, str]]) -> Summary:
        """Returns the summary, given the remaining cells of the designs before and after."""
        for _, team in early:
            self._team(team).lost += 1
        for _, team in late:
            self._team(team).added += 1
        notes = [f"cells that changed their team: {self._changed_team}"] if self._changed_team else []
        total = Team("all")
        for each in self._teams.values():
            total.add(each)
        names = [name for name, _ in early], [name for name, _ in late]
        return Summary(self._frame, list(self._teams.values()), total, *names, notes, self._farthest.cells())


def notes_of(before: Frame, after: Frame) -> list[str]:
    """Lists the differences between two frames in words."""
    found = []
    if before.facts.name != after.facts.name:
        found.append(f"the design names differ: {before.facts.name} before, {after.facts.name} after")
    if before.facts[2:] != after.facts[2:]:
        found.append(f"the core sites differ: {before.facts.site} before, {after.facts.site} after")
    kinds: tuple[tuple[str, Sequence[object], Sequence[object]], ...] = (
        ("rows", before.rows, after.rows),
        ("fences", before.fences, after.fences),
        ("obstacles", before.obstacles, after.obstacles),
        ("soft blockages", before.soft, after.soft),
    )
    for what, early, late in kinds:
        if early != late:
            found.append(f"the {what} differ: {len(early)} before, {len(late)} after")
    return found
