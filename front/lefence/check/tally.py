"""Counts of a design's cells: by team, without a place, and by the rule that they break."""

from __future__ import annotations

from collections import Counter
from collections.abc import Iterable
from dataclasses import dataclass, field
from pathlib import Path

from ..base.description import Cell, Description, Frame
from ..base.progress import Progress
from ..view.team_area import areas_of


@dataclass
class TeamTally:
    """Counts of a team's cells. Areas are in square database units. `rules` has the first rule of each cell."""

    name: str
    ground_area: int = 0
    cells: int = 0
    cell_area: int = 0
    unplaced: int = 0
    rules: Counter[int] = field(default_factory=Counter)

    @property
    def illegal(self) -> int:
        """The number of cells that break a rule."""
        return self.rules.total()

    @property
    def utilization(self) -> float | None:
        """The area of its cells divided by the area of its ground; None without ground."""
        return self.cell_area / self.ground_area if self.ground_area else None

    def add(self, other: TeamTally) -> None:
        """Adds another team's counts."""
        self.ground_area += other.ground_area
        self.cells += other.cells
        self.cell_area += other.cell_area
        self.unplaced += other.unplaced
        self.rules += other.rules


class Tally:
    """The counts of a design while its cells are added, the first violations, and the first cells without a place."""

    def __init__(self, frame: Frame, most: int = 0) -> None:
        """Makes empty counts of the teams of a frame. At most `most` violations and cells without a place are kept."""
        self.frame = frame
        self.teams = {name: TeamTally(name, area) for name, area in areas_of(frame).items()}
        self.violations: list[Cell] = []
        self.unplaced: list[str] = []
        self._most = most

    def add(self, cell: Cell) -> None:
        """Counts a cell."""
        team = self.teams[cell.team]
        team.cells += 1
        team.cell_area += cell.width * cell.height
        if cell.box is None:
            team.unplaced += 1
            if len(self.unplaced) < self._most:
                self.unplaced.append(cell.name)
        elif cell.rule is not None:
            team.rules[cell.rule] += 1
            if len(self.violations) < self._most:
                self.violations.append(cell)

    def add_all(self, cells: Iterable[Cell]) -> Tally:
        """Counts all these cells; returns itself."""
        for cell in cells:
            self.add(cell)
        return self

    @property
    def all(self) -> TeamTally:
        """The counts of all teams together."""
        total = TeamTally("all")
        for team in self.teams.values():
            total.add(team)
        return total

    @property
    def is_legal(self) -> bool:
        """Whether every cell has a place and breaks no rule."""
        total = self.all
        return not total.unplaced and not total.illegal


def tally_of(tool: str, program: str, design: Path, libraries: list[Path], most: int = 0) -> Tally:
    """Has the program describe a design; returns its counts. Raises a Fault if the design is refused."""
    with Description(program, design, libraries) as description:
        return Tally(description.frame, most).add_all(Progress(tool, "cells").over(description.cells()))
