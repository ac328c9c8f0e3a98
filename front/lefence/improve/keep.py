"""Puts the moves of several runs together.

Each run has moved the cells of some teams while all others were at their old places. Nets join teams, so moves that
make nets shorter by themselves may make them longer beside the moves of other runs. Here the program adds the lines of
one run after the other, and measures the wire length each time. What makes it longer is left out.
"""

from __future__ import annotations

from collections.abc import Iterable
from pathlib import Path

from ..base.program import Program
from ..repair.side_by_side import Parts, replay


class Kept:
    """A design with the moves that were kept so far, and the teams whose moves were left out."""

    def __init__(self, program: Program, lines: dict[str, list[bytes]], folder: Path) -> None:
        """Begins with the design of a program and without moves; `lines` has the moves of each team."""
        self.program = program
        self.left_out: list[str] = []
        # The wire length at the beginning and with the moves that were kept, in half database units.
        self.doubled_before = self.doubled = _length_of(program)
        self._lines, self._folder, self._first = lines, folder, program
        self._number = 0

    def add_all(self, parts: Parts) -> None:
        """Adds the moves of all parts. If those of a part make the nets longer, adds its teams one by one."""
        for part in parts.parts:
            moved = [team for team in part if self._lines[team]]
            if moved and not self._add(moved):
                self.left_out += [team for team in moved if len(moved) == 1 or not self._add([team])]

    def _add(self, teams: Iterable[str]) -> bool:
        """Adds the moves of these teams if the nets do not become longer. Returns whether they were added."""
        self._number += 1
        export = self._folder / f"{self._number}.def"
        replay(self.program, (line for team in teams for line in self._lines[team]), export)
        moved = self.program.with_design(export)
        doubled = _length_of(moved)
        is_kept = doubled <= self.doubled
        old = self.program if is_kept else moved
        if old is not self._first:
            old.texts[0].unlink()
        if is_kept:
            self.program, self.doubled = moved, doubled
        return is_kept


def _length_of(program: Program) -> int:
    doubled: int = program.wire_length()["doubled"]
    return doubled
