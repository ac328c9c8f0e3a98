"""The nearest legal place of each violation: the program's `find` for the cell's present place."""

from __future__ import annotations

import tempfile
from collections.abc import Sequence
from typing import NamedTuple

from ..base.description import Cell
from ..base.faults import FAILED, Fault
from ..base.program import Program


class Spot(NamedTuple):
    """A lower left corner in database units, and an orientation."""

    x: int
    y: int
    orient: str


def nearest_places(program: Program, cells: Sequence[Cell]) -> list[Spot | None]:
    """Returns for each placed cell the nearest place that is legal next to all other cells; None if there is none."""
    teams = dict.fromkeys(cell.team for cell in cells)
    queries = [(cell.team, cell.name, cell.box) for cell in cells]
    lines = [f"open {team}\n" for team in teams]
    lines += [f"find {team} 0 {name} {box.left} {box.bottom}\n" for team, name, box in queries if box is not None]
    with tempfile.TemporaryFile() as file:
        program.answer((line.encode() for line in lines), file)
        file.seek(0)
        replies = file.read().decode("ascii", "backslashreplace").splitlines()
    if len(replies) != len(lines):
        raise Fault(FAILED, "the program ended unexpectedly: replies are missing")
    return [_spot_in(reply) for reply in replies[len(teams) :]]


def _spot_in(reply: str) -> Spot | None:
    """Parses a reply of `find`."""
    match reply.split():
        case ["ok", x, y, orient]:
            return Spot(int(x), int(y), orient)
        case ["no", "8", "NoPlace", _]:
            return None
    raise Fault(FAILED, f"unexpected reply of the program: {reply!r}")
