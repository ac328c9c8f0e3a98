"""The picture of a board as a PNG, drawn by KLayout without a screen."""

from __future__ import annotations

import shutil
from pathlib import Path

from ..base.atomic_file import atomic_file
from ..base.description import Box
from ..base.faults import USAGE, Fault
from ..view.drawing import Drawing, Move
from ..view.picture import MOST_MOVES, png_of
from ..view.scene import Scene
from .board import Board
from .cells import UNPLACED


def klayout_path() -> str:
    """Finds KLayout. Raises a Fault if it is not installed."""
    found = shutil.which("klayout")
    if found is None:
        raise Fault(USAGE, "a snapshot needs klayout, which is not installed: install the Debian package klayout")
    return found


def write_snapshot(board: Board, path: Path, klayout: str) -> None:
    """Writes a PNG of the cells at their working places, with arrows from the committed places of those elsewhere."""
    scene = Scene(board.frame)
    for cell in board.cells():
        scene.take(cell)
    moves = sorted(_moves_of(board), key=lambda move: -move.length)
    drawing = Drawing(scene, moves[:MOST_MOVES] if moves else None, len(moves))
    with atomic_file(path) as file:
        file.write(png_of(drawing, klayout))


def _moves_of(board: Board) -> list[Move]:
    table, moves = board.table, []
    for facts in board.facts:
        for number in sorted(facts.uncommitted):
            before, after = table.committed[number], table.working[number]
            if UNPLACED not in (before.orient, after.orient) and before[:2] != after[:2]:
                boxes = []
                for place in (before, after):
                    width, height = table.size_of(number, place.orient)
                    boxes.append(Box(place.x, place.y, place.x + width, place.y + height))
                moves.append(Move(table.names[number].decode(), *boxes))
    return moves
