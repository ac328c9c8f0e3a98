"""Which cells a line of a change moves, and where to, as far as line and reply say it.

`place`, `legalize` and `unplace` say it. After `swap` and `undo` the cells are known, and the hub is asked where they
are: the names of the cells of the last changes are kept, as the program keeps their places for `undo`.
"""

from __future__ import annotations

from collections import deque
from collections.abc import Callable
from dataclasses import dataclass

from .board import place_of
from .cells import NOWHERE, Place

# The changes that `undo` can take back.
_UNDOS = 64


@dataclass
class Effect:
    """What a change did: cells with their new places, and cells whose places are to be asked for.

    `kind` is `commit` or `revert` for these, else `moves`. If `is_unknown`, the whole team is to be read.
    """

    kind: str = "moves"
    places: list[tuple[str, Place]] | None = None
    asked: list[str] | None = None
    is_unknown: bool = False


class UndoList:
    """The names of the cells that each of the last changes moved; None for a change of unknown cells."""

    def __init__(self) -> None:
        self._cells: deque[list[str] | None] = deque(maxlen=_UNDOS)

    def effect_of(self, line: str, reply: str, uncommitted: Callable[[], list[str]]) -> Effect:
        """Returns the effect of the next change of the team. `uncommitted` lists the cells that a revert moves."""
        verb, _, _, *fields = line.split()
        words = reply.split()[2:]
        match verb, fields:
            case "place", [cell, *place]:
                return self._moved(Effect(places=[(cell, place_of(place))]), [cell])
            case "legalize", [cell, *_]:
                return self._moved(Effect(places=[(cell, place_of(words))]), [cell])
            case "unplace", [cell]:
                return self._moved(Effect(places=[(cell, NOWHERE)]), [cell])
            case "swap", cells:
                return self._moved(Effect(asked=cells), cells)
            case "tidy", _ if words == ["0"]:
                return self._moved(Effect(), [])
            case "tidy", _:
                return self._moved(Effect(is_unknown=True), None)
            case "revert", _:
                return self._moved(Effect("revert"), uncommitted())
            case "undo", _:
                undone = self._cells.pop() if self._cells else None
                return Effect(asked=undone, is_unknown=undone is None)
            case "commit", _:
                return Effect("commit")
        return Effect()

    def _moved(self, effect: Effect, cells: list[str] | None) -> Effect:
        self._cells.append(cells)
        return effect
