"""The table of all cells of a design: arrays, team after team, in loading order. A cell is its number there."""

from __future__ import annotations

import json
import struct
import sys
from array import array
from collections.abc import Iterable
from dataclasses import dataclass, field
from typing import Any, NamedTuple

from ..base.description import Cell
from ..base.protocol import ORIENTS

# The code of an unplaced cell's orientation; others are positions in ORIENTS.
UNPLACED = 255
CODES = {orient: code for code, orient in enumerate(ORIENTS)}


class Place(NamedTuple):
    """A cell's place: its lower left corner, and the code of its orientation. An unplaced cell is at NOWHERE."""

    x: int
    y: int
    orient: int


NOWHERE = Place(0, 0, UNPLACED)


class Places:
    """A place of each cell."""

    def __init__(self, count: int = 0) -> None:
        self.x = array("i", bytes(4 * count))
        self.y = array("i", bytes(4 * count))
        self.orient = bytearray([UNPLACED]) * count

    def __getitem__(self, number: int) -> Place:
        return Place(self.x[number], self.y[number], self.orient[number])

    def __setitem__(self, number: int, place: Place) -> None:
        self.x[number], self.y[number], self.orient[number] = place

    def append(self, place: Place) -> None:
        self.x.append(place.x)
        self.y.append(place.y)
        self.orient.append(place.orient)

    def extend(self, other: Places) -> None:
        self.x.extend(other.x)
        self.y.extend(other.y)
        self.orient.extend(other.orient)

    def copy(self) -> Places:
        made = Places()
        made.extend(self)
        return made


class Macro(NamedTuple):
    """A macro: its name, and its size as it faces north."""

    name: str
    width: int
    height: int


@dataclass
class TeamPart:
    """The cells of a team while they are read: names, macros, places, and the broken rules with the other cells."""

    names: list[bytes] = field(default_factory=list)
    macros: array[int] = field(default_factory=lambda: array("I"))
    places: Places = field(default_factory=Places)
    broken: list[tuple[bytes, int, bytes | None]] = field(default_factory=list)


class CellTable:
    """The cells of a design with their working and committed places, and places to compare with, if there are any."""

    def __init__(self, teams: list[str], cells: Iterable[Cell]) -> None:
        """Reads the cells of these teams. Both places of a cell are the one in the description."""
        self.macros: list[Macro] = []
        parts = {team: TeamPart() for team in teams}
        self._read(parts, cells)
        self.names: list[bytes] = []
        self.macro = array("I")
        self.working = Places()
        # The number of a team's first cell, and the number after its last one.
        self.ranges: list[range] = []
        # The number of each cell, by team.
        self.numbers: list[dict[bytes, int]] = []
        for part in parts.values():
            start = len(self.names)
            self.names += part.names
            self.macro.extend(part.macros)
            self.working.extend(part.places)
            self.ranges.append(range(start, len(self.names)))
            self.numbers.append({name: start + at for at, name in enumerate(part.names)})
        self.committed = self.working.copy()
        self.before: Places | None = None
        # The broken rule of each cell, or 0; and of a cell that breaks one the number of the other cell, or None.
        self.rules = bytearray(len(self.names))
        self.others: dict[int, int | None] = {}
        for numbers, part in zip(self.numbers, parts.values()):
            for name, rule, other in part.broken:
                self.rules[numbers[name]] = rule
                self.others[numbers[name]] = None if other is None else numbers.get(other)

    def _read(self, parts: dict[str, TeamPart], cells: Iterable[Cell]) -> None:
        macros: dict[str, int] = {}
        for cell in cells:
            part, name = parts[cell.team], cell.name.encode()
            if cell.macro not in macros:
                macros[cell.macro] = len(self.macros)
                self.macros.append(Macro(cell.macro, cell.width, cell.height))
            part.names.append(name)
            part.macros.append(macros[cell.macro])
            box = cell.box
            part.places.append(Place(box.left, box.bottom, CODES[cell.orient or "N"]) if box else NOWHERE)
            if cell.rule is not None:
                part.broken.append((name, cell.rule, None if cell.other is None else cell.other.encode()))

    def __len__(self) -> int:
        return len(self.names)

    def size_of(self, number: int, orient: int) -> tuple[int, int]:
        """The width and the height of a cell's box in this orientation."""
        _, width, height = self.macros[self.macro[number]]
        return (height, width) if orient != UNPLACED and ORIENTS[orient].endswith(("E", "W")) else (width, height)

    def packed(self, notes: dict[str, Any]) -> bytes:
        """The table as bytes for the page: the length of a JSON object, the object, then the arrays that it lists.

        All are little-endian, and each array begins at a multiple of 8 bytes. `notes` come into the object too.
        """
        parts: list[tuple[str, str, bytes]] = []

        def add(name: str, values: array[int] | bytearray | bytes) -> None:
            if isinstance(values, array) and sys.byteorder == "big":
                values = array(values.typecode, values)
                values.byteswap()
            kind = values.typecode if isinstance(values, array) else "B"
            parts.append((name, kind, values.tobytes() if isinstance(values, array) else bytes(values)))

        for prefix, places in (("", self.working), ("committed_", self.committed), ("before_", self.before)):
            if places is not None:
                add(prefix + "x", places.x)
                add(prefix + "y", places.y)
                add(prefix + "orient", places.orient)
        add("macro", self.macro)
        add("rule", self.rules)
        add("names", b"\n".join(self.names))
        sizes = [[name, kind, len(data)] for name, kind, data in parts]
        head = {"count": len(self), "parts": sizes, "others": list(self.others.items()), **notes}
        text = json.dumps(head, separators=(",", ":")).encode()
        text += b" " * (-(len(text) + 4) % 8)
        padded = (data + bytes(-len(data) % 8) for _, _, data in parts)
        return b"".join([struct.pack("<I", len(text)), text, *padded])
