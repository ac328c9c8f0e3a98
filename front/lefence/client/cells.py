"""The cells of a team, from its DEF text; with LEF files, also the sizes of their macros."""

from __future__ import annotations

import os
from collections.abc import Iterable
from dataclasses import dataclass
from decimal import Decimal
from functools import lru_cache
from pathlib import Path
from typing import cast

from ..base.design import Entry, entries, shown, statements
from ..base.lef import sizes_of
from ..base.protocol import ProtocolError
from .verbs import Length, Place, Scope, units_in

# Orientations in which a macro lies on its side.
_TURNED = frozenset("E W FE FW R90 R270 MXR90 MYR90".split())


@dataclass(frozen=True)
class Cell:
    """A cell of a team, its macro, and its place, or None if it is unplaced.

    Width and height are those of the macro as it faces north, in the session's unit; None without LEF files.
    """

    name: str
    macro: str
    place: Place | None
    width: Length | None
    height: Length | None

    @property
    def box(self) -> tuple[float, float, float, float] | None:
        """Left, bottom, right and top; None without a place or a size."""
        if self.place is None or self.width is None or self.height is None:
            return None
        # (lengths of replies are whole numbers or floats)
        left, bottom, wide, high = (
            cast(float, length) for length in (self.place.x, self.place.y, self.width, self.height)
        )
        if self.place.orient in _TURNED:
            wide, high = high, wide
        return left, bottom, left + wide, bottom + high


def cells_in(text: bytes, scope: Scope, libraries: Iterable[str | os.PathLike[str]]) -> list[Cell]:
    """Lists the cells of a team's DEF text in its order. Of two macros with one name, the first counts."""
    sizes: dict[bytes, tuple[Decimal, Decimal]] = {}
    for library in libraries:
        known = os.stat(library)
        for name, size in _sizes_in(os.fspath(library), known.st_mtime_ns, known.st_size).items():
            sizes.setdefault(name, size)
    units = units_in(text)
    return [_cell(entry, scope, sizes, units) for entry in entries(text, statements(text), b"COMPONENTS")]


@lru_cache(maxsize=64)
def _sizes_in(library: str, *version: int) -> dict[bytes, tuple[Decimal, Decimal]]:
    """Reads the sizes of the macros of a LEF file; again if its time or length has changed."""
    sizes: dict[bytes, tuple[Decimal, Decimal]] = {}
    for name, width, height in sizes_of(Path(library).read_bytes()):
        sizes.setdefault(name, (width, height))
    return sizes


def _cell(entry: Entry, scope: Scope, sizes: dict[bytes, tuple[Decimal, Decimal]], units: int) -> Cell:
    name, macro, *clause = entry.words
    place = scope.place([word.decode() for word in clause[3:5] + clause[6:7]]) if clause[1:2] == [b"PLACED"] else None
    size: list[Length | None] = [None, None]
    if sizes:
        if macro not in sizes:
            raise ProtocolError(f"no LEF file has macro {shown(macro)} of cell {shown(name)}")
        size = [scope.length(str(int(length * units))) for length in sizes[macro]]
    return Cell(shown(name), shown(macro), place, *size)
