"""The cells that moved between two placements as Tcl commands of Innovus, ICC2 or OpenROAD."""

from __future__ import annotations

from collections.abc import Callable
from decimal import Decimal
from typing import IO, NamedTuple

from ..base.protocol import OPENACCESS
from .displacement import Place

# OpenAccess' spelling of each orientation of DEF. The first spelling of each is the usual one.
_OPENACCESS_OF = {orient: other for other, orient in reversed(OPENACCESS.items())}
# A procedure for OpenROAD, whose database has names as the DEF file has them, or without their escapes.
_OPENROAD = r"""proc lefence_place {name x y orient} {
    set block [ord::get_db_block]
    set inst [$block findInst $name]
    if {$inst eq "NULL"} {
        set inst [$block findInst [string map [list \\ {}] $name]]
    }
    if {$inst eq "NULL"} {
        error "lefence: no instance $name"
    }
    $inst setOrient $orient
    $inst setLocation [ord::microns_to_dbu $x] [ord::microns_to_dbu $y]
    $inst setPlacementStatus PLACED
}
"""


class Dialect(NamedTuple):
    """The Tcl of a tool: what comes first, the command that places a cell, its spelling of orientations, and whether
    its names have the backslashes of DEF.
    """

    preamble: str
    command: Callable[[str, str, str, str], str]
    is_openaccess: bool
    keeps_escapes: bool


DIALECTS = {
    "innovus": Dialect("", lambda name, x, y, orient: f"placeInstance {name} {x} {y} {orient} -placed", True, False),
    "icc2": Dialect(
        "",
        lambda name, x, y, orient: f"set_cell_location -coordinates {{{x} {y}}} -orientation {orient} {name}",
        False,
        False,
    ),
    "openroad": Dialect(_OPENROAD, lambda name, x, y, orient: f"lefence_place {name} {x} {y} {orient}", True, True),
}


class TclMoves:
    """Writes a command for each cell that has another place after than before."""

    def __init__(self, tool: str, units: int, file: IO[bytes]) -> None:
        """Begins a script for a tool of `DIALECTS`; `units` are the database units per micron."""
        self._dialect, self._units, self._file = DIALECTS[tool], units, file
        # The number of commands, and the names of the cells that have no place any more.
        self.count = 0
        self.unplaced: list[str] = []
        file.write(f"# Places of lefence for {tool}, in microns.\n{self._dialect.preamble}".encode())

    def take(self, name: str, before: Place | None, after: Place | None) -> None:
        """Writes the command of a cell, if it moved, turned, or had no place."""
        if after is None:
            if before is not None:
                self.unplaced.append(name)
        elif before != after:
            self.count += 1
            plain = name if self._dialect.keeps_escapes else without_escapes(name)
            orient = _OPENACCESS_OF[after.orient] if self._dialect.is_openaccess else after.orient
            x, y = (_microns(length, self._units) for length in after[:2])
            self._file.write(f"{self._dialect.command(tcl_word(plain), x, y, orient)}\n".encode())


def without_escapes(name: str) -> str:
    """Returns a name of DEF without the backslashes before its special characters."""
    parts = name.split("\\\\")
    return "\\".join(part.replace("\\", "") for part in parts)


def tcl_word(name: str) -> str:
    """Returns a name as one word of Tcl: in braces, or with backslashes if braces cannot hold it."""
    depth = 0
    for sign in name:
        depth += (sign == "{") - (sign == "}")
        if depth < 0:
            break
    if depth == 0 and not name.endswith("\\") and "\\{" not in name and "\\}" not in name:
        return f"{{{name}}}"
    return "".join(sign if sign.isalnum() or sign in "_/" else f"\\{sign}" for sign in name)


def _microns(length: int, units: int) -> str:
    """Formats a length exactly, with at least three decimals."""
    whole, _, decimals = f"{Decimal(length) / units:f}".partition(".")
    return f"{whole}.{decimals.ljust(3, '0')}"
