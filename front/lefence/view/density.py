"""How full a design is: the area of cells and of free row in square bins of whole rows."""

from __future__ import annotations

from ..base.description import Cell, Frame, bounding_box
from .scene import Bins, row_blocks
from .team_area import blocked_rows

# The most bins along the longer side of the rows.
MOST_BINS = 96


class Density:
    """The bins of a frame, from the lower left corner of its rows; the cells are added one by one."""

    def __init__(self, frame: Frame) -> None:
        height = frame.facts.site_height
        self.box = bounding_box([row.box for row in frame.rows])
        rows = -(-max(self.box.width, self.box.height) // (height * MOST_BINS))
        self._units = frame.facts.units
        self._cells, self._rows, self._blocked = (Bins(self.box, rows * height) for _ in range(3))
        for box in row_blocks(frame):
            self._rows.add(0, box)
        for box in blocked_rows(frame):
            self._blocked.add(0, box)

    @property
    def side(self) -> int:
        """The side of a bin in database units, a number of rows."""
        return self._cells.side

    def add(self, cell: Cell) -> None:
        """Adds a cell of the design, if it has a place."""
        if cell.box is not None:
            self._cells.add(0, cell.box)

    def data(self) -> dict[str, object]:
        """Returns the bins for a page's script, row by row from the bottom: areas in square microns."""
        side, square = self.side, self._units**2
        columns, rows = -(-self.box.width // side), -(-self.box.height // side)
        used, row_area, blocked = (bins.areas() for bins in (self._cells, self._rows, self._blocked))
        places = [(up, along) for up in range(rows) for along in range(columns)]
        return {
            "side": side,
            "left": self.box.left,
            "bottom": self.box.bottom,
            "wide": self.box.width,
            "high": self.box.height,
            "columns": columns,
            "used": [_rounded(used.get(place, 0) / square) for place in places],
            "room": [_rounded((row_area.get(place, 0) - blocked.get(place, 0)) / square) for place in places],
        }


def _rounded(area: float) -> float:
    """An area with four digits."""
    return float(f"{area:.4g}")
