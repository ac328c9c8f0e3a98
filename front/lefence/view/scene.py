"""The visible parts of a design, collected from its description in one pass with bounded memory.

Up to a limit, all placed cells are kept and drawn one by one. Above it there is a map: square bins with the share of
their area that cells take, by team. The colours of teams are here too, so that pictures and pages agree.
"""

from __future__ import annotations

import colorsys
from collections import Counter, defaultdict
from collections.abc import Iterable
from dataclasses import dataclass, field

from ..base.description import Box, Cell, Frame, Obstacle
from ..base.protocol import GROUND

# The most cells, and the most obstacles, drawn one by one.
LIMIT = 20_000
# The number of bins along the longer side of the map, and of shades.
BINS = 240
SHADES = 8
# The colours of the first fences, of the ground and of cells that break a rule. Other fences get hues far from red.
_COLOURS = (
    "#3d7cc9",
    "#3f9d63",
    "#d79a1e",
    "#8d67c9",
    "#1f9fa6",
    "#a5713f",
    "#c46fb0",
    "#7f9a2d",
    "#5a63cf",
    "#4fabdc",
)
_GROUND = "#8798ae"
BROKEN = "#d92b2b"


def colour_of(at: int, name: str) -> str:
    """The colour of a team by its position in `Frame.teams`."""
    if name == GROUND:
        return _GROUND
    if at < len(_COLOURS):
        return _COLOURS[at]
    hue = (35 + 275 * (at * 0.618034 % 1)) / 360
    return "#" + "".join(
        f"{round(part * 255):02x}" for part in colorsys.hls_to_rgb(hue, (0.42, 0.5, 0.58)[at % 3], 0.5)
    )


def darker(colour: str) -> str:
    """A darker colour, readable as text on white."""
    return "#" + "".join(f"{int(colour[at : at + 2], 16) * 62 // 100:02x}" for at in (1, 3, 5))


def intersection(box: Box, other: Box) -> Box | None:
    """The common part of two boxes, or None."""
    low = max(box.left, other.left), max(box.bottom, other.bottom)
    common = Box(*low, min(box.right, other.right), min(box.top, other.top))
    return common if common.width > 0 and common.height > 0 else None


def row_blocks(frame: Frame) -> list[Box]:
    """Merges rows of equal extent along x that touch each other."""
    blocks: list[Box] = []
    for box in sorted((row.box for row in frame.rows), key=lambda box: (box.left, box.right, box.bottom)):
        last = blocks[-1] if blocks else None
        if last and (last.left, last.right, last.top) == (box.left, box.right, box.bottom):
            blocks[-1] = Box(box.left, last.bottom, box.right, box.top)
        else:
            blocks.append(box)
    return blocks


@dataclass
class Tally:
    """Counts of a team: cells, unplaced cells, violations by rule, and the cells' area in square database units."""

    cells: int = 0
    unplaced: int = 0
    area: int = 0
    broken: Counter[int] = field(default_factory=Counter)


class Bins:
    """Square bins over a view, from its lower left corner."""

    def __init__(self, view: Box, side: int | None = None) -> None:
        """Makes empty bins of this side, else so many that BINS are along the longer side of the view."""
        self.view = view
        self.side = side or max(1, -(-max(view.width, view.height) // BINS))
        self._taken: defaultdict[tuple[int, int, int], int] = defaultdict(int)

    def add(self, team: int, box: Box) -> None:
        """Adds a team's box."""
        view, side, taken = self.view, self.side, self._taken
        left, bottom = max(box.left - view.left, 0), max(box.bottom - view.bottom, 0)
        right, top = min(box.right - view.left, view.width), min(box.top - view.bottom, view.height)
        if left >= right or bottom >= top:
            return
        along, up, last_along, last_up = left // side, bottom // side, (right - 1) // side, (top - 1) // side
        if along == last_along and up == last_up:
            taken[up, along, team] += (right - left) * (top - bottom)
            return
        for y in range(up, last_up + 1):
            height = min(top, y * side + side) - max(bottom, y * side)
            for x in range(along, last_along + 1):
                taken[y, x, team] += height * (min(right, x * side + side) - max(left, x * side))

    def paths(self) -> dict[tuple[int, int], str]:
        """For each team and shade (1 to SHADES), the bins that it fills most, as an SVG path in bins."""
        most: dict[tuple[int, int], tuple[int, int]] = {}
        for (up, along, team), area in self._taken.items():
            if area > most.get((up, along), (0, 0))[0]:
                most[up, along] = area, team
        whole = self.areas()
        return _paths(
            (place, team, min(SHADES, -(-whole[place] * SHADES // self.side**2))) for place, (_, team) in most.items()
        )

    def too_full(self, others: Bins) -> dict[tuple[int, int], str]:
        """The bins that are more than full with both together, as `paths` of one team. The last shade is twice full or
        more.
        """
        room, taken = self.side**2, Counter(self.areas())
        taken.update(others.areas())
        over = ((place, area - room) for place, area in taken.items() if area > room)
        return _paths((place, ILL, min(SHADES, -(-more * SHADES // room))) for place, more in over)

    def areas(self) -> dict[tuple[int, int], int]:
        """Returns the taken area of each bin by its row and column; bins without any are left out."""
        whole: defaultdict[tuple[int, int], int] = defaultdict(int)
        for (up, along, _), area in self._taken.items():
            whole[up, along] += area
        return whole


def _paths(bins: Iterable[tuple[tuple[int, int], int, int]]) -> dict[tuple[int, int], str]:
    """Makes a path of the bins of each team and shade; neighbours in a row become one rectangle."""
    runs: defaultdict[tuple[int, int], list[list[int]]] = defaultdict(list)
    for (up, along), team, shade in sorted(bins):
        places = runs[team, shade]
        if places and places[-1][0] == up and places[-1][1] + places[-1][2] == along:
            places[-1][2] += 1
        else:
            places.append([up, along, 1])
    return {key: "".join(f"M{x} {y}h{n}v1h-{n}z" for y, x, n in places) for key, places in sorted(runs.items())}


# Numbers used like a team's: of obstacles in a map, and of cells that break a rule.
OBSTACLES, ILL = -1, -2


class Scene:
    """The visible parts of a design whose cells are added one by one."""

    def __init__(self, frame: Frame, limit: int = LIMIT, most_broken: int = LIMIT) -> None:
        """Draws a map above `limit` cells; keeps at most `most_broken` cells that break a rule."""
        self.frame = frame
        box = frame.box
        edge = max(1, max(box.width, box.height) // 50)
        self.view = Box(box.left - edge, box.bottom - edge, box.right + edge, box.top + edge)
        self.tallies = {team: Tally() for team in frame.teams}
        self.outside = 0
        # The placed cells, if there is no map.
        self.cells: list[Cell] = []
        self.broken: list[Cell] = []
        self.map: Bins | None = None
        self.broken_map = Bins(self.view)
        self._limit, self._most_broken = limit, most_broken
        self._numbers = {team: at for at, team in enumerate(frame.teams)}
        # Of many obstacles and soft blockages, only those as large as a bin are drawn. The other obstacles are in the
        # map.
        self.obstacles, self.soft = frame.obstacles, frame.soft
        self._small: list[Obstacle] = []
        least = self.broken_map.side**2
        if len(frame.obstacles) > limit:
            large = [obstacle for obstacle in frame.obstacles if obstacle.box.area >= least]
            self.obstacles = large[:limit]
            self._small = [obstacle for obstacle in frame.obstacles if obstacle.box.area < least] + large[limit:]
            self._begin_map()
        if len(frame.soft) > limit:
            self.soft = [box for box in frame.soft if box.area >= least][:limit]

    def take(self, cell: Cell) -> None:
        """Adds a cell of the design."""
        tally = self.tallies[cell.team]
        tally.cells += 1
        tally.area += cell.width * cell.height
        if cell.rule is not None:
            tally.broken[cell.rule] += 1
        box = cell.box
        if box is None:
            tally.unplaced += 1
            return
        view = self.view
        if box.right <= view.left or box.left >= view.right or box.top <= view.bottom or box.bottom >= view.top:
            self.outside += 1
        if cell.rule is not None:
            self.broken_map.add(ILL, box)
            if len(self.broken) < self._most_broken:
                self.broken.append(cell)
        if self.map is None and len(self.cells) >= self._limit:
            self._begin_map()
        if self.map is None:
            self.cells.append(cell)
        else:
            self.map.add(self._numbers[cell.team], box)

    def _begin_map(self) -> None:
        self.map = Bins(self.view)
        for obstacle in self._small:
            self.map.add(OBSTACLES, obstacle.box)
        for cell in self.cells:
            assert cell.box is not None
            self.map.add(self._numbers[cell.team], cell.box)
        self.cells = []

    @property
    def shows_too_full(self) -> bool:
        """Whether the map's red shows overfull bins: if two of three cells break a rule, that says more than their
        places.
        """
        return 3 * self.sum_of("broken") > 2 * (self.sum_of("cells") - self.sum_of("unplaced"))

    def red_paths(self) -> dict[tuple[int, int], str]:
        """The red bins of the map, as `Bins.paths`."""
        if self.map is None or not self.shows_too_full:
            return self.broken_map.paths()
        drawn = Bins(self.view)
        for obstacle in self.obstacles:
            drawn.add(OBSTACLES, obstacle.box)
        return self.map.too_full(drawn)

    def sum_of(self, key: str) -> int:
        """The sum of `cells`, `unplaced` or `broken` over all teams."""
        values = (getattr(tally, key) for tally in self.tallies.values())
        return sum(value.total() if isinstance(value, Counter) else value for value in values)
