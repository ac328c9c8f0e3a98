"""Places near their nets for cells without a place, as an ECO leaves them.

A place is only a start for a repair: it is in a row of the team's ground, but other cells may be there. The program
judges it, as any other place.
"""

from __future__ import annotations

from bisect import bisect_left
from collections import defaultdict
from collections.abc import Iterator
from typing import NamedTuple

from ..base.description import Box, Cell, Facts, Frame
from ..base.nets import Macro, Net, Netlist, Pin, Place, Point
from ..base.protocol import GROUND
from ..base.wording import number

# Nets with more pins say little about the place of one of their cells.
MOST_PINS = 100


class NearPlace(NamedTuple):
    """A place near the nets of a cell, and the number of nets that it is near to."""

    place: Place
    nets: int


def places_near_nets(netlist: Netlist, frame: Frame, cells: list[Cell]) -> dict[str, NearPlace]:
    """Returns places for those of these unplaced cells whose nets lead to a place, and adds them to the netlist.

    In each round a cell gets a place by the pins that have one already, so that a cell which only new cells know gets
    its place after them.
    """
    nets_of: defaultdict[bytes, list[Net]] = defaultdict(list)
    for net in netlist.nets:
        if len(net.pins) <= MOST_PINS:
            for component in dict.fromkeys(pin.component for pin in net.pins):
                if component is not None:
                    nets_of[component].append(net)
    grounds = Grounds(frame)
    found: dict[str, NearPlace] = {}
    waiting = {cell.name: cell for cell in cells}
    while waiting:
        placed: dict[str, NearPlace] = {}
        for name, cell in waiting.items():
            target, nets = _target(netlist, nets_of[name.encode()], name.encode())
            if target is not None and (place := grounds.of(cell.team).nearest(cell, target)) is not None:
                placed[name] = NearPlace(place, nets)
        if not placed:
            break
        for name, near in placed.items():
            netlist.places[name.encode()] = near.place
            del waiting[name]
        found |= placed
    return {cell.name: found[cell.name] for cell in cells if cell.name in found}


def near_nets_text(cells: int, placed: int) -> str:
    """Says how many of the cells without a place have one near their nets now."""
    text = f"{number(placed, 'cell')} of {cells:,} without a place now near {'its' if placed == 1 else 'their'} nets"
    others = f"; no net of the other {number(cells - placed, 'cell')} leads to a place in a row"
    return text + (others if placed < cells else "")


def _target(netlist: Netlist, nets: list[Net], name: bytes) -> tuple[Point | None, int]:
    """The lower left corner, in database units, at which a cell makes its nets shortest, and the number of these nets.
    None if no other pin of them has a place.

    A net is shortest while the cell's pin is in the box around the net's other pins. So the length of all nets is least
    between the two middle ones of all sides of these boxes, along x and along y.
    """
    macro = netlist.macro_of(name)
    xs: list[int] = []
    ys: list[int] = []
    for net in nets:
        others = [pin for pin in net.pins if pin.component != name]
        points = [point for pin in others for point in netlist.points_or_middle(pin)]
        if points:
            x, y = _own_point(macro, [pin for pin in net.pins if pin.component == name])
            xs += [min(at for at, _ in points) - x, max(at for at, _ in points) - x]
            ys += [min(at for _, at in points) - y, max(at for _, at in points) - y]
    count = len(xs) // 2
    return ((_middle(xs) // 2, _middle(ys) // 2) if count else None), count


def _own_point(macro: Macro | None, pins: list[Pin]) -> Point:
    """The middle of a cell's own pins of a net, from its lower left corner. A pin without a shape is in its middle."""
    if macro is None:
        return 0, 0
    points = [macro.pins.get(pin.name, (macro.width // 2, macro.height // 2)) for pin in pins]
    return sum(x for x, _ in points) // len(points), sum(y for _, y in points) // len(points)


def _middle(sides: list[int]) -> int:
    """The middle between the two middle ones of an even number of sides."""
    sides.sort()
    return (sides[len(sides) // 2 - 1] + sides[len(sides) // 2]) // 2


class _Span(NamedTuple):
    """A part of a row in a team's ground without obstacles, with the row's left end and orientation."""

    left: int
    right: int
    row_left: int
    orient: str


class Ground:
    """The parts of the rows in a team's ground, by the heights of the rows' bottoms."""

    def __init__(self, facts: Facts, spans: dict[int, list[_Span]]) -> None:
        """Makes a ground of spans, given the facts of the core site."""
        self._site_width, self._site_height = facts.site_width, facts.site_height
        self._spans = spans
        self._levels = sorted(spans)

    def nearest(self, cell: Cell, target: Point) -> Place | None:
        """Returns the place in a span that is nearest to the target; None if no span holds the cell."""
        best: tuple[int, Place] | None = None
        rows = max(1, -(-cell.height // self._site_height))
        for bottom in self._from(target[1]):
            away = abs(bottom - target[1])
            if best is not None and away >= best[0]:
                break
            for span in self._spans[bottom]:
                x = self._on_grid(span, target[0], cell.width)
                above = (bottom + row * self._site_height for row in range(1, rows))
                if x is None or not all(self._holds(level, x, cell) for level in above):
                    continue
                distance = away + abs(x - target[0])
                if best is None or distance < best[0]:
                    # A cell of an even number of rows is never flipped with its row.
                    best = distance, Place(x, bottom, (span.orient if rows % 2 else "N").encode())
        return best[1] if best else None

    def _from(self, y: int) -> Iterator[int]:
        """Yields the levels, the nearest to a height first."""
        above = bisect_left(self._levels, y)
        below = above - 1
        while below >= 0 or above < len(self._levels):
            is_above = below < 0 or (above < len(self._levels) and self._levels[above] - y < y - self._levels[below])
            yield self._levels[above if is_above else below]
            above, below = (above + 1, below) if is_above else (above, below - 1)

    def _on_grid(self, span: _Span, x: int, width: int) -> int | None:
        """The x nearest to this one at which a cell of this width is on the row's grid inside the span."""
        step, first = self._site_width, span.row_left
        least = first + -(-(span.left - first) // step) * step
        most = first + (span.right - width - first) // step * step
        return min(max(first + (x - first + step // 2) // step * step, least), most) if least <= most else None

    def _holds(self, bottom: int, x: int, cell: Cell) -> bool:
        """Whether a span at this height holds the cell's extent along x."""
        return any(span.left <= x and x + cell.width <= span.right for span in self._spans.get(bottom, ()))


class Grounds:
    """The grounds of the teams of a frame, each made when it is asked for."""

    def __init__(self, frame: Frame) -> None:
        self._frame = frame
        self._made: dict[str, Ground] = {}
        self._rows = sorted((row.box.bottom, row.box.left, row.box.right, row.orient) for row in frame.rows)

    def of(self, team: str) -> Ground:
        """Returns the ground of a team."""
        if team not in self._made:
            self._made[team] = self._ground(team)
        return self._made[team]

    def _ground(self, team: str) -> Ground:
        fences = [rect for fence in self._frame.fences if team in (GROUND, fence.name) for rect in fence.rects]
        blocked = [obstacle.box for obstacle in self._frame.obstacles]
        removed = self._by_row(blocked + (fences if team == GROUND else []), is_covering=False)
        kept = self._by_row([] if team == GROUND else fences, is_covering=True)
        spans: dict[int, list[_Span]] = {}
        for at, (bottom, left, right, orient) in enumerate(self._rows):
            parts = [(left, right)]
            if team != GROUND:
                inside = [(max(left, start), min(right, stop)) for start, stop in _joined(kept.get(at, []))]
                parts = [part for part in inside if part[0] < part[1]]
            free = _without(parts, _joined(removed.get(at, [])))
            spans.setdefault(bottom, []).extend(_Span(*part, left, orient) for part in free)
        return Ground(self._frame.facts, {bottom: found for bottom, found in spans.items() if found})

    def _by_row(self, boxes: list[Box], is_covering: bool) -> dict[int, list[tuple[int, int]]]:
        """The extents along x of the boxes that share points with each row, or that cover all of its height."""
        height = self._frame.facts.site_height
        bottoms = [row[0] for row in self._rows]
        found: defaultdict[int, list[tuple[int, int]]] = defaultdict(list)
        for box in boxes:
            low, high = (box.bottom, box.top - height) if is_covering else (box.bottom - height + 1, box.top - 1)
            for at in range(bisect_left(bottoms, low), bisect_left(bottoms, high + 1)):
                found[at].append((box.left, box.right))
        return found


def _joined(parts: list[tuple[int, int]]) -> list[tuple[int, int]]:
    """The parts by their left ends; those that overlap or touch are joined."""
    found: list[tuple[int, int]] = []
    for left, right in sorted(parts):
        if found and left <= found[-1][1]:
            found[-1] = found[-1][0], max(found[-1][1], right)
        else:
            found.append((left, right))
    return found


def _without(parts: list[tuple[int, int]], removed: list[tuple[int, int]]) -> Iterator[tuple[int, int]]:
    """Yields what remains of the parts without the removed ones, which are disjoint and in order."""
    for left, right in parts:
        for start, stop in removed:
            if start < right and stop > left:
                if start > left:
                    yield left, start
                left = max(left, stop)
        if left < right:
            yield left, right
