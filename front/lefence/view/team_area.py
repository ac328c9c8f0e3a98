"""The area of each team's ground: its core rows inside its fence, or outside all fences, without the obstacles.

It is exact for any frame. The computation goes from one level of rows to the next.
"""

from __future__ import annotations

from collections import defaultdict
from collections.abc import Iterable, Iterator

from ..base.description import Box, Frame
from ..base.protocol import GROUND


def areas_of(frame: Frame) -> dict[str, int]:
    """Returns each team's area in square database units, in the order of `frame.teams`."""
    areas = dict.fromkeys(frame.teams, 0)
    fences = _Sweep((rect, fence.name) for fence in frame.fences for rect in fence.rects)
    for bottom, top, rows, taken in _levels(frame):
        inside = fences.between(bottom, top)
        areas[GROUND] += sum(row.area for row in rows) - sum(part.area for part, _ in taken)
        for sign, boxes in ((1, rows), (-1, [part for part, _ in taken])):
            for part, team in _intersections(boxes, inside):
                areas[team] += sign * part.area
                areas[GROUND] -= sign * part.area
    return areas


def blocked_rows(frame: Frame) -> Iterator[Box]:
    """Yields the parts of core rows that obstacles take, as disjoint boxes."""
    for _, _, _, taken in _levels(frame):
        yield from (part for part, _ in taken)


def _levels(frame: Frame) -> Iterator[tuple[int, int, list[Box], list[tuple[Box, str]]]]:
    """Yields the levels of core rows from the bottom upwards: their two heights, the rows, and what obstacles take."""
    levels: defaultdict[tuple[int, int], list[Box]] = defaultdict(list)
    for row in frame.rows:
        levels[row.box.bottom, row.box.top].append(row.box)
    obstacles = _Sweep((obstacle.box, "") for obstacle in frame.obstacles)
    # Core rows are disjoint and have one height, so the tops of their levels have the order of their bottoms.
    for (bottom, top), rows in sorted(levels.items()):
        rows.sort()
        yield bottom, top, rows, sorted((part, "") for part, _ in _intersections(rows, obstacles.between(bottom, top)))


class _Sweep:
    """Boxes with their owners, from the bottom upwards."""

    def __init__(self, boxes: Iterable[tuple[Box, str]]) -> None:
        self._later = [(box, owner) for box, owner in boxes if box.width > 0 and box.height > 0]
        self._later.sort(key=lambda pair: pair[0].bottom, reverse=True)
        self._here: list[tuple[Box, str]] = []

    def between(self, bottom: int, top: int) -> list[tuple[Box, str]]:
        """Returns disjoint boxes of each owner between two heights, by left sides. The heights must not decrease."""
        self._here = [pair for pair in self._here if pair[0].top > bottom]
        while self._later and self._later[-1][0].bottom < top:
            pair = self._later.pop()
            if pair[0].top > bottom:
                self._here.append(pair)
        parts: defaultdict[str, list[Box]] = defaultdict(list)
        for box, owner in self._here:
            parts[owner].append(Box(box.left, max(box.bottom, bottom), box.right, min(box.top, top)))
        return sorted((box, owner) for owner, boxes in parts.items() for box in _disjoint(boxes))


def _disjoint(boxes: list[Box]) -> Iterator[Box]:
    """Splits boxes into disjoint ones with the same points."""
    group: list[Box] = []
    right = 0
    for box in sorted(boxes):
        if group and box.left >= right:
            yield from _disjoint_in_group(group, right)
            group = []
        right = max(right, box.right) if group else box.right
        group.append(box)
    yield from _disjoint_in_group(group, right)


def _disjoint_in_group(group: list[Box], right: int) -> Iterator[Box]:
    """Splits boxes whose extents along x are connected up to `right`, given by their left sides."""
    edges = sorted({edge for box in group for edge in (box.bottom, box.top)})
    if len(edges) == 2:
        yield Box(group[0].left, edges[0], right, edges[1])
        return
    for bottom, top in zip(edges, edges[1:]):
        end = group[0].left
        for box in group:
            if box.bottom <= bottom and box.top >= top and box.right > end:
                yield Box(max(box.left, end), bottom, box.right, top)
                end = box.right


def _intersections(first: list[Box], second: list[tuple[Box, str]]) -> Iterator[tuple[Box, str]]:
    """Yields the common part of each two boxes of both lists, with the second one's owner. Both lists are by left
    sides.
    """
    here: list[tuple[Box, str]] = []
    start = 0
    for box in first:
        while start < len(second) and second[start][0].left < box.right:
            here.append(second[start])
            start += 1
        # No later box overlaps those that end before this one.
        here = [pair for pair in here if pair[0].right > box.left]
        for other, owner in here:
            low = max(box.left, other.left), max(box.bottom, other.bottom)
            part = Box(*low, min(box.right, other.right), min(box.top, other.top))
            if part.width > 0 and part.height > 0:
                yield part, owner
