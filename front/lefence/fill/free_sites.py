"""The free sites of each team's rows: inside its fence or outside all fences, without obstacles and placed cells.

It asks the program for the frame and the cells, and has no rules of legality: the program checks what is put there.
"""

from __future__ import annotations

from array import array
from bisect import bisect_left, bisect_right
from collections import defaultdict
from collections.abc import Iterator
from typing import NamedTuple

from ..base.description import Box, Frame, Row
from ..base.protocol import GROUND

Span = tuple[int, int]


class FreeSpan(NamedTuple):
    """Free sites of a row, one next to the other: the left edge of the first, and their number."""

    team: str
    row: Row
    left: int
    sites: int


class FreeSites:
    """What is taken of the rows of a frame."""

    def __init__(self, frame: Frame, keeps_soft_free: bool = False) -> None:
        """Starts with the obstacles of a frame, and with its soft blockages if they are to stay free."""
        self._frame = frame
        self._width = frame.facts.site_width
        self._rows = sorted(frame.rows, key=lambda row: (row.box.bottom, row.box.left))
        self._bottoms = [row.box.bottom for row in self._rows]
        self._height = frame.facts.site_height
        # The left and right edges of what is taken, by rows.
        self._taken = [array("q") for _ in self._rows]
        for obstacle in frame.obstacles:
            self.take(obstacle.box)
        for box in frame.soft if keeps_soft_free else ():
            self.take(box)

    def take(self, box: Box) -> None:
        """Marks the points of a box as taken, in all rows that it overlaps."""
        for at in self._rows_across(box):
            taken = self._taken[at]
            taken.append(box.left)
            taken.append(box.right)

    def _rows_across(self, box: Box) -> range:
        """The positions of the rows that a box overlaps along y. Core rows have one height."""
        first = bisect_right(self._bottoms, box.bottom - self._height)
        return range(first, bisect_left(self._bottoms, box.top)) if box.width > 0 and box.height > 0 else range(0)

    def spans(self) -> Iterator[FreeSpan]:
        """Yields the free spans of sites, row by row; in a row by teams, then from left to right."""
        fences = self._fences_by_rows()
        for at, row in enumerate(self._rows):
            edges = self._taken[at]
            taken = _joined(sorted(zip(edges[::2], edges[1::2])))
            for team, ground in self._grounds_of(row, fences[at]):
                for left, right in _minus(ground, taken):
                    first = row.box.left + -((row.box.left - left) // self._width) * self._width
                    if (sites := (right - first) // self._width) > 0:
                        yield FreeSpan(team, row, first, sites)

    def _fences_by_rows(self) -> list[dict[str, list[Box]]]:
        """The rectangles of fences that each row overlaps along y, by the fences' names."""
        found: list[defaultdict[str, list[Box]]] = [defaultdict(list) for _ in self._rows]
        for fence in self._frame.fences:
            for rect in fence.rects:
                for at in self._rows_across(rect):
                    found[at][fence.name].append(rect)
        return [dict(each) for each in found]

    def _grounds_of(self, row: Row, fences: dict[str, list[Box]]) -> Iterator[tuple[str, list[Span]]]:
        """Yields the teams with ground in a row, each with the spans that are wholly its ground."""
        whole = [(row.box.left, row.box.right)]
        for name, rects in fences.items():
            yield name, _common(whole, _covered(row.box, rects))
        edges = sorted((rect.left, rect.right) for rects in fences.values() for rect in rects)
        yield GROUND, _minus(whole, _joined(edges))


def _covered(row: Box, rects: list[Box]) -> list[Span]:
    """The spans of x in which rectangles cover the whole height of a row."""
    inner = {edge for rect in rects for edge in (rect.bottom, rect.top) if row.bottom < edge < row.top}
    edges = sorted({row.bottom, row.top} | inner)
    found: list[Span] = [(row.left, row.right)]
    for low, high in zip(edges, edges[1:]):
        spans = sorted((rect.left, rect.right) for rect in rects if rect.bottom <= low and high <= rect.top)
        found = _common(found, _joined(spans))
    return found


def _joined(spans: list[Span]) -> list[Span]:
    """The union of sorted spans."""
    found: list[Span] = []
    for left, right in spans:
        if found and left <= found[-1][1]:
            found[-1] = found[-1][0], max(right, found[-1][1])
        else:
            found.append((left, right))
    return found


def _common(first: list[Span], second: list[Span]) -> list[Span]:
    """What two lists of disjoint, sorted spans have in common."""
    found, at = [], 0
    for left, right in first:
        while at < len(second) and second[at][1] <= left:
            at += 1
        here = at
        while here < len(second) and second[here][0] < right:
            found.append((max(left, second[here][0]), min(right, second[here][1])))
            here += 1
    return found


def _minus(spans: list[Span], taken: list[Span]) -> list[Span]:
    """What disjoint, sorted spans leave of others."""
    found, at = [], 0
    for left, right in spans:
        start = left
        while at < len(taken) and taken[at][0] < right:
            if taken[at][0] > start:
                found.append((start, taken[at][0]))
            start = max(start, taken[at][1])
            at += 1
        if start < right:
            found.append((start, right))
        # (the last one may reach into the next span)
        at = max(0, at - 1)
    return found
