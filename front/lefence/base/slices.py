"""Slices: DEF texts with the frame of a design and the cells of some of its teams.

On one, the program answers the commands of these teams as on the whole design, byte for byte: its replies to a team
depend only on the frame and on that team's cells and commands.
"""

from __future__ import annotations

from array import array
from collections.abc import Collection, Iterator

from .design import Design, Entry, Statement, section_parts

# Sections whose entries a slice has only for its teams.
_SLICED = (b"COMPONENTS", b"GROUPS")
# Sections about components or nets that a slice lacks; they do not affect legality.
_DROPPED = frozenset(b"PINS PINPROPERTIES SLOTS FILLS SPECIALNETS NETS SCANCHAINS BEGINEXT".split())


def slices_of(design: Design, groups: list[Collection[bytes]]) -> Iterator[Iterator[bytes]]:
    """Yields a slice for each group of teams of a design, in pieces, after one pass over it. No team is in two groups.

    The rows, regions, blockages, FIXED and COVER components and the small statements stay byte for byte.
    """
    sections = {
        statement.start: _Entries(design, statement, groups)
        for statement in design.statements
        if statement.keyword in _SLICED
    }
    for number in range(len(groups)):
        yield _pieces(design, number, sections)


def _pieces(design: Design, number: int, sections: dict[int, _Entries]) -> Iterator[bytes]:
    for statement in design.statements:
        if statement.keyword in _SLICED:
            yield from sections[statement.start].of(number)
        elif statement.keyword not in _DROPPED:
            yield design.text[statement.start : statement.stop]
    yield b"\n"


class _Entries:
    """The places of the entries of COMPONENTS or GROUPS by slice; neighbours are merged.

    A component of no team is in all slices; a group of no team is in none.
    """

    def __init__(self, design: Design, section: Statement, groups: list[Collection[bytes]]) -> None:
        self._text, self._keyword = design.text, section.keyword
        self._head, self._tail, entries = section_parts(design.text, section)
        # Starts and ends of entries alternating, and the number of entries, of each slice.
        self._spans = [array("Q") for _ in groups]
        self._counts = [0] * len(groups)
        numbers = {team: number for number, teams in enumerate(groups) for team in teams}
        is_groups = section.keyword == b"GROUPS"
        for entry in entries:
            team = design.fence_of(entry) if is_groups else design.team_of(entry)
            if team in numbers:
                self._take(numbers[team], entry)
            elif team is None and not is_groups:
                for number in range(len(groups)):
                    self._take(number, entry)

    def _take(self, number: int, entry: Entry) -> None:
        spans, stop = self._spans[number], entry.start + len(entry.text)
        self._counts[number] += 1
        if spans and spans[-1] == entry.start:
            spans[-1] = stop
        else:
            spans.extend((entry.start, stop))

    def of(self, number: int) -> Iterator[bytes]:
        """Yields the section with a slice's entries and their count, in pieces."""
        yield self._head + b"%d" % self._counts[number] + self._tail
        spans = self._spans[number]
        for start, stop in zip(spans[::2], spans[1::2]):
            yield self._text[start:stop]
        yield b"\nEND " + self._keyword
