"""State texts, line by line: the teams of a floor and their cells' places (docs/CLI.md, "State texts")."""

from __future__ import annotations

from collections import deque
from collections.abc import Collection, Iterable, Iterator
from itertools import islice
from typing import NamedTuple

from .faults import REFUSED, Fault

_TITLE = b"lefence-state 1\n"
# The cells of a piece of a text.
_AT_ONCE = 4096
# The place of an unplaced cell.
UNPLACED = b"-"


class SavedTeam(NamedTuple):
    """The head of a team: its name, its revision, its padding in core sites, and its number of session slots."""

    name: bytes
    revision: int
    padding: int
    slots: int


class SavedCell(NamedTuple):
    """A cell and its two places, each `X,Y,O` or `-`."""

    name: bytes
    working: bytes
    committed: bytes


def teams_in(lines: Iterable[bytes]) -> Iterator[tuple[SavedTeam, Iterator[SavedCell]]]:
    """Yields the teams of a state text, each with its cells, which must be read before the next team.

    Raises a Fault if the text has another form. The program checks more: whether it is of a design.
    """
    rest = iter(lines)
    if next(rest, b"") != _TITLE:
        raise Fault(REFUSED, "not a state text of lefence, or one of another version")
    for _ in range(_numbers(rest, b"teams", 1)[1][0]):
        words, (revision, padding, slots, cells, entries) = _numbers(rest, b"team", 5)
        if len(list(islice(rest, slots))) < slots:
            raise Fault(REFUSED, "the state text is truncated")
        yield SavedTeam(words[1], revision, padding, slots), _cells(rest, cells)
        for _ in range(entries):
            moves = _numbers(rest, b"undo", 1)[1][0]
            next(islice(rest, moves, moves), None)


def with_slots(lines: Iterable[bytes], slots: int) -> Iterator[bytes]:
    """Yields the lines of a state text with this number of session slots per team.

    Raises a Fault if a session with a greater number is open.
    """
    rest = iter(lines)
    for line in rest:
        words = line.split()
        # (no other line has as many words)
        if len(words) != 7:
            yield line
            continue
        before = int(words[4])
        sessions = [next(rest, b"") for _ in range(before)]
        if any(session != b"-\n" for session in sessions[slots:]):
            raise Fault(REFUSED, f"team {words[1].decode()} has an open session of number {slots} or more")
        yield b" ".join([*words[:4], b"%d" % slots, *words[5:]]) + b"\n"
        yield from (sessions + [b"-\n"] * (slots - before))[:slots]


def part_of(lines: Iterable[bytes], teams: Collection[bytes]) -> Iterator[bytes]:
    """Yields the lines of a state text in which all teams except these have no cells and no undo entries.

    On a slice with the cells of these teams the program restores them from it. Raises a Fault if the text has another
    form.
    """
    rest = iter(lines)
    yield next(rest, b"")
    words, [count] = _numbers(rest, b"teams", 1)
    yield b" ".join(words) + b"\n"
    for _ in range(count):
        words, (_, _, slots, cells, entries) = _numbers(rest, b"team", 5)
        is_kept = words[1] in teams
        yield b" ".join(words if is_kept else [*words[:5], b"0", b"0"]) + b"\n"
        yield from islice(rest, slots)
        yield from _kept(islice(rest, cells), is_kept)
        for _ in range(entries):
            words, [moves] = _numbers(rest, b"undo", 1)
            yield from _kept([b" ".join(words) + b"\n"], is_kept)
            yield from _kept(islice(rest, moves), is_kept)


def _kept(lines: Iterable[bytes], is_kept: bool) -> Iterable[bytes]:
    """Reads all lines; returns them if they are kept."""
    return lines if is_kept else deque(lines, 0)


def _numbers(lines: Iterator[bytes], keyword: bytes, count: int) -> tuple[list[bytes], list[int]]:
    """The words of the next line, and the numbers at its end."""
    words = next(lines, b"").split()
    if words[:1] != [keyword] or len(words) <= count or not all(word.isdigit() for word in words[-count:]):
        raise Fault(REFUSED, f"the state text lacks a line of `{keyword.decode()}`")
    return words, [int(word) for word in words[-count:]]


def _cells(lines: Iterator[bytes], count: int) -> Iterator[SavedCell]:
    for line in islice(lines, count):
        words = line.split()
        if len(words) != 3:
            raise Fault(REFUSED, "the state text lacks a line of a cell")
        yield SavedCell(*words)


def head_of(teams: int) -> bytes:
    """Formats the first lines of a state text with this number of teams."""
    return _TITLE + b"teams %d\n" % teams


def lines_of(team: SavedTeam, cells: list[SavedCell]) -> Iterator[bytes]:
    """Yields the lines of a team without open sessions and without undo entries, many at a time."""
    yield b"team %b %d %d %d %d 0\n" % (team.name, team.revision, team.padding, team.slots, len(cells))
    yield b"-\n" * team.slots
    for start in range(0, len(cells), _AT_ONCE):
        yield b"".join([b"%b %b %b\n" % cell for cell in cells[start : start + _AT_ONCE]])
