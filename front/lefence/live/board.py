"""The state that all pages see. Each change of it is an event, whose size is that of what has changed."""

from __future__ import annotations

import threading
from collections import Counter, deque
from collections.abc import Iterable, Iterator
from dataclasses import dataclass, field
from typing import Any

from ..base.description import Box, Cell, Frame
from .cells import NOWHERE, CODES, UNPLACED, CellTable, Place
from ..base.protocol import ORIENTS
from .events import EventLog

# The most cells of an event. If more have changed, pages read all cells again. And the changes that a new page lists.
MOST, _RECENT = 20_000, 100


@dataclass
class TeamFacts:
    """What is known of a team besides its cells: its revision, and why its socket does not answer, if it does not.

    `uncommitted` has the numbers of the cells whose working place is not their committed one.
    """

    revision: int | None = None
    trouble: str | None = None
    unplaced: int = 0
    uncommitted: set[int] = field(default_factory=set)
    broken: Counter[int] = field(default_factory=Counter)


class Board:
    """The frame, the cells and the facts of the teams, for threads that change them and threads that read them."""

    def __init__(self, frame: Frame, table: CellTable) -> None:
        self.frame = frame
        self.table = table
        self.events = EventLog()
        self.facts = [TeamFacts() for _ in frame.teams]
        # The last changes, each with its team and the number of cells that it moved.
        self.recent: deque[tuple[int, dict[str, Any], int]] = deque(maxlen=_RECENT)
        self._lock = threading.RLock()
        for facts, numbers in zip(self.facts, table.ranges):
            facts.unplaced = table.working.orient.count(UNPLACED, numbers.start, numbers.stop)
            facts.broken = Counter(rule for rule in table.rules[numbers.start : numbers.stop] if rule)

    def number_of(self, team: int, name: str) -> int:
        """The number of a team's cell. Raises LookupError if it has none of this name."""
        return self.table.numbers[team][name.encode()]

    def packed(self) -> bytes:
        """The table, the facts of the teams and the last changes as bytes, with the number of the last event before."""
        with self._lock:
            facts = [self.facts_of(team) for team in range(len(self.facts))]
            return self.table.packed({"sequence": self.events.sequence, "facts": facts, "recent": [*self.recent]})

    def facts_of(self, team: int) -> dict[str, Any]:
        """What pages show of a team."""
        facts = self.facts[team]
        return {
            "kind": "team",
            "team": team,
            "revision": facts.revision,
            "trouble": facts.trouble,
            "unplaced": facts.unplaced,
            "uncommitted": len(facts.uncommitted),
            "broken": dict(facts.broken),
        }

    def set_team(self, team: int, revision: int | None, trouble: str | None = None) -> None:
        """Sets a team's revision, or why its socket does not answer."""
        with self._lock:
            facts = self.facts[team]
            if (facts.revision, facts.trouble) != (revision, trouble):
                facts.revision, facts.trouble = revision, trouble
                self.events.add(self.facts_of(team))

    def move(self, team: int, places: Iterable[tuple[int, Place]], change: dict[str, Any] | None = None) -> None:
        """Sets the working places of a team's cells. `change` says by which line, for the list of changes."""
        with self._lock:
            moved = []
            facts, working, committed = self.facts[team], self.table.working, self.table.committed
            for number, place in places:
                before = working[number]
                if before == place:
                    continue
                working[number] = place
                facts.unplaced += (place.orient == UNPLACED) - (before.orient == UNPLACED)
                (facts.uncommitted.discard if committed[number] == place else facts.uncommitted.add)(number)
                moved.append([number, *place])
            self._add_moves(team, moved, change)

    def _add_moves(self, team: int, moved: list[list[int]], change: dict[str, Any] | None) -> None:
        facts = self.facts[team]
        if change is not None:
            facts.revision = change["revision"]
            self.recent.append((team, change, len(moved)))
        event = {**self.facts_of(team), "kind": "moved", "moved": moved[:MOST], "count": len(moved), "change": change}
        if moved or change:
            self.events.add(event)
        if len(moved) > MOST:
            self.events.add({"kind": "again"})

    def commit(self, team: int, change: dict[str, Any] | None) -> None:
        """Makes the working places of a team the committed ones."""
        with self._lock:
            facts, table = self.facts[team], self.table
            for number in facts.uncommitted:
                table.committed[number] = table.working[number]
            facts.uncommitted.clear()
            if change is not None:
                facts.revision = change["revision"]
                self.recent.append((team, change, 0))
            self.events.add({**self.facts_of(team), "kind": "committed", "change": change})

    def revert(self, team: int, change: dict[str, Any]) -> None:
        """Makes the committed places of a team the working ones."""
        with self._lock:
            committed = self.table.committed
            places = [(number, committed[number]) for number in sorted(self.facts[team].uncommitted)]
            self.move(team, places, change)

    def set_committed(self, team: int, places: dict[int, Place]) -> None:
        """Sets the committed places of these cells; all others of the team are at their committed places."""
        with self._lock:
            facts, table, changed = self.facts[team], self.table, []
            for number in table.ranges[team]:
                place = places.get(number, table.working[number])
                if table.committed[number] != place:
                    table.committed[number] = place
                    changed.append([number, *place])
            facts.uncommitted = {number for number, place in places.items() if table.working[number] != place}
            if len(changed) > MOST:
                self.events.add({"kind": "again"})
            elif changed:
                self.events.add({**self.facts_of(team), "kind": "base", "places": changed})

    def set_broken(self, team: int, verdicts: dict[int, tuple[int, int | None]]) -> None:
        """Sets the cells of a team that break a rule: the rule and the other cell of each."""
        with self._lock:
            facts, table = self.facts[team], self.table
            numbers = table.ranges[team]
            cured = [number for number in table.others if number in numbers and number not in verdicts]
            changed: list[list[int | None]] = []
            for number in cured:
                table.rules[number] = 0
                del table.others[number]
                changed.append([number, 0, None])
            for number, (rule, other) in verdicts.items():
                if (table.rules[number], table.others.get(number)) != (rule, other):
                    table.rules[number], table.others[number] = rule, other
                    changed.append([number, rule, other])
            facts.broken = Counter(rule for rule, _ in verdicts.values())
            if changed:
                self.events.add({**self.facts_of(team), "kind": "broken", "cells": changed[:MOST]})
            if len(changed) > MOST:
                self.events.add({"kind": "again"})

    def cells(self) -> Iterator[Cell]:
        """Yields all cells at their working places."""
        table = self.table
        for team, numbers in zip(self.frame.teams, table.ranges):
            for number in numbers:
                macro, (x, y, orient) = table.macros[table.macro[number]], table.working[number]
                width, height = table.size_of(number, orient)
                box = None if orient == UNPLACED else Box(x, y, x + width, y + height)
                rule, other = table.rules[number] or None, table.others.get(number)
                names = table.names[number].decode(), None if other is None else table.names[other].decode()
                turned = None if orient == UNPLACED else ORIENTS[orient]
                yield Cell(names[0], team, macro.name, macro.width, macro.height, box, turned, rule, names[1])


def place_of(words: list[str]) -> Place:
    """Reads a place in the words `X Y O`."""
    return Place(int(words[0]), int(words[1]), CODES[words[2]])


def place_or_none(words: list[Any] | None) -> Place:
    """Reads a place of JSON, `[X, Y, O]` or null."""
    return NOWHERE if words is None else place_of(words)
