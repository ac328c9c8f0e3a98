"""The counts and violations of a design as text for a terminal, and as an object for scripts."""

from __future__ import annotations

from collections.abc import Sequence

from ..base.columns import columns
from ..base.description import Cell, Facts
from ..base.protocol import RULES
from ..base.wording import number
from .nearest import Spot
from .tally import Tally, TeamTally

# The columns of texts, which are aligned to the left: in the table of teams, and in that of violations.
_TEAM_TEXTS, _CELL_TEXTS = (0, 5), (0, 1, 2, 3, 4)


def head_of(tally: Tally) -> str:
    """Returns the first line: the design, its size, and whether it is fully legal."""
    facts, total = tally.frame.facts, tally.all
    teams = number(len(tally.teams), "team")
    rows = f"{number(len(tally.frame.rows), 'row')} of {facts.site_height / facts.units:g} microns"
    legal = "legal" if tally.is_legal else "NOT LEGAL"
    return f"{facts.name}: {number(total.cells, 'cell')} in {teams}, {rows}: {legal}"


def team_lines(tally: Tally) -> list[str]:
    """Returns the lines of the table of teams. The last one is of all teams, if there is more than one."""
    teams = [*tally.teams.values()]
    rows = [_team_row(team) for team in (teams if len(teams) == 1 else [*teams, tally.all])]
    return columns(["team", "cells", "utilization", "unplaced", "illegal", "by rule"], rows, _TEAM_TEXTS)


def _team_row(team: TeamTally) -> list[str]:
    used = "-" if team.utilization is None else f"{team.utilization:.1%}"
    rules = ", ".join(f"{_rule(rule)} {count}" for rule, count in sorted(team.rules.items()))
    return [team.name, str(team.cells), used, str(team.unplaced), str(team.illegal), rules]


def _rule(rule: int) -> str:
    return f"{rule} {RULES.get(rule, '')}".rstrip()


def violation_lines(tally: Tally, places: Sequence[Spot | None]) -> list[str]:
    """Returns the lines of the first violations, each with the cell's nearest legal place, and of the first cells
    without a place.
    """
    facts, total = tally.frame.facts, tally.all
    lines = []
    if tally.violations:
        rows = [_cell_row(cell, place, facts) for cell, place in zip(tally.violations, places, strict=True)]
        head = ["cell", "team", "rule", "at (microns)", "nearest legal place"]
        lines += columns(head, rows, _CELL_TEXTS)
    if more := total.illegal - len(tally.violations):
        lines.append(f".. and {more} more that break a rule (--most N lists N; lefence-report makes a page)")
    if total.unplaced:
        dots = ", .." if total.unplaced > len(tally.unplaced) else ""
        names = f": {', '.join(tally.unplaced)}{dots}" if tally.unplaced else ""
        lines.append(f"{number(total.unplaced, 'cell')} without a place{names}")
    return lines


def _cell_row(cell: Cell, place: Spot | None, facts: Facts) -> list[str]:
    assert cell.box is not None and cell.orient is not None and cell.rule is not None
    rule = _rule(cell.rule) + (f" with {cell.other}" if cell.other else "")
    at = Spot(cell.box.left, cell.box.bottom, cell.orient)
    if place is None:
        nearest = "none: lefence-repair moves other cells too"
    else:
        distance = _distance(at, place)
        nearest = f"{_spot_text(place, facts)}, " + (f"{distance / facts.units:g} away" if distance else "turned")
    return [cell.name, cell.team, rule, _spot_text(at, facts), nearest]


def _distance(one: Spot, other: Spot) -> int:
    return abs(one.x - other.x) + abs(one.y - other.y)


def _spot_text(spot: Spot, facts: Facts) -> str:
    return f"{spot.x / facts.units:g} {spot.y / facts.units:g} {spot.orient}"


def object_of(tally: Tally, places: Sequence[Spot | None]) -> dict[str, object]:
    """Returns the counts and the first violations as a JSON object. Its keys are:

    - `design`, `units` (database units per micron), `rows`, `row_height` (microns);
    - `legal`: whether every cell has a place and breaks no rule;
    - `teams`, a list, and `all`: objects as described below;
    - `violations`: the first ones, objects with `cell`, `team`, `rule`, `rule_name`, `other` (for rule 8, else null),
      `at` and `nearest` (x and y in microns, orientation; null if no place is legal), `distance` (microns, or null);
    - `unplaced`: the names of the first cells without a place.

    An object of a team has `name`, `cells`, `utilization` (null without ground), `unplaced`, `illegal`, and `rules`:
    the number of cells by the rule that they break.
    """
    facts = tally.frame.facts
    return {
        "design": facts.name,
        "units": facts.units,
        "rows": len(tally.frame.rows),
        "row_height": facts.site_height / facts.units,
        "legal": tally.is_legal,
        "teams": [team_object(team) for team in tally.teams.values()],
        "all": team_object(tally.all),
        "violations": [_cell_object(cell, place, facts) for cell, place in zip(tally.violations, places, strict=True)],
        "unplaced": tally.unplaced,
    }


def team_object(team: TeamTally) -> dict[str, object]:
    """Returns a team's counts as a JSON object, as `object_of` describes it."""
    return {
        "name": team.name,
        "cells": team.cells,
        "utilization": team.utilization,
        "unplaced": team.unplaced,
        "illegal": team.illegal,
        "rules": {str(rule): count for rule, count in sorted(team.rules.items())},
    }


def _cell_object(cell: Cell, place: Spot | None, facts: Facts) -> dict[str, object]:
    assert cell.box is not None and cell.orient is not None and cell.rule is not None
    at = Spot(cell.box.left, cell.box.bottom, cell.orient)
    return {
        "cell": cell.name,
        "team": cell.team,
        "rule": cell.rule,
        "rule_name": RULES.get(cell.rule),
        "other": cell.other,
        "at": _spot_object(at, facts),
        "nearest": None if place is None else _spot_object(place, facts),
        "distance": None if place is None else _distance(at, place) / facts.units,
    }


def _spot_object(spot: Spot, facts: Facts) -> list[float | str]:
    return [spot.x / facts.units, spot.y / facts.units, spot.orient]
