"""A summary of displacements as text for a terminal, and as an object for scripts."""

from __future__ import annotations

from collections.abc import Iterable

from ..base.wording import number
from .displacement import BINS, FarCell, Summary, Team

# The most cells of one design listed by name, and the length of the longest bar.
_NAMED, _BAR = 10, 40


def object_of(summary: Summary) -> dict[str, object]:
    """Returns the summary as a JSON object, with lengths in microns. Its keys are:

    - `design`, `units`, `row_height`;
    - `bins`, in rows;
    - `teams`, a list, and `all`: objects as described below;
    - `only_before` and `only_after`: lists of names;
    - `farthest`: objects with `name`, `team`, `before` and `after` (x, y, orientation), `displacement` and
      `displacement_rows`;
    - `wire_length` with `before`, `after` and the number of `nets`: null without nets;
    - `notes`.

    An object of a team has
    - counts of cells: `cells`, `moved`, `turned`, `kept`, `newly_placed`, `newly_unplaced`, `only_before`,
      `only_after`;
    - `displacement` and `displacement_rows`, each with `total`, `mean`, `median`, `largest`;
    - `histogram`: cells that moved up to each of the `bins`, and farther;
    - `violations` and `unplaced`, each with `before`, `after`;
    - `utilization`: null without ground.
    """
    facts = summary.frame.facts
    return {
        "design": facts.name,
        "units": facts.units,
        "row_height": facts.site_height / facts.units,
        "bins": list(BINS),
        "teams": [_team_object(summary, team) for team in summary.teams],
        "all": _team_object(summary, summary.all),
        "only_before": summary.only_before,
        "only_after": summary.only_after,
        "farthest": [_far_object(summary, cell) for cell in summary.farthest],
        "wire_length": _wires_object(summary),
        "notes": summary.notes,
    }


def _wires_object(summary: Summary) -> dict[str, object] | None:
    if summary.wires is None:
        return None
    before, after = summary.wires.microns(summary.frame.facts.units)
    return {"before": before, "after": after, "nets": summary.wires.nets}


def _far_object(summary: Summary, cell: FarCell) -> dict[str, object]:
    facts = summary.frame.facts
    before, after = (
        [place.x / facts.units, place.y / facts.units, place.orient] for place in (cell.before, cell.after)
    )
    lengths = {"displacement": cell.distance / facts.units, "displacement_rows": cell.distance / facts.site_height}
    return {"name": cell.name, "team": cell.team, "before": before, "after": after, **lengths}


def _team_object(summary: Summary, team: Team) -> dict[str, object]:
    facts = summary.frame.facts
    lengths = {"total": sum(team.moves), "mean": team.mean, "median": team.median, "largest": team.largest}
    return {
        "name": team.name,
        "cells": team.cells,
        "moved": team.moved,
        "turned": team.turned,
        "kept": team.kept,
        "newly_placed": team.placed,
        "newly_unplaced": team.unplaced,
        "only_before": team.lost,
        "only_after": team.added,
        "displacement": {name: length / facts.units for name, length in lengths.items()},
        "displacement_rows": {name: length / facts.site_height for name, length in lengths.items()},
        "histogram": team.histogram(facts.site_height),
        "violations": {"before": team.illegal_before, "after": team.illegal_after},
        "unplaced": {"before": team.placeless_before, "after": team.placeless_after},
        "utilization": team.utilization,
    }


def text_of(summary: Summary) -> str:
    """Formats the summary as tables for a terminal, with a line feed at its end."""
    facts = summary.frame.facts
    height = facts.site_height
    teams = [*summary.teams, summary.all] if len(summary.teams) > 1 else summary.teams
    parts = [
        f"{facts.name}: {summary.all.cells} cells, rows of {height / facts.units:g} microns",
        _table(["team", "cells", "moved", "turned", "newly placed", "newly unplaced"], map(_counts, teams)),
        _table(["team", "violations", "unplaced", "ground taken"], map(_states, teams)),
        _table(
            ["displacement", "mean", "median", "largest", "total", "in rows:  mean", "median", "largest"],
            (_displacements(team, facts.units, height) for team in teams),
        ),
        _bars(summary.all.histogram(height)),
    ]
    if summary.wires:
        parts.append(f"wire length of {number(summary.wires.nets, 'net')}: {summary.wires.text(facts.units)}")
    if summary.farthest:
        parts.append(
            _table(
                ["farthest", "team", "from", "to", "distance", "in rows"],
                (_far_row(cell, facts.units, height) for cell in summary.farthest),
            )
        )
    parts += _alone(summary.only_before, "before") + _alone(summary.only_after, "after")
    # Other differences come first, since they may mean that these are two different designs.
    parts[1:1] = [f"note: {note}" for note in summary.notes]
    return "\n\n".join(parts) + "\n"


def _counts(team: Team) -> list[str]:
    return [team.name, *map(str, (team.cells, team.moved, team.turned, team.placed, team.unplaced))]


def _states(team: Team) -> list[str]:
    used = "-" if team.utilization is None else f"{team.utilization:.1%}"
    violations = f"{team.illegal_before} -> {team.illegal_after}"
    return [team.name, violations, f"{team.placeless_before} -> {team.placeless_after}", used]


def _displacements(team: Team, units: int, row_height: int) -> list[str]:
    if not team.moves:
        return [team.name, *("-" for _ in range(7))]
    three = (team.mean, team.median, team.largest)
    microns = [f"{length / units:.3f}" for length in (*three, sum(team.moves))]
    return [team.name, *microns, *(f"{length / row_height:.2f}" for length in three)]


def _far_row(cell: FarCell, units: int, row_height: int) -> list[str]:
    places = (f"{place.x / units:g} {place.y / units:g} {place.orient}" for place in (cell.before, cell.after))
    return [cell.name, cell.team, *places, f"{cell.distance / units:.3f}", f"{cell.distance / row_height:.2f}"]


def _table(head: list[str], rows: Iterable[list[str]]) -> str:
    """Formats columns two spaces apart: the first aligned to the left, the others to the right."""
    lines = [head, *rows]
    widths = [max(map(len, column)) for column in zip(*lines)]
    return "\n".join(
        "  ".join([first.ljust(widths[0]), *map(str.rjust, others, widths[1:])]) for first, *others in lines
    )


def _bars(counts: list[int]) -> str:
    names = ["stay", *(f"up to {end}" for end in BINS[1:]), f"over {BINS[-1]}"]
    most, digits = max(max(counts), 1), len(str(max(counts)))
    lines = []
    for name, count in zip(names, counts):
        # A bin with any cell has a mark.
        bar = "#" * -(-count * _BAR // most)
        lines.append(f"{name:<9}  {count:>{digits}}  {bar}".rstrip())
    return "\n".join(["cells by displacement, in rows", *lines])


def _alone(names: list[str], where: str) -> list[str]:
    if not names:
        return []
    more = ", .." if len(names) > _NAMED else ""
    return [f"cells only in the design {where}: {len(names)} ({', '.join(names[:_NAMED])}{more})"]
