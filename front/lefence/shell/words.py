"""Results of verbs and lists of cells in words."""

from __future__ import annotations

import re
from collections.abc import Sequence

from ..base.columns import columns
from ..base.protocol import RULES
from ..base.wording import number
from ..client.cells import Cell
from ..client.refusals import NoCell, Unplaced, violation_text
from ..client.verbs import Legalized, Place, Report, Tidied, Violation
from .lengths import LengthUnit, distance_of

# The most violations and the most cells that are listed.
MOST_VIOLATIONS, MOST_CELLS = 20, 200


def result_lines(verb: str, fields: list[str], result: object, unit: LengthUnit) -> list[str]:
    """Formats the result of an accepted verb; a report needs `report_lines`."""
    if isinstance(result, bytes):
        return result.decode("ascii", "backslashreplace").splitlines()
    if isinstance(result, Place):
        return [f"{fields[0]} {'is' if verb == 'where' else 'would best be'} at {unit.sentence(result)}"]
    if isinstance(result, Legalized):
        return [f"{fields[0]} is now at {unit.sentence(result.place)}; revision {result.revision}"]
    if isinstance(result, Tidied):
        return [f"{result.moved} cells moved; revision {result.revision}"]
    done = "synced" if verb == "sync" else "done"
    return [done if result is None else f"{done}; revision {result}"]


def report_lines(
    report: Report, places: Sequence[Place | None], nearest: Sequence[Place | None], unit: LengthUnit
) -> list[str]:
    """Formats a report. The first violations have their places and the nearest legal ones, or None."""
    broken = len(report.violations)
    lines = [f"{report.cells} cells, {report.unplaced} unplaced, {broken} break a rule"]
    if places:
        rows = [_violation_row(*row, unit) for row in zip(report.violations, places, nearest)]
        lines += columns(["cell", f"at ({unit.name})", "nearest legal place", "rule"], rows, range(4))
    if broken > len(places):
        lines.append(f"and {broken - len(places)} more")
    return lines


def _violation_row(violation: Violation, place: Place | None, nearest: Place | None, unit: LengthUnit) -> list[str]:
    words = violation_text(violation.rule, "", violation.other, is_there=True, is_padded=True).strip()
    at, legal = "-", "none"
    if place is not None:
        at = unit.place_text(place)
        if nearest is not None:
            legal = f"{unit.place_text(nearest)}, {unit.distance_text(place, nearest)}"
    return [violation.cell, at, legal, f"{violation.rule} {RULES.get(violation.rule, '')}: {words}"]


def cell_lines(cells: Sequence[Cell], pattern: str | None, unit: LengthUnit) -> list[str]:
    """Lists the cells whose names match a pattern, or all."""
    found = [cell for cell in cells if pattern is None or matches(cell.name, pattern)]
    unplaced = sum(cell.place is None for cell in found)
    which = "" if pattern is None else f" of {len(cells)}"
    lines = [f"{len(found)}{which} cells, {unplaced} unplaced"]
    if found:
        rows = [[cell.name, cell.macro, _place_or_none(cell.place, unit)] for cell in found[:MOST_CELLS]]
        lines += columns(["cell", "macro", f"place ({unit.name})"], rows, range(3))
    if len(found) > MOST_CELLS:
        lines.append(f"and {len(found) - MOST_CELLS} more; `cells PATTERN` lists some")
    return lines


def _place_or_none(place: Place | None, unit: LengthUnit) -> str:
    return "unplaced" if place is None else unit.place_text(place)


def matches(name: str, pattern: str) -> bool:
    """Whether a name matches a pattern, in which * is any text and ? any one sign. All other signs are themselves: the
    names of bits have brackets.
    """
    signs = {"*": ".*", "?": "."}
    return bool(re.fullmatch("".join(signs.get(sign) or re.escape(sign) for sign in pattern), name))


def near_lines(cells: Sequence[Cell], name: str, most: int, unit: LengthUnit) -> list[str]:
    """Lists the placed cells nearest to a cell. Raises NoCell if the team has no such cell, Unplaced if it has no
    place.
    """
    middle = next((cell for cell in cells if cell.name == name), None)
    if middle is None:
        raise NoCell()
    if middle.place is None:
        raise Unplaced([name])
    # (the cell itself comes first)
    found = sorted(
        (0 if cell is middle else 1, distance_of(middle.place, cell.place), at, cell)
        for at, cell in enumerate(cells)
        if cell.place is not None
    )
    others = [(distance, cell) for _, distance, _, cell in found[1 : most + 1]]
    lines = [f"{name} is at {unit.sentence(middle.place)}; {number(len(found) - 1, 'other cell')} with a place"]
    if others:
        rows = [
            [cell.name, cell.macro, _place_or_none(cell.place, unit), unit.text(distance)] for distance, cell in others
        ]
        lines += columns(["cell", "macro", f"place ({unit.name})", "distance"], rows, range(3))
    return lines
