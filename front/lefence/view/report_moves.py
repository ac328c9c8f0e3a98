"""The part of a report about an earlier placement: statistics, displacements, farthest cells, arrows, old places."""

from __future__ import annotations

from collections.abc import Iterable, Iterator
from dataclasses import dataclass, field
from pathlib import Path
from urllib.parse import quote

from ..base.description import Cell, Description
from ..base.wording import number
from .displacement import BINS, Summary, Team, notes_of, summary_of
from .drawing import Move, by_length, text_of
from .picture import Moves

# The most farthest cells listed.
MOST_LISTED = 50


@dataclass
class PlacementDiff:
    """The differences to an earlier placement in a file; the longest moves, and the number of all moves.

    `early` has the cells of the earlier placement by name; none if they are too many to be drawn one by one.
    """

    summary: Summary
    moves: list[Move]
    moved: int
    file: Path
    early: dict[str, Cell] = field(default_factory=dict)

    @property
    def row_height(self) -> int:
        return self.summary.frame.facts.site_height


def placement_diff(
    file: Path, early: Description, late: Description, cells: Iterable[Cell], limit: int
) -> PlacementDiff:
    """Compares the cells of a design, read once, with those of an earlier placement; keeps up to `limit` of these."""
    moves = Moves()
    kept: dict[str, Cell] = {}

    def taken(cells: Iterable[Cell], is_after: bool) -> Iterator[Cell]:
        for number_of_cell, cell in enumerate(cells):
            moves.take(cell, is_after)
            if not is_after and number_of_cell < limit:
                kept[cell.name] = cell
            elif not is_after:
                kept.clear()
            yield cell

    summary = summary_of(taken(early.cells(), False), taken(cells, True), late.frame, MOST_LISTED)
    summary.notes[:0] = notes_of(early.frame, late.frame)
    return PlacementDiff(summary, moves.longest(), moves.count, file, kept)


def data_of(diff: PlacementDiff, drawn: Iterable[Cell]) -> dict[str, object]:
    """The data for the page's script: each arrow's ends, colour number and cell; places of the farthest cells; and the
    old place, if any, and broken rule of each drawn cell that moved or broke another rule.
    """
    arrows: list[list[object]] = []
    colours: list[str] = []
    for _, colour, moves in by_length(diff.moves, diff.row_height):
        for move in moves:
            ends = [
                (box.left + box.right) / 2 if x else (box.bottom + box.top) / 2
                for box in (move.before, move.after)
                for x in (True, False)
            ]
            arrows.append([*ends, len(colours), move.name])
        colours.append(colour)
    cell = [[each.name, *each.before[:2], *each.after[:2]] for each in diff.summary.farthest]
    before = {}
    for after in drawn:
        if (old := diff.early.get(after.name)) is not None and (old.box, old.rule) != (after.box, after.rule):
            box = [old.box.left, old.box.bottom, old.box.width, old.box.height] if old.box else None
            before[after.name] = [box, old.rule]
    return {"arrows": arrows, "ways": colours, "far": cell, "before": before, "file": diff.file.name}


def legend_of(diff: PlacementDiff) -> list[tuple[str, str]]:
    """The colours of the arrows in use, with their lengths."""
    return [(colour, f"moved {label}") for label, colour, moves in by_length(diff.moves, diff.row_height) if moves]


def section_of(diff: PlacementDiff) -> str:
    """The section of the page."""
    summary = diff.summary
    lines = [f"{number(diff.moved, 'cell')} moved, {summary.all.turned:,} only turned, {summary.all.kept:,} stayed."]
    if len(diff.moves) < diff.moved:
        lines.append(f"The {len(diff.moves):,} longest moves have arrows.")
    lines += [f"{number(len(names), 'cell')} only in the design {where}." for names, where in _alone(summary) if names]
    lines += [f"Note: {note}." for note in summary.notes]
    note = "<br>".join(map(text_of, lines))
    top = f'<div class="top"><h2>Since {text_of(diff.file.name)}</h2><p class="faint">{note}</p></div>'
    tables = f'<div class="scroll" style="max-height: 34rem">{_teams(summary)}</div>'
    if summary.all.moved or summary.all.turned:
        tables += f'<div class="top"><h2>Displacements</h2></div>{_histogram(summary)}'
    if summary.farthest:
        tables += '<div class="top"><h2>Moved farthest</h2></div>'
        tables += f'<div class="scroll" style="max-height: 34rem">{_farthest(summary)}</div>'
    return f'<section class="card">\n{top}\n{tables}\n</section>'


def _alone(summary: Summary) -> tuple[tuple[list[str], str], tuple[list[str], str]]:
    return (summary.only_before, "before"), (summary.only_after, "after")


def _teams(summary: Summary) -> str:
    """A row for each team, with a link to its fence."""
    heads = (
        "Moved",
        "Turned",
        "Newly placed",
        "Newly unplaced",
        "Mean distance, µm",
        "Largest, µm",
        "Illegal",
        "Unplaced",
    )
    return _table(["Team", *heads], (_team(team, summary) for team in summary.teams), 1)


def _team(team: Team, summary: Summary) -> tuple[str, list[str]]:
    units = summary.frame.facts.units
    distances = [f"{length / units:,.2f}" for length in (team.mean, team.largest)] if team.moves else ["–", "–"]
    states = [f"{before:,} → {after:,}" for before, after in _states(team)]
    counts = [f"{count:,}" for count in (team.moved, team.turned, team.placed, team.unplaced)]
    return _anchor_of("t", team.name), [_link("t", team.name), *counts, *distances, *states]


def _states(team: Team) -> tuple[tuple[int, int], tuple[int, int]]:
    return (team.illegal_before, team.illegal_after), (team.placeless_before, team.placeless_after)


def _histogram(summary: Summary) -> str:
    """A bar for each range of displacements, with the number of its cells."""
    counts = summary.all.histogram(summary.frame.facts.site_height)
    names = ["stay", *(f"up to {end}" for end in BINS[1:]), f"over {BINS[-1]}"]
    most, cells = max(*counts, 1), max(sum(counts), 1)
    lines = (
        f'<tr><td>{name}</td><td class="number">{count:,}</td><td class="number">{count / cells:.1%}</td>'
        f'<td class="long"><i style="width:{count / most:.1%};min-width:{min(count, 1)}px"></i></td></tr>\n'
        for name, count in zip(names, counts)
    )
    head = '<tr><th>In rows</th><th class="number">Cells</th><th class="number">Share</th><th></th></tr>'
    return f'<table class="histogram"><thead>{head}</thead><tbody>\n{"".join(lines)}</tbody></table>'


def _farthest(summary: Summary) -> str:
    """A row for each farthest cell, with a link to its arrow."""
    facts = summary.frame.facts
    lines = []
    for cell in summary.farthest:
        places = [
            f"{place.x / facts.units:,.10g}, {place.y / facts.units:,.10g}" for place in (cell.before, cell.after)
        ]
        distances = [f"{cell.distance / facts.units:,.2f}", f"{cell.distance / facts.site_height:,.1f}"]
        lines.append((_anchor_of("m", cell.name), [_link("m", cell.name), text_of(cell.team), *places, *distances]))
    return _table(["Cell", "Team", "From (µm)", "To (µm)", "Distance, µm", "In rows"], lines, 2)


def _anchor_of(kind: str, name: str) -> str:
    """The part after `#` in the page's address for a team or a cell."""
    return text_of(f"{kind}=" + quote(name, safe="", errors="replace"))


def _link(kind: str, name: str) -> str:
    return f'<a class="name" href="#{_anchor_of(kind, name)}">{text_of(name)}</a>'


def _table(head: list[str], lines: Iterable[tuple[str, list[str]]], words: int) -> str:
    """A table whose rows link to places. The first `words` columns are text, the others numbers."""

    def row(fields: list[str], kind: str) -> str:
        first = "".join(f"<{kind}>{field}</{kind}>" for field in fields[:words])
        return first + "".join(f'<{kind} class="number">{field}</{kind}>' for field in fields[words:])

    body = "".join(f'<tr data-go="{anchor}">{row(fields, "td")}</tr>\n' for anchor, fields in lines)
    return f"<table><thead><tr>{row(head, 'th')}</tr></thead><tbody>\n{body}</tbody></table>"
