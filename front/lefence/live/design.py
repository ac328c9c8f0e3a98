"""What a page shows besides cells: the frame, the teams with their colours, macros, and the words for rules."""

from __future__ import annotations

from pathlib import Path
from typing import Any

from ..base.description import Box, Frame
from ..base.lef import pin_counts_of
from ..base.protocol import ORIENTS, RULES
from ..client.refusals import violation_text
from ..view.drawing import MOVE_COLOURS
from ..view.scene import BROKEN, colour_of, row_blocks
from ..view.team_area import areas_of
from .cells import CellTable

# Signs in the words of a rule for the cell and the other cell. No name has them.
CELL, OTHER = "\x01", "\x02"


def design_of(
    frame: Frame, table: CellTable, pins: dict[str, int], source: str, notes: dict[str, Any]
) -> dict[str, Any]:
    """Returns the parts of a design for the page; `notes` has what else the page must know."""
    facts, box = frame.facts, frame.box
    ground = areas_of(frame)
    teams = []
    for at, (team, numbers) in enumerate(zip(frame.teams, table.ranges)):
        sizes = (table.macros[table.macro[number]] for number in numbers)
        area = sum(macro.width * macro.height for macro in sizes)
        cells: dict[str, Any] = {"start": numbers.start, "stop": numbers.stop, "area": area, "ground": ground[team]}
        teams.append({"name": team, "colour": colour_of(at, team), **cells})
    moves = [[None if most == float("inf") else most, colour] for most, colour in MOVE_COLOURS]
    return {
        "name": facts.name,
        "source": source,
        "units": facts.units,
        "site": [facts.site_width, facts.site_height],
        "box": _sized(box),
        "rows": [_sized(block) for block in row_blocks(frame)],
        "row_count": len(frame.rows),
        "fences": [[_sized(rect) for rect in fence.rects] for fence in frame.fences],
        "obstacles": [[*_sized(obstacle.box), obstacle.name] for obstacle in frame.obstacles],
        "soft": [_sized(each) for each in frame.soft],
        "teams": teams,
        "macros": [[*macro, pins.get(macro.name, 0)] for macro in table.macros],
        "has_pins": any(pins.values()),
        "orients": ORIENTS,
        "rules": {rule: [name, violation_text(rule, CELL, OTHER, True)] for rule, name in RULES.items()},
        "broken_colour": BROKEN,
        "move_colours": moves,
        **notes,
    }


def pins_in(libraries: list[Path]) -> dict[str, int]:
    """Counts the pins of each macro in LEF files. Of two macros with one name, the first counts."""
    counts: dict[str, int] = {}
    for library in libraries:
        for name, count in pin_counts_of(library.read_bytes()):
            counts.setdefault(name.decode("utf-8", "backslashreplace"), count)
    return counts


def _sized(box: Box) -> list[int]:
    return [box.left, box.bottom, box.width, box.height]
