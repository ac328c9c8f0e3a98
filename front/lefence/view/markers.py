"""lefence-markers: writes the violations of a design as a KLayout report database, which shows them as markers."""

from __future__ import annotations

import math
import struct
from collections.abc import Iterable, Iterator
from decimal import Decimal
from pathlib import Path
from typing import NamedTuple
from xml.sax.saxutils import escape

from ..base.atomic_file import atomic_file, refuse_inputs
from ..base.description import Box, Cell, Description, Facts
from ..base.faults import DONE, FAILED, USAGE, Fault, Parser, log, run_tool
from ..base.input_files import use_plain_files
from ..base.program import find_program
from ..base.progress import Progress
from ..base.protocol import RULES

TOOL = "lefence-markers"
# Tags that KLayout shows in front of the values of an item. The value without a tag is the cell's box.
_TAGS = ("cell", "team", "other")
_BOX = struct.Struct("<4q")

_HEAD = """<?xml version="1.0" encoding="utf-8"?>
<report-database>
<generator>{tool}</generator>
<top-cell>{top}</top-cell>
<tags>{tags}</tags>
<categories>{categories}</categories>
<cells><cell><name>{top}</name></cell></cells>
<items>
"""
_TAIL = """</items>
<description>{description}</description>
</report-database>
"""
# A technology with which KLayout reads a DEF file with these LEF files and draws the macros from them.
_TECHNOLOGY = """<?xml version="1.0" encoding="utf-8"?>
<technology>
<name>{name}</name>
<reader-options><lefdef>
<dbu>{dbu}</dbu>
{libraries}<read-lef-with-def>false</read-lef-with-def>
<macro-resolution-mode>always-lef</macro-resolution-mode>
</lefdef></reader-options>
</technology>
"""


class Violation(NamedTuple):
    """A cell that breaks a rule; for rule 8 with the cell that it overlaps, and its box."""

    name: str
    team: str
    rule: int
    box: Box
    other: str | None = None
    other_box: Box | None = None


def violations_of(cells: Iterable[Cell]) -> Iterator[Violation]:
    """Yields each violation when the box of the other cell is known.

    If two boxes overlap, both cells break a rule. So only cells that break a rule are kept.
    """
    boxes: dict[str, bytes] = {}
    waiting: dict[str, list[tuple[str, str, int]]] = {}
    for cell in cells:
        if cell.rule is None or cell.box is None:
            continue
        boxes[cell.name] = _BOX.pack(*cell.box)
        for name, team, rule in waiting.pop(cell.name, ()):
            yield Violation(name, team, rule, _box(boxes[name]), cell.name, cell.box)
        if cell.other is None:
            yield Violation(cell.name, cell.team, cell.rule, cell.box)
        elif cell.other in boxes:
            yield Violation(cell.name, cell.team, cell.rule, cell.box, cell.other, _box(boxes[cell.other]))
        else:
            waiting.setdefault(cell.other, []).append((cell.name, cell.team, cell.rule))
    for other, (first, *_) in waiting.items():
        raise Fault(FAILED, f"the program reports that {first[0]} overlaps {other}, but no violation of {other}")


def _box(packed: bytes) -> Box:
    return Box(*_BOX.unpack(packed))


def database_of(description: Description) -> Iterator[str]:
    """Yields the report database in pieces as the description is read."""
    facts = description.frame.facts
    top = escape(facts.name)
    categories = "".join(f"<category><name>{number} {name}</name></category>" for number, name in RULES.items())
    tags = "".join(f"<tag><name>{tag}</name></tag>" for tag in _TAGS)
    yield _HEAD.format(tool=TOOL, top=top, tags=tags, categories=categories)
    for violation in violations_of(Progress(TOOL, "cells").over(description.cells())):
        yield _item(violation, top, facts)
    yield _TAIL.format(description=escape(totals_text(description)))


def totals_text(description: Description) -> str:
    """The totals in words, after the cells were read."""
    total = description.total
    return f"{total.illegal} of {total.cells} cells break a rule; {total.unplaced} without a place have no marker"


def _item(violation: Violation, top: str, facts: Facts) -> str:
    units = Decimal(facts.units)
    values = [_text("cell", violation.name), _text("team", violation.team), _value(violation.box, units)]
    if violation.other is not None and violation.other_box is not None:
        values += [_text("other", violation.other), f"[#other] {_value(violation.other_box, units)}"]
    category = f"'{violation.rule} {RULES[violation.rule]}'"
    shown = "".join(f"<value>{value}</value>" for value in values)
    return f"<item><category>{category}</category><cell>{top}</cell><values>{shown}</values></item>\n"


def _text(tag: str, text: str) -> str:
    quoted = text.replace("\\", "\\\\").replace("'", "\\'")
    return f"[#{tag}] text: '{escape(quoted)}'"


def _value(box: Box, units: Decimal) -> str:
    """The box in microns; exact, if these are finite decimals."""
    left, bottom, right, top = (format(Decimal(length) / units, "f") for length in box)
    return f"box: ({left},{bottom};{right},{top})"


def technology_of(facts: Facts, libraries: Iterable[Path]) -> bytes:
    """Returns a KLayout technology for a DEF file with these LEF files.

    Its database unit divides that of the DEF file and a nanometer, which the shapes of LEF files need.
    """
    files = "".join(f"<lef-files>{escape(str(path.resolve()))}</lef-files>\n" for path in libraries)
    unit = 1 / Decimal(math.lcm(facts.units, 1000))
    try:
        return _TECHNOLOGY.format(name=TOOL, dbu=format(unit, "f"), libraries=files).encode()
    except UnicodeEncodeError:
        raise Fault(USAGE, "a technology cannot name a LEF file whose path is not UTF-8") from None


def parser() -> Parser:
    made = Parser(
        TOOL,
        "Writes the violations of a design as a KLayout report database: a category for each rule and a marker for\n"
        "each violation, with the boxes and names of the cell and of the one that it overlaps.",
        f"{TOOL} chip.def tech.lef cells.lef --output chip.lyrdb --technology chip.lyt\n"
        "klayout -nn chip.lyt chip.def -m chip.lyrdb",
    )
    made.add_design()
    add = made.add_argument
    add("-o", "--output", metavar="FILE", type=Path, required=True, help="write the report database to FILE (.lyrdb)")
    add(
        "--technology",
        metavar="FILE",
        type=Path,
        help="also write a technology with which KLayout finds the LEF files (.lyt)",
    )
    made.add_program()
    return made


def main() -> int:
    options = parser().parse_args()

    def work() -> int:
        use_plain_files(options, "design", "libraries")
        inputs = (options.design, *options.libraries)
        program = find_program(options.program)
        for output in (options.output, options.technology):
            if output is not None:
                refuse_inputs(output, inputs)
        with atomic_file(options.output) as file, Description(
            program, options.design, options.libraries
        ) as description:
            for piece in database_of(description):
                file.write(piece.encode())
            if options.technology is not None:
                with atomic_file(options.technology) as technology:
                    technology.write(technology_of(description.frame.facts, options.libraries))
        log(TOOL, totals_text(description))
        return DONE

    return run_tool(TOOL, work)
