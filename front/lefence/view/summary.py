"""lefence-summary: prints how far each team's cells moved between two placements of a design."""

from __future__ import annotations

import argparse
import json
import sys
from contextlib import ExitStack
from pathlib import Path

from ..base.atomic_file import output_file, refuse_inputs
from ..base.description import Description, Frame
from ..base.faults import DONE, REFUSED, USAGE, Fault, Parser, log, run_tool
from ..base.input_files import use_plain_files
from ..base.program import Program, find_program
from ..base.progress import Progress
from ..base.wording import number
from .displacement import MOST_FAR, Summary, notes_of, summary_of
from .displacement_text import object_of, text_of
from .tcl_moves import DIALECTS, TclMoves
from .wires import wires_or_note

TOOL = "lefence-summary"


def summary_of_files(
    program: str, before: Path, after: Path, libraries: list[Path], options: argparse.Namespace
) -> Summary:
    """Summarizes two DEF files over the same LEF files. It reads both in parallel. With `--tcl` it writes the commands
    that move the cells.
    """
    with ExitStack() as stack:
        early = stack.enter_context(Description(program, before, libraries))
        late = stack.enter_context(Description(program, after, libraries))
        refuse_other_units((before, early.frame), (after, late.frame))
        moves = None
        if options.tcl:
            moves = TclMoves(options.tcl, late.frame.facts.units, stack.enter_context(output_file(options.output)))
        cells = Progress(TOOL, "cells").over(late.cells())
        taker = moves.take if moves else None
        summary = summary_of(early.cells(), cells, late.frame, max(0, options.most), taker)
        summary.notes[:0] = notes_of(early.frame, late.frame)
    if moves:
        _report_moves(options.output, moves, len(summary.only_after))
    summary.wires, notes = wires_or_note(*(Program(program, [design, *libraries]) for design in (before, after)))
    summary.notes += notes
    return summary


def _report_moves(path: Path, moves: TclMoves, new: int) -> None:
    """Prints how many commands were written, and which cells have none."""
    log(TOOL, f"{path}: commands for {number(moves.count, 'cell')}")
    if new:
        log(TOOL, f"no commands for {number(new, 'cell')} of AFTER alone")
    if moves.unplaced:
        names = ", ".join(moves.unplaced[:MOST_FAR]) + (", .." if len(moves.unplaced) > MOST_FAR else "")
        log(TOOL, f"no commands for {number(len(moves.unplaced), 'cell')} without a place in AFTER: {names}")


def refuse_other_units(before: tuple[Path, Frame], after: tuple[Path, Frame]) -> None:
    """Raises a Fault if two DEF files have different database units: their places cannot be compared."""
    units = [frame.facts.units for _, frame in (before, after)]
    if units[0] != units[1]:
        raise Fault(REFUSED, f"{before[0]} has {units[0]} database units per micron, but {after[0]} has {units[1]}")


def parser() -> Parser:
    made = Parser(
        TOOL,
        "Prints for each team, and for all teams together, how many cells moved between two placements and how far,\n"
        "their violations, and their utilization of the ground.",
        f"{TOOL} before.def after.def tech.lef cells.lef\n"
        f"{TOOL} before.def after.def tech.lef cells.lef --tcl innovus -o moves.tcl",
    )
    add = made.add_argument
    add("before", metavar="BEFORE", type=Path, help="the DEF file before")
    add("after", metavar="AFTER", type=Path, help="the DEF file after")
    add("libraries", metavar="LEF", type=Path, nargs="+", help="the LEF files of both, in the program's order")
    add("--most", metavar="N", type=int, default=MOST_FAR, help=f"list the N cells that moved farthest ({MOST_FAR})")
    add("--json", action="store_true", help="print one JSON object instead of the tables")
    tools = "innovus, icc2 or openroad"
    add("--tcl", metavar="TOOL", choices=DIALECTS, help=f"write the commands that move the cells in TOOL: {tools}")
    add("-o", "--output", metavar="FILE", type=Path, help="the file of --tcl")
    made.add_program()
    return made


def main() -> int:
    options = parser().parse_args()

    def work() -> int:
        if bool(options.tcl) != bool(options.output):
            raise Fault(USAGE, "--tcl TOOL and --output FILE belong together")
        use_plain_files(options, "before", "after", "libraries")
        if options.output:
            refuse_inputs(options.output, (options.before, options.after, *options.libraries))
        program = find_program(options.program)
        summary = summary_of_files(program, options.before, options.after, options.libraries, options)
        text = f"{json.dumps(object_of(summary))}\n" if options.json else text_of(summary)
        sys.stdout.write(text)
        return DONE

    return run_tool(TOOL, work)
