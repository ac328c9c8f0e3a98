"""lefence-check: prints which cells have no place or break a rule, by team, and the nearest legal places."""

from __future__ import annotations

import argparse
import json

from ..base.faults import DONE, Parser, as_given, printable, run_tool
from ..base.input_files import use_plain_files
from ..base.program import Program, find_program
from .nearest import nearest_places
from .table import head_of, object_of, team_lines, violation_lines
from .tally import tally_of

TOOL = "lefence-check"
# The exit status if a cell has no place or breaks a rule, as of `lefence check`.
NOT_LEGAL = 4
# The default number of violations that are listed.
MOST = 10


def check_design(options: argparse.Namespace) -> int:
    """Prints the table of a design and its first violations; returns the exit status."""
    use_plain_files(options, "design", "libraries")
    program = find_program(options.program)
    tally = tally_of(TOOL, program, options.design, options.libraries, max(0, options.most))
    places = nearest_places(Program(program, [options.design, *options.libraries]), tally.violations)
    if options.json:
        print(json.dumps(object_of(tally, places)))
    else:
        print(as_given(printable("\n".join([head_of(tally), *team_lines(tally), *violation_lines(tally, places)]))))
    return DONE if tally.is_legal else NOT_LEGAL


def parser() -> Parser:
    made = Parser(
        TOOL,
        "Prints a table of the teams of a design: cells, utilization of the ground, cells without a place, and cells\n"
        "that break a rule. Then it lists the first violations, each with the nearest place that is legal next to all\n"
        "other cells. Lengths are microns. The status is 0 if the design is fully legal, else 4.",
        f"{TOOL} chip.def tech.lef cells.lef",
    )
    made.add_design()
    add = made.add_argument
    add("--most", metavar="N", type=int, default=MOST, help=f"list at most N violations ({MOST})")
    add("--json", action="store_true", help="print one JSON object instead of the tables")
    made.add_program()
    return made


def main() -> int:
    options = parser().parse_args()
    return run_tool(TOOL, lambda: check_design(options))
