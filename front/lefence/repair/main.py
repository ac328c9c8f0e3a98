"""lefence-repair: runs `lefence repair`, prints a summary, and writes the design also if some cell found no place.

It has no rules of legality: the program finds the places and reports the unrepaired cells.
"""

from __future__ import annotations

import argparse
import tempfile
import threading
from contextlib import AbstractContextManager, nullcontext
from pathlib import Path
from typing import Any, BinaryIO

from ..base.atomic_file import output_file, refuse_inputs
from ..base.faults import DONE, Parser, log, run_tool
from ..base.input_files import use_plain_files
from ..base.program import Program, find_program
from ..base.wording import number
from ..check.table import team_lines
from ..check.tally import tally_of
from ..prepare.pitfalls import warn
from .remote import repair_remote
from .run import RepairRun, print_moves
from .side_by_side import add_jobs, jobs_of

TOOL = "lefence-repair"
# The exit status if a cell remains unrepaired, as of `lefence check`.
NOT_LEGAL = 4
# Options that the program gets as they are.
_FLAGS = ("keep", "all", "balance-heights", "near-nets")
_NUMBERS = ("effort", "within")


def repair_design(options: argparse.Namespace) -> int:
    """Repairs what the command line requests; returns the exit status."""
    use_plain_files(options, "design", "libraries")
    if options.output:
        refuse_inputs(options.output, options.libraries)
    teams, program = options.team or [], Program(find_program(options.program), [options.design, *options.libraries])
    # (at the same time as the repair, which takes longer)
    warning = threading.Thread(
        target=warn, args=(lambda text: log(TOOL, text), program.path, options.design, options.libraries), daemon=True
    )
    warning.start()
    try:
        return _repair(options, teams, program)
    finally:
        warning.join()


def _repair(options: argparse.Namespace, teams: list[str], program: Program) -> int:
    """Repairs teams of a design, or the team of a socket; returns the exit status."""
    words = [f"--{option}" for option in _FLAGS if getattr(options, option.replace("-", "_"))]
    words += [f"--{option}={value}" for option in _NUMBERS if (value := getattr(options, option)) is not None]
    if options.socket:
        repair = repair_remote(TOOL, options.socket, teams, program, words)
        return _end_of(repair.total, is_written=True, team=repair.teams[0]["team"])
    file: AbstractContextManager[BinaryIO | None] = output_file(options.output) if options.output else nullcontext()
    with file as output, tempfile.TemporaryDirectory(prefix=TOOL) as folder:
        repair = RepairRun(TOOL, program, words, Path(folder), bool(output), teams, jobs_of(options.jobs))
        moves = repair.moves(is_all=not output)
        if output:
            repair.write(output, moves)
        table = team_lines(tally_of(TOOL, program.path, repair.exported, options.libraries)) if output else []
    if not options.output:
        print_moves(moves, repair.unrepaired)
    repair.report(moves)
    for line in table:
        log(TOOL, line)
    return _end_of(repair.total, is_written=bool(options.output))


def _end_of(total: dict[str, Any], is_written: bool, team: str | None = None) -> int:
    """Prints the result for all teams, or for one that is committed if all its cells are legal; returns the exit
    status.
    """
    is_idle = not (total["moved"] or total["turned"] or total["placed"] or total["left_cells"])
    if is_idle:
        log(TOOL, "nothing moves" + (f"; team {team} is committed" if team else ""))
    if total["legal"]:
        cells = f"every cell of team {team}" if team else "every cell"
        log(TOOL, f"{cells} {'is' if is_written or is_idle else 'would be'} legal")
        return DONE
    unrepaired = total["left_cells"]
    others = "other teams have cells that break a rule or have no place"
    log(TOOL, "not fully legal: " + (f"{number(unrepaired, 'cell')} unrepaired" if unrepaired else others))
    return NOT_LEGAL


def parser() -> Parser:
    made = Parser(
        TOOL,
        "Runs `lefence repair`, which moves each cell that is unplaced or breaks a rule to a legal place near its old\n"
        "one. It writes the DEF file with these places and prints its table of teams, or sends the places to a hub.\n"
        "The status is 4 if some cell found no place: such cells are listed, and are unplaced in the file; those that\n"
        "no place can hold stay.",
        f"{TOOL} chip.def tech.lef cells.lef --output new.def\n{TOOL} chip.def tech.lef cells.lef --dry-run --team A",
    )
    made.add_design()
    add = made.add_argument
    target = made.add_mutually_exclusive_group(required=True)
    target.add_argument(
        "-o",
        "--output",
        metavar="FILE",
        type=Path,
        help="write the repaired DEF file to FILE; it may be the input",
    )
    target.add_argument("--dry-run", action="store_true", help="print what would move, and write no file")
    target.add_argument(
        "--socket",
        metavar="SOCKET",
        help="repair the team of a hub's socket at its present places, by changes of a session",
    )
    add("--team", metavar="NAME", action="append", help="repair only this team; may be repeated (default: all teams)")
    scope = made.add_mutually_exclusive_group()
    scope.add_argument("--keep", action="store_true", help="do not move legal cells, as `lefence repair --keep`")
    scope.add_argument("--all", action="store_true", help="legal cells may move too, as `lefence repair --all`")
    add("--effort", metavar="N", type=int, help="search with N tries for each cell, as `lefence repair --effort`")
    add("--within", metavar="ROWS", type=int, help="no cell ends farther than ROWS row heights from its place")
    add("--balance-heights", action="store_true", help="cells of a height that few cells have weigh more")
    add("--near-nets", action="store_true", help="cells without a place go near the other cells of their nets")
    add_jobs(made)
    made.add_program()
    return made


def main() -> int:
    options = parser().parse_args()
    return run_tool(TOOL, lambda: repair_design(options))
