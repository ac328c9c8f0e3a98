"""lefence-improve: runs `lefence improve`, prints a summary, and writes the design with the new places.

It has no rules of legality: the program finds the places, and measures the nets.
"""

from __future__ import annotations

import argparse
import shutil
import tempfile
from contextlib import ExitStack
from pathlib import Path
from typing import Any

from ..base.atomic_file import output_file, refuse_inputs
from ..base.design import map_file, units_in
from ..base.faults import DONE, Parser, log, run_tool
from ..base.input_files import use_plain_files
from ..base.program import Program, find_program, reports_of
from ..base.progress import Progress
from ..repair.side_by_side import Parts, add_jobs, divided, jobs_of, run_parts, team_words
from ..view.wires import Wires
from .keep import Kept

TOOL = "lefence-improve"
# The exit status if a cell has no place or breaks a rule at the end, as of `lefence improve`.
NOT_LEGAL = 4
# Options that the program gets as they are.
_NUMBERS = ("within", "rounds", "effort", "density")


class Improvement:
    """A finished improvement: the objects of the teams, the design with its moves, whether that is fully legal, and the
    wire lengths before and after.
    """

    def __init__(self, program: Program, options: argparse.Namespace, folder: Path) -> None:
        """Has the program improve teams. Its files go to a folder."""
        words = [f"--{option}={value}" for option in _NUMBERS if (value := getattr(options, option)) is not None]
        teams, progress = options.team or [], Progress(TOOL, "the program improves")
        # The teams whose moves were left out.
        self.left_out: list[str] = []
        if parts := divided(program, teams, jobs_of(options.jobs)):
            self._improve_parts(program, words, parts, folder, progress)
            return
        export = folder / "new.def"
        command = program.move_words("improve", [*words, *team_words(teams)], folder / "lines", export)
        [[*self.teams, total]] = reports_of([command], progress)
        self.program, self.is_legal = program.with_design(export), bool(total["legal"])
        self.wires = Wires([total["doubled_before"], total["doubled"]], nets=0)

    def _improve_parts(
        self, program: Program, words: list[str], parts: Parts, folder: Path, progress: Progress
    ) -> None:
        reports, lines = run_parts(program, "improve", words, parts, folder, progress)
        found: dict[str, dict[str, Any]] = {report["team"]: report for *teams, _ in reports for report in teams}
        self.teams = [found[team] for team in parts.order]
        kept = Kept(program, lines, folder)
        kept.add_all(parts)
        self.program, self.left_out = kept.program, [team for team in parts.order if team in kept.left_out]
        self.is_legal, self.wires = self.program.is_legal(), Wires([kept.doubled_before, kept.doubled], nets=0)


def improve_design(options: argparse.Namespace) -> int:
    """Improves what the command line requests; returns the exit status."""
    use_plain_files(options, "design", "libraries")
    if options.output:
        refuse_inputs(options.output, options.libraries)
    program = Program(find_program(options.program), [options.design, *options.libraries])
    with ExitStack() as stack:
        output = stack.enter_context(output_file(options.output)) if options.output else None
        folder = Path(stack.enter_context(tempfile.TemporaryDirectory(prefix=TOOL)))
        done = Improvement(program, options, folder)
        # (the program has loaded this text)
        units = int(units_in(map_file(options.design, stack)))
        _report(done, units)
        log(TOOL, f"wire length: {done.wires.text(units)}")
        if output:
            with open(done.program.texts[0], "rb") as file:
                shutil.copyfileobj(file, output)
    if done.is_legal:
        return DONE
    log(TOOL, "not fully legal: lefence-repair moves cells to legal places")
    return NOT_LEGAL


def _report(done: Improvement, units: int) -> None:
    """Prints the result of each team on standard error."""
    for team in done.teams:
        name, moved, turned = team["team"], team["moved"], team["turned"]
        if team["skipped"]:
            log(TOOL, f"team {name} is skipped: one of its cells has no place or breaks a rule")
        elif name in done.left_out:
            reason = "its moves and those of other teams would make the nets longer"
            log(TOOL, f"team {name}: nothing moves, since {reason}")
        elif moved or turned:
            distances = f"mean {team['mean'] / units:.3f}, largest {team['largest'] / units:.3f} microns"
            log(TOOL, f"team {name}: {moved} moved, {turned} turned; {distances}")
        else:
            log(TOOL, f"team {name}: nothing moves")


def parser() -> Parser:
    made = Parser(
        TOOL,
        "Runs `lefence improve`, which moves legal cells so that the nets become shorter, and says what it did. The\n"
        "cells stay legal, and the wire length of the design never grows. Teams with a cell that breaks a rule or has\n"
        "no place are skipped; the exit status is then 4.",
        f"{TOOL} chip.def tech.lef cells.lef --output new.def\n"
        f"{TOOL} chip.def tech.lef cells.lef --output new.def --within 4 --jobs 0",
    )
    made.add_design()
    add = made.add_argument
    target = made.add_mutually_exclusive_group(required=True)
    target.add_argument(
        "-o",
        "--output",
        metavar="FILE",
        type=Path,
        help="write the improved DEF file to FILE; it may be the input",
    )
    target.add_argument("--dry-run", action="store_true", help="print the result of each team, and write no file")
    add("--team", metavar="NAME", action="append", help="improve only this team; may be repeated (default: all teams)")
    add("--within", metavar="ROWS", type=int, help="no cell ends farther than ROWS row heights from its place")
    add("--rounds", metavar="N", type=int, help="search at most N rounds, as `lefence improve --rounds`")
    add("--effort", metavar="N", type=int, help="then try N random moves of each cell, as `lefence improve --effort`")
    add("--density", metavar="P", type=int, help="no move makes a bin of the floor fuller than P percent")
    add_jobs(made)
    made.add_program()
    return made


def main() -> int:
    options = parser().parse_args()
    return run_tool(TOOL, lambda: improve_design(options))
