"""What the program makes of a DEF text: whether it loads, its cells, and remarks on what is skipped or may go wrong."""

from __future__ import annotations

import tempfile
from collections import Counter
from dataclasses import dataclass
from pathlib import Path

from ..base.description import Description, Facts, Total
from ..base.faults import DONE, REFUSED, Fault, as_given
from ..base.progress import Progress
from ..base.protocol import RULES
from ..check.table import team_lines
from ..check.tally import Tally
from .pitfalls import CellPitfalls, design_pitfalls, library_pitfalls, size_pitfalls
from .refusal_hints import hint_of
from .skipped import Remark, remarks_of

# The exit status if every cell breaks a rule, or if --look has found something.
NOT_LEGAL = 4


@dataclass
class TextSummary:
    """What the program reports of a text: totals, counts of cells by team and rule, cells per height, and cells that
    may go wrong.
    """

    facts: Facts
    total: Total
    tally: Tally
    heights: Counter[int]
    pitfalls: CellPitfalls

    @property
    def fits_rows(self) -> bool:
        """Whether any cell is 1 to 8 rows high, or there is no cell. Otherwise no place is legal."""
        site = self.facts.site_height
        return not self.heights or any(height % site == 0 and height <= 8 * site for height in self.heights)

    @property
    def is_all_illegal(self) -> bool:
        """Whether there are cells and each of them breaks a rule."""
        return 0 < self.total.cells == self.total.illegal

    def in_words(self) -> str:
        """The totals."""
        rules = sorted(self.tally.all.rules.items())
        broken = ", ".join(f"{count} by rule {rule} {RULES.get(rule, '')}" for rule, count in rules)
        illegal = f"{self.total.illegal} illegal ({broken})" if broken else "0 illegal"
        return f"it loads: {self.total.cells} cells, {self.total.unplaced} unplaced, {illegal}"


def text_summary_of(tool: str, program: str, text: bytes, libraries: list[Path], name: str) -> TextSummary:
    """Has the program read a text. Raises a Fault, with this name for the text, if it does not load."""
    with tempfile.NamedTemporaryFile(suffix=".def") as file:
        file.write(text)
        file.flush()
        heights: Counter[int] = Counter()
        try:
            with Description(program, Path(file.name), libraries) as description:
                pitfalls, tally = CellPitfalls(description.frame), Tally(description.frame)
                for cell in Progress(tool, "cells").over(description.cells()):
                    pitfalls.add(cell)
                    tally.add(cell)
                    heights[cell.height] += 1
                facts, total = description.frame.facts, description.total
                return TextSummary(facts, total, tally, heights, pitfalls)
        except Fault as fault:
            raise Fault(fault.status, str(fault).replace(f"DEF file {file.name}", name)) from None


@dataclass
class CheckResult:
    """Messages about a text, and the exit status: 0, 4 if every cell breaks a rule, or that of the fault. `tally` has
    its counts; None if it does not load.
    """

    status: int
    lines: list[str]
    remarks: list[Remark]
    tally: Tally | None

    def cells_of(self, team: str) -> int:
        """The number of cells of a team; 0 if there is no such team."""
        return self.tally.teams[team].cells if self.tally and team in self.tally.teams else 0

    def table(self) -> list[str]:
        """The table of teams, as of lefence-check; empty if the text does not load."""
        return team_lines(self.tally) if self.tally else []


def check(tool: str, program: str, text: bytes, libraries: list[Path], name: str) -> CheckResult:
    """Has the program read a text, and lists what it skips there and what may go wrong. Messages call the text by this
    name.
    """
    texts = {as_given(str(path)): path.read_bytes() for path in libraries if path.is_file()}
    remarks = [*library_pitfalls(texts), *size_pitfalls(texts), *design_pitfalls(text, list(texts.values()))]
    try:
        summary = text_summary_of(tool, program, text, libraries, name)
    except Fault as fault:
        hint = hint_of(as_given(str(fault)), text, texts)
        lines = [f"it does not load: {fault}", *([hint] if hint else [])]
        return CheckResult(fault.status, lines, [*remarks_of(text, None), *remarks], None)
    lines, status = [summary.in_words()], DONE
    if not summary.fits_rows:
        heights = ", ".join(f"{height / summary.facts.units:g}" for height in sorted(summary.heights)[:5])
        site = f"{summary.facts.site}, {summary.facts.site_height / summary.facts.units:g} microns high"
        lines.append(
            f"no cell fits the rows of site {site}: the cells are {heights} microns high;"
            " --site NAME keeps the rows of another site, --rows --site NAME makes such rows"
        )
        status = REFUSED
    elif summary.is_all_illegal:
        lines.append("every cell breaks a rule; lefence-repair finds legal places")
        status = NOT_LEGAL
    remarks += summary.pitfalls.remarks(summary.facts, list(texts.values()))
    return CheckResult(status, lines, [*remarks_of(text, summary.facts), *remarks], summary.tally)
