"""lefence-carry: carries working and committed places, paddings and revisions over to the next netlist.

The result is a state text of the new design. The program reads it, and what it finds is compared, before the file gets
its name.
"""

from __future__ import annotations

import argparse
import asyncio
import json
import sys
import tempfile
from collections import Counter, defaultdict
from collections.abc import Iterable, Iterator
from dataclasses import dataclass, field
from itertools import groupby
from operator import itemgetter
from pathlib import Path
from typing import NamedTuple

from ..base.atomic_file import atomic_file, partial_file, refuse_inputs
from ..base.description import CellLine, Description
from ..base.design import Design, shown
from ..base.faults import DONE, FAILED, USAGE, Fault, Parser, log, run_tool
from ..base.input_files import use_plain_files
from ..base.nets import Netlist, Place
from ..base.program import find_program
from ..base.progress import Progress
from ..base.protocol import GROUND, SLOTS
from ..base.state_text import UNPLACED, SavedCell, SavedTeam, head_of, lines_of, teams_in
from ..journal_tool.saved_state import save_state
from ..prepare.new_cells import near_nets_text, places_near_nets

TOOL = "lefence-carry"
# The exit status if the carried design is not fully legal, as of `lefence check`.
NOT_LEGAL = 4
# What is counted of each team, in the order of the report; the last one with --place-new alone.
_COUNTS = ("cells", "kept", "resized", "new", "from_other_team", "gone", "unplaced", "illegal", "illegal_before")
_NEAR_NETS = "near_nets"


class Known(NamedTuple):
    """What is known of a cell of the old design: its places, its macro's size, and its team."""

    working: bytes
    committed: bytes
    size: tuple[bytes, bytes]
    team: str


@dataclass
class Old:
    """The old design in its state: the cells by name, the teams, and how many cells of each break a rule."""

    cells: dict[bytes, Known] = field(default_factory=dict)
    teams: dict[str, SavedTeam] = field(default_factory=dict)
    illegal: dict[str, int] = field(default_factory=dict)


def read_old(program: str, texts: list[Path], state: Path) -> Old:
    """Reads the old design and its state."""
    old = Old()
    sizes: dict[bytes, tuple[bytes, bytes]] = {}
    illegal: dict[bytes, int] = {}
    # (equal sizes are one object)
    known: dict[tuple[bytes, bytes], tuple[bytes, bytes]] = {}
    with Description(program, texts[0], texts[1:], state) as description:
        for cells in Progress(TOOL, "cells before").over_lists(description.cell_lines()):
            for _, _, height, name, _, rule, team, width in cells:
                size = width, height
                sizes[name] = known.setdefault(size, size)
                if rule or team not in illegal:
                    illegal[team] = illegal.get(team, 0) + bool(rule)
    old.illegal = {shown(team): count for team, count in illegal.items()}
    # (the program has read the state, so its cells are those of the design)
    with open(state, "rb") as file:
        for saved, places in teams_in(file):
            team_name = shown(saved.name)
            old.teams[team_name] = saved
            for name, working, committed in places:
                # (so is a place that is both)
                both = working if working == committed else committed
                old.cells[name] = Known(working, both, sizes.pop(name), team_name)
    return old


def place_of(corner: bytes, orient: bytes) -> bytes:
    """The place of a cell, as a state text has it, by its lower left corner and its orientation."""
    return b"%b,%b" % (corner, orient) if corner else UNPLACED


class Carried:
    """The cells of the new design with the places that they get, by teams, and what is counted of each team."""

    def __init__(self, old: Old, slots: int) -> None:
        self.counts: defaultdict[str, Counter[str]] = defaultdict(Counter)
        self.cells: dict[str, list[SavedCell]] = {}
        # The places in the new DEF file, of cells whose committed place is another one.
        self.texts: dict[bytes, bytes] = {}
        self._old, self._slots = old, slots

    def read(self, description: Description) -> None:
        """Reads the new design, and gives each cell its places."""
        self.cells = {team: [] for team in description.frame.teams}
        for cells in Progress(TOOL, "cells after").over_lists(description.cell_lines()):
            # (the cells of a team often come one after the other)
            for team, of_team in groupby(cells, itemgetter(6)):
                self._add(shown(team), of_team)
        for name, counts in self.counts.items():
            counts["cells"] = len(self.cells[name])
            counts["kept"] = counts["cells"] - counts["resized"] - counts["new"]
        for name, count in self._old.illegal.items():
            self.counts[name]["illegal_before"] = count
        for known in self._old.cells.values():
            self.counts[known.team]["gone"] += 1

    def _add(self, team: str, cells: Iterable[CellLine]) -> None:
        """Gives cells of a team their places, which the old design then has no more."""
        counts, carried, old = self.counts[team], self.cells[team], self._old.cells
        for corner, _, height, name, orient, _, _, width in cells:
            text = place_of(corner, orient)
            known = old.pop(name, None)
            if known is None:
                counts["new"] += 1
                carried.append(SavedCell(name, text, text))
                continue
            working, committed, size, old_team = known
            if size != (width, height):
                counts["resized"] += 1
            if old_team != team:
                counts["from_other_team"] += 1
            if committed != text:
                self.texts[name] = text
            carried.append(SavedCell(name, working, committed))

    def working_places(self) -> Iterator[tuple[bytes, bytes]]:
        """Yields the cells with their working places, each `X,Y,O` or `-`."""
        return ((cell.name, cell.working) for cells in self.cells.values() for cell in cells)

    def place_new(self, places: dict[bytes, bytes]) -> None:
        """Gives these cells working places near their nets."""
        for team, cells in self.cells.items():
            for at, cell in enumerate(cells):
                if cell.name in places:
                    cells[at] = cell._replace(working=places[cell.name])
                    self.counts[team][_NEAR_NETS] += 1

    def lines(self) -> Iterator[bytes]:
        """Yields the lines of the state text."""
        yield head_of(len(self.cells))
        for name, cells in self.cells.items():
            known = self._old.teams.get(name, SavedTeam(name.encode(), 0, 0, self._slots))
            yield from lines_of(known._replace(slots=self._slots), cells)

    def committed_lines(self) -> Iterator[bytes]:
        """Yields the lines of a state text whose working places are the committed ones."""
        yield head_of(len(self.cells))
        for name, cells in self.cells.items():
            team = SavedTeam(name.encode(), 0, 0, self._slots)
            yield from lines_of(team, [cell._replace(working=cell.committed) for cell in cells])

    def change_committed(self, places: dict[bytes, bytes]) -> None:
        """Gives these cells other committed places."""
        for cells in self.cells.values():
            for at, cell in enumerate(cells):
                if cell.name in places:
                    cells[at] = cell._replace(committed=places[cell.name])


def keep_committed_legal(carried: Carried, program: str, texts: list[Path]) -> None:
    """Has each cell whose committed place breaks a rule be committed where the new DEF file has it; if that breaks a
    rule, too, nowhere.
    """
    for is_last in (False, True):
        with tempfile.NamedTemporaryFile(suffix=".state") as file:
            file.writelines(carried.committed_lines())
            file.flush()
            with Description(program, texts[0], texts[1:], Path(file.name)) as description:
                broken = [name for cells in description.cell_lines() for _, _, _, name, _, rule, *_ in cells if rule]
        if broken:
            places = {name: UNPLACED if is_last else carried.texts.get(name, UNPLACED) for name in broken}
            carried.change_committed(places)
            what = "not committed" if is_last else "committed where the new DEF file has them"
            log(TOOL, f"{len(broken)} cells whose committed place breaks a rule are {what}")


def place_new(carried: Carried, program: str, texts: list[Path]) -> None:
    """Gives each cell of the new design without a working place one near its nets."""
    working = dict(carried.working_places())
    unplaced = {name for name, place in working.items() if place == UNPLACED}
    with Description(program, texts[0], texts[1:]) as description:
        cells = [cell for cell in description.cells() if cell.name.encode() in unplaced]
        frame = description.frame
    design, libraries = Design(texts[0].read_bytes()), (path.read_bytes() for path in texts[1:])
    netlist = Netlist(design, libraries, frame.facts.units, unplaced)
    for name in [name for name in netlist.macro_names if name in working]:
        netlist.places.pop(name, None)
        if (place := working[name]) != UNPLACED:
            x, y, orient = place.split(b",")
            netlist.places[name] = Place(int(x), int(y), orient)
    found = {name.encode(): near.place for name, near in places_near_nets(netlist, frame, cells).items()}
    carried.place_new({name: b"%d,%d,%b" % place for name, place in found.items()})
    log(TOOL, near_nets_text(len(cells), len(found)))


def confirm(carried: Carried, program: str, texts: list[Path], state: Path) -> bool:
    """Has the program read the new design in the new state; returns whether it is fully legal.

    Raises a Fault if a cell is not where it was put.
    """
    with Description(program, texts[0], texts[1:], state) as description:
        due = {name: iter(cells) for name, cells in carried.cells.items()}
        for cells in Progress(TOOL, "cells confirmed").over_lists(description.cell_lines()):
            for team, of_team in groupby(cells, itemgetter(6)):
                name = shown(team)
                _confirm_cells(carried.counts[name], due[name], of_team)
        total = description.total
    if any(next(cells, None) for cells in due.values()):
        raise Fault(FAILED, "nothing is written: the program finds fewer cells")
    return not total.unplaced and not total.illegal


def _confirm_cells(counts: Counter[str], due: Iterator[SavedCell], cells: Iterable[CellLine]) -> None:
    """Compares cells of a team with the next ones of the state, and counts those without a legal place."""
    for corner, _, _, name, orient, rule, _, _ in cells:
        expected = next(due, None)
        if expected is None or name != expected[0] or place_of(corner, orient) != expected[1]:
            raise Fault(FAILED, f"nothing is written: the program finds cell {shown(name)} at another place")
        if rule:
            counts["illegal"] += 1
        if not corner:
            counts["unplaced"] += 1


def report_of(carried: Carried, keys: tuple[str, ...]) -> list[dict[str, str | int]]:
    """Lists these counts of each team, then those of all."""
    rows = [({"team": team} | {key: counts[key] for key in keys}) for team, counts in carried.counts.items()]
    whole = {key: sum(counts[key] for counts in carried.counts.values()) for key in keys}
    return [*rows, {"team": "all", **whole}] if len(rows) != 1 else rows


def table_of(report: list[dict[str, str | int]]) -> str:
    """Formats a report, which has a row at least, as a table."""
    rows = [[key.replace("_", " ") for key in report[0]], *([str(row[key]) for key in row] for row in report)]
    widths = [max(map(len, column)) for column in zip(*rows)]
    lines = ("  ".join(word.rjust(width) for word, width in zip(row[1:], widths[1:])) for row in rows)
    return "".join(f"{row[0].ljust(widths[0])}  {line}\n" for row, line in zip(rows, lines))


def carry(options: argparse.Namespace) -> int:
    """Carries the state of the command line over; returns the exit status."""
    program = find_program(options.program)
    with tempfile.TemporaryDirectory(prefix=f"{TOOL}-") as folder:
        texts, state = options.texts, options.state
        if options.journal is not None:
            state = Path(folder) / "old.state"
            texts = asyncio.run(save_state(options.journal, program, state))
        old = read_old(program, texts, state)
    slots = options.sessions or next((team.slots for team in old.teams.values()), SLOTS)
    carried = Carried(old, slots)
    with Description(program, options.to[0], options.to[1:]) as description:
        carried.read(description)
    if options.keep_committed_legal:
        keep_committed_legal(carried, program, options.to)
    if options.place_new:
        place_new(carried, program, options.to)
    with partial_file(options.output) as partial:
        with open(partial, "wb") as file:
            file.writelines(carried.lines())
        is_legal = confirm(carried, program, options.to, partial)
    report = report_of(carried, (*_COUNTS, _NEAR_NETS) if options.place_new else _COUNTS)
    if options.report is not None:
        with atomic_file(options.report) as file:
            file.writelines(json.dumps(row).encode() + b"\n" for row in report)
    sys.stdout.write(table_of(report))
    log(TOOL, "sessions are closed, and undo entries are not carried over")
    if lost := [team for team in old.teams if team not in carried.cells and team != GROUND]:
        log(TOOL, f"teams that are gone: {', '.join(lost)}")
    return DONE if is_legal else NOT_LEGAL


def parser() -> Parser:
    made = Parser(
        TOOL,
        "Carries the places of a design's cells over to the next netlist, by name: a state text for the new design,\n"
        "which `lefence replay --state`, `lefence check --state` and `lefence-hub --begin` take. A new cell is where\n"
        "the new DEF file has it. The status is 4 if the new design is then not fully legal.",
        f"{TOOL} --from v1.def tech.lef cells.lef --state v1.state --to v2.def tech.lef cells.lef -o v2.state\n"
        f"{TOOL} --journal chip.journal --to v2.def tech.lef cells.lef --place-new -o v2.state\n"
        "lefence-hub v2.def tech.lef cells.lef --sockets s --journal v2.journal --begin v2.state",
    )
    add = made.add_argument
    add("--from", dest="texts", metavar="TEXT", type=Path, nargs="+", help="the old DEF file, and its LEF files")
    add("--state", metavar="FILE", type=Path, help="a state text of the old design")
    add("--journal", metavar="FILE", type=Path, help="instead of these two, the journal of a hub of the old design")
    add("--to", metavar="TEXT", type=Path, nargs="+", required=True, help="the new DEF file, and its LEF files")
    add("-o", "--output", metavar="FILE", type=Path, required=True, help="write the new state text to FILE")
    add("--report", metavar="FILE", type=Path, help="write the counts of each team to FILE, as JSON lines")
    add(
        "--keep-committed-legal",
        action="store_true",
        help="a committed place that breaks a rule in the new design is carried as working place alone",
    )
    add(
        "--place-new",
        action="store_true",
        help="give each cell without a place a working place near its nets, where a repair then finds a legal place",
    )
    add("--sessions", metavar="N", type=int, help="session slots of each team (default: as before)")
    made.add_program()
    return made


def main() -> int:
    options = parser().parse_args()

    def work() -> int:
        if (options.journal is None) == (options.texts is None) or (options.journal is None) == (options.state is None):
            raise Fault(USAGE, "--from TEXT.. and --state FILE are needed, or --journal FILE")
        if options.sessions is not None and not 1 <= options.sessions <= 64:
            raise Fault(USAGE, f"--sessions {options.sessions}: 1 to 64")
        use_plain_files(options, "texts", "to")
        inputs = [*(options.texts or []), *options.to, *filter(None, (options.state, options.journal))]
        refuse_inputs(options.output, inputs)
        return carry(options)

    return run_tool(TOOL, work)
