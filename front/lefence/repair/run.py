"""A repair by the program, and its effect on single cells.

To find the effect, the program replays the lines of the repair.
"""

from __future__ import annotations

import shutil
import tempfile
from collections.abc import Mapping, Sequence
from contextlib import ExitStack
from pathlib import Path
from typing import Any, BinaryIO, NamedTuple

from ..base.design import map_file, units_in
from ..base.faults import FAILED, Fault, log
from ..base.program import Program
from ..base.progress import Progress
from ..base.protocol import VERBS, is_accepted
from ..base.wording import number
from ..slice.splice import Spot, with_spots
from ..view.wires import wires_or_note
from .side_by_side import divided, repair_side_by_side, team_words


class Move(NamedTuple):
    """A cell's place before and after a repair; None if unplaced."""

    team: str
    cell: str
    old: Spot | None
    new: Spot | None


def moves_of(program: Program, lines: Path, teams: Mapping[str, list[str]]) -> list[Move]:
    """Returns the moves of the given cells of these teams, and of all cells that the lines of their repair name."""
    cells = {team.encode(): dict.fromkeys(name.encode() for name in names) for team, names in teams.items()}
    repair_lines = []
    with open(lines, "rb") as file:
        for line in file:
            verb, team, *words = line.split()
            if team in cells:
                repair_lines.append(line)
                cells[team].update(
                    (word, None) for word, kind in zip(words[1:], VERBS[verb.decode()].fields) if kind == "CELL"
                )
    pairs = [(team, cell) for team, names in cells.items() for cell in names]
    opens = [b"open %b\n" % team for team in cells]
    queries = [b"where %b 0 %b\n" % pair for pair in pairs]
    replies = replies_of(
        program, [*opens, *queries, *(b"close %b 0\n" % team for team in cells), *repair_lines, *opens, *queries]
    )
    before, after = len(opens) + len(queries), len(replies) - len(queries)
    for reply in replies[before:after]:
        if not is_accepted(reply):
            raise _unexpected(reply)
    spots = map(_spot_in, replies[len(opens) : before]), map(_spot_in, replies[after:])
    return [Move(team.decode(), cell.decode(), old, new) for (team, cell), old, new in zip(pairs, *spots)]


def replies_of(program: Program, lines: list[bytes]) -> list[bytes]:
    """Returns the program's replies to lines of verbs other than `def`. Both have line feeds."""
    with tempfile.TemporaryFile() as file:
        program.answer(lines, file)
        file.seek(0)
        replies = file.readlines()
    if len(replies) != len(lines):
        raise Fault(FAILED, "the program ended unexpectedly: replies are missing")
    return replies


def _spot_in(reply: bytes) -> Spot | None:
    """Parses the place in a reply of `where`; None if the cell is unplaced."""
    words = reply.decode("ascii", "backslashreplace").split()
    if words[:1] == ["ok"]:
        return Spot(int(words[1]), int(words[2]), words[3])
    if words[:3] != ["no", "6", "Unplaced"]:
        raise _unexpected(reply)
    return None


def _unexpected(reply: bytes) -> Fault:
    """Makes the fault of an unexpected reply."""
    return Fault(FAILED, f"unexpected reply of the program: {reply.decode('ascii', 'backslashreplace').rstrip()!r}")


class RepairRun:
    """A finished repair and its report."""

    def __init__(
        self,
        tool: str,
        program: Program,
        options: list[str],
        folder: Path,
        is_exported: bool,
        teams: Sequence[str] = (),
        jobs: int = 1,
    ) -> None:
        """Has the program repair these teams, or all, by at most `jobs` runs at once. Its files go to a folder."""
        self._tool, self._program = tool, program
        # `exported` is the repaired DEF file, if one is requested: in the end with the places of all teams.
        self._lines, self.exported = folder / "lines", folder / "new.def"
        progress = Progress(tool, "the program repairs")
        if parts := divided(program, teams, jobs):
            report = repair_side_by_side(program, options, parts, self._lines, self.exported, progress)
        else:
            export = self.exported if is_exported else None
            report = program.repair([*options, *team_words(teams)], self._lines, export, progress)
        *self.teams, self.total = report
        with ExitStack() as stack:
            # (the program has loaded this text)
            self._units = int(units_in(map_file(program.texts[0], stack)))
        # The unrepaired cells of each team that has some.
        self.unrepaired: dict[str, list[str]] = {team["team"]: team["left"] for team in self.teams if team["left"]}

    def moves(self, is_all: bool) -> list[Move]:
        """The moves of the teams with unrepaired cells, or of all teams."""
        wanted = {team["team"]: team["left"] for team in self.teams if is_all or team["left"]}
        return moves_of(self._program, self._lines, wanted) if wanted else []

    def answers(self) -> list[tuple[bytes, bytes]]:
        """The lines of the repair, and the program's replies."""
        lines = self._lines.read_bytes().splitlines(keepends=True)
        return list(zip(lines, replies_of(self._program, lines)))

    def write(self, output: BinaryIO, moves: list[Move]) -> None:
        """Writes the program's export, with the places of teams that could not be committed, which it lacks. Then it
        prints the wire lengths.
        """
        if moves:
            spots = {move.cell: move.new for move in moves if move.old != move.new}
            self.exported.write_bytes(with_spots(self.exported.read_bytes(), spots))
        with open(self.exported, "rb") as file:
            shutil.copyfileobj(file, output)
        wires, notes = wires_or_note(self._program, self._program.with_design(self.exported))
        for text in [f"wire length: {wires.text(self._units)}"] if wires else notes:
            log(self._tool, text)

    def report(self, moves: list[Move]) -> None:
        """Prints the result of each team and its unrepaired cells on standard error."""
        old_spots = {(move.team, move.cell): move.old for move in moves}
        reported = [team for team in self.teams if team["cells"] or team["moved"] or team["turned"]]
        for team in reported:
            name = team["team"]
            self._report_counts(name, team, len(team["left"]))
            for cell, gap, reason in zip(team["left"], team["gaps"], team["impossible"], strict=True):
                old = old_spots[name, cell]
                if reason:
                    stays = f"it stays at {_spot_text(old)}" if old else "it stays unplaced"
                    log(self._tool, f"team {name}: no place can hold {cell}: {reason}; {stays}")
                    continue
                origin = f"was at {_spot_text(old)}" if old else "had none"
                widest = f"the widest gap of the rows near it is {gap / self._units:.3f} microns"
                near = widest if gap else "no site near it is free"
                log(self._tool, f"team {name}: no place for {cell}, which {origin}; {near}")
        if len(reported) > 1:
            self._report_counts("all", self.total, self.total["left_cells"])

    def _report_counts(self, name: str, counts: dict[str, Any], unrepaired: int) -> None:
        moved = counts["moved"]
        text = f"{moved} moved, {counts['turned']} turned, {counts['placed']} newly placed, {counts['kept']} unmoved"
        text += f", {unrepaired} unrepaired"
        if counts["pushed"]:
            text += f"; {number(counts['pushed'], 'legal cell')} pushed"
        log(self._tool, f"team {name}: {text}")
        if not moved:
            return
        mean, largest, least = (
            distance / self._units for distance in (counts["total"] / moved, counts["largest"], counts["least_largest"])
        )
        distances = f"mean {mean:.3f}, largest {largest:.3f}"
        # (the bound is for repairs that leave no cell on a soft blockage, which this one may do)
        if least <= largest:
            distances += f" (at least {least:.3f} in any repair)"
        log(self._tool, f"team {name}: displacement in microns: {distances}")


def print_moves(moves: list[Move], unrepaired: Mapping[str, list[str]]) -> None:
    """Prints a line for each cell that would move, on standard output."""
    unrepaired_cells = {(team, cell) for team, names in unrepaired.items() for cell in names}
    for move in moves:
        old, new = move.old, move.new
        if new is None or (move.team, move.cell) in unrepaired_cells and new != old:
            print(f"{move.team} {move.cell} {_spot_text(old)} -> no place")
        elif new != old:
            distance = abs(new.x - old.x) + abs(new.y - old.y) if old else None
            change = "" if distance is None else f" by {distance}" if distance else " turned"
            print(f"{move.team} {move.cell} {_spot_text(old)} -> {_spot_text(new)}{change}")


def _spot_text(spot: Spot | None) -> str:
    return f"{spot.x} {spot.y} {spot.orient}" if spot else "unplaced"
