"""The output of `lefence describe`: the frame at once, then the cells one by one, then the totals.

The tools that draw, check and repair a design use only this. They have no rules of legality of their own. Lengths are
database units. The keys are those of docs/CLI.md ("The description").
"""

from __future__ import annotations

import hashlib
import itertools
import json
import re
import sys
import time
from collections.abc import Callable, Iterator
from dataclasses import dataclass
from pathlib import Path
from typing import Any, NamedTuple

from .faults import FAILED, Fault
from .program import PAUSE, Program

# Exit statuses of a complete description: 0 if the design is fully legal, else 4.
_WRITTEN = (0, 4)
# A part of the last line only: in names, quotes are escaped.
_TOTAL = b'"kind":"total"'
# A part of the last line but one only.
_DENSITY = b'"kind":"density"'
# A text with its escapes; and the line of a cell with the keys that are known today.
_TEXT = rb'[^"\\]*(?:\\.[^"\\]*)*'
_CELL = re.compile(
    rb'^\{"box":(?:null|\[(-?\d+,-?\d+),(-?\d+,-?\d+)\]),"height":(\d+),"kind":"cell","macro":"%b","name":"(%b)",'
    rb'"orient":(?:null|"(\w+)"),"other":(?:null|"%b"),"rule":(?:null|(\d+)),"team":"(%b)","width":(\d+)\}$'
    % (_TEXT, _TEXT, _TEXT, _TEXT),
    re.M,
)
# The line of a cell, without the rule that it breaks and the cell that it overlaps: the keys in front of these, the
# keys after these, and the team.
_OWN_PART = re.compile(
    rb'^(\{.*?),"other":(?:null|"%b"),"rule":(?:null|\d+),("team":"(%b)","width":.*)$' % (_TEXT, _TEXT), re.M
)
# A cell as its line has it, `b""` for null: the lower left corner, the upper right corner, the height, the name, the
# orientation, the broken rule, the team and the width.
CellLine = tuple[bytes, bytes, bytes, bytes, bytes, bytes, bytes, bytes]


class Box(NamedTuple):
    """A rectangle, with its left and bottom edges and without its right and top edges."""

    left: int
    bottom: int
    right: int
    top: int

    @property
    def width(self) -> int:
        return self.right - self.left

    @property
    def height(self) -> int:
        return self.top - self.bottom

    @property
    def area(self) -> int:
        return self.width * self.height


class Facts(NamedTuple):
    """The design's name, its database units per micron, and the core site."""

    name: str
    units: int
    site: str
    site_width: int
    site_height: int


class Row(NamedTuple):
    """A core row and its number of sites."""

    name: str
    box: Box
    orient: str
    sites: int


class Fence(NamedTuple):
    """A fence; its name is its team's."""

    name: str
    rects: tuple[Box, ...]


class Obstacle(NamedTuple):
    """A FIXED component, or a rectangle of a placement blockage; the latter has no name."""

    name: str | None
    box: Box


class Cell(NamedTuple):
    """A movable cell with the size of its macro as it faces north; `box` and `orient` are None if it is unplaced.

    `rule` is the number of the first rule that it breaks, or None. `other` is the first cell that it overlaps, for rule
    8.
    """

    name: str
    team: str
    macro: str
    width: int
    height: int
    box: Box | None
    orient: str | None
    rule: int | None
    other: str | None


class TeamCells(NamedTuple):
    """The cells of a team: their number, and the SHA-256 of all that is known of them, in loading order.

    The rules that they break do not count, which cells of other teams may cause.
    """

    number: int
    sum: str


class Total(NamedTuple):
    """The totals of a design, with the number of cells that are unplaced or break a rule."""

    rows: int
    fences: int
    obstacles: int
    soft: int
    cells: int
    unplaced: int
    illegal: int


@dataclass
class Frame:
    """The part of a design that no team changes."""

    facts: Facts
    rows: list[Row]
    fences: list[Fence]
    obstacles: list[Obstacle]
    soft: list[Box]

    @property
    def teams(self) -> list[str]:
        """The teams of the fences in the order of the DEF file, then the ground team."""
        return [*(fence.name for fence in self.fences), "-"]

    @property
    def box(self) -> Box:
        """The smallest box around the rows, the fences and the obstacles."""
        boxes = [row.box for row in self.rows] + [rect for fence in self.fences for rect in fence.rects]
        boxes += [obstacle.box for obstacle in self.obstacles]
        return bounding_box(boxes)


def bounding_box(boxes: list[Box]) -> Box:
    """The smallest box around these boxes, which must not be empty."""
    return Box(
        min(box.left for box in boxes),
        min(box.bottom for box in boxes),
        max(box.right for box in boxes),
        max(box.top for box in boxes),
    )


class Description:
    """A description as it is read: first `frame`, then `cells()`, then `total`.

    As a context manager it closes itself. If the program fails, before the frame or later, reading raises a Fault with
    the program's status and message.
    """

    frame: Frame
    total: Total

    def __init__(self, program: str, design: Path, libraries: list[Path], state: Path | None = None) -> None:
        """Starts the program over a DEF file and LEF files, with the working places of a state if one is given; reads
        the frame.
        """
        self._run = Program(program, [design, *libraries]).describe(state)
        self._batches = self._read_batches()
        # Lines after the frame that were read with it.
        self._read_ahead: list[bytes] = []
        try:
            self.frame = self._read_frame()
        except BaseException:
            self.close()
            raise

    def __enter__(self) -> Description:
        return self

    def __exit__(self, *_: object) -> None:
        self.close()

    def close(self) -> None:
        """Ends the program if it still runs."""
        self._run.close()

    def cells(self) -> Iterator[Cell]:
        """Yields the movable cells in loading order, once. `total` is set after the last one."""
        return self._cells(lambda lines: lines)

    def cell_lines(self) -> Iterator[list[CellLine]]:
        """Yields the movable cells in loading order, many at a time, in a third of the time of `cells`. `total` is set
        after the last one.
        """
        for lines in itertools.chain([self._read_ahead], self._batches):
            total = lines.pop() if lines and _TOTAL in lines[-1] else None
            text = b"\n".join(lines)
            found: list[CellLine] = _CELL.findall(text)
            if len(found) < len(lines):
                # (a line has a key that is not known today)
                every = json.loads(b"[" + b",".join(lines) + b"]")
                found = [_line_of(_cell(line)) for line in every if line["kind"] == "cell"]
            elif b"\\" in text:
                found = [_unescaped(line) if b"\\" in line[3] or b"\\" in line[6] else line for line in found]
            yield found
            if total is not None:
                self._end(json.loads(total))
                return

    def cells_by_team(self) -> dict[str, TeamCells]:
        """Reads all cells and returns those of each team that has any. `total` is set afterwards."""
        counts: dict[bytes, int] = {}
        hashes: dict[bytes, Any] = {}
        for lines in itertools.chain([self._read_ahead], self._batches):
            total = lines.pop() if lines and _TOTAL in lines[-1] else None
            found = _OWN_PART.findall(b"\n".join(lines))
            if len(found) < len(lines):
                raise Fault(FAILED, "the program describes cells in another form")
            for head, tail, team in found:
                counts[team] = counts.get(team, 0) + 1
                hashes.setdefault(team, hashlib.sha256()).update(b"%b,%b\n" % (head, tail))
            if total is not None:
                self._end(json.loads(total))
                break
        return {_plain(team).decode(): TeamCells(counts[team], hashes[team].hexdigest()) for team in counts}

    def cells_of(self, team: str) -> Iterator[Cell]:
        """Yields the cells of one team. The lines of other teams are not parsed."""
        own = b'"team":%b,' % json.dumps(team).encode()
        return self._cells(lambda lines: [line for line in lines if own in line or _TOTAL in line])

    def _cells(self, wanted: Callable[[list[bytes]], list[bytes]]) -> Iterator[Cell]:
        for lines in itertools.chain([self._read_ahead], self._batches):
            # Parsing many lines in one call takes half the time.
            for line in json.loads(b"[" + b",".join(wanted(lines)) + b"]"):
                if line["kind"] == "cell":
                    yield _cell(line)
                elif line["kind"] == "total":
                    self._end(line)
                    return

    def _end(self, line: dict[str, Any]) -> None:
        """Reads the last line, and waits for the program to end."""
        self.total = Total(*(line[key] for key in Total._fields))
        if self._run.wait() not in _WRITTEN:
            raise self._fault()

    def _read_batches(self) -> Iterator[list[bytes]]:
        """Yields the lines in batches, without that of the density. Raises a Fault at the end of the output."""
        while True:
            try:
                lines = self._run.lines()
            except EOFError:
                raise self._fault() from None
            lines[-2:] = [line for line in lines[-2:] if _DENSITY not in line]
            yield lines
            time.sleep(PAUSE)

    def _fault(self) -> Fault:
        return self._run.fault("the program ended without its last line")

    def _read_frame(self) -> Frame:
        lines = ((batch, at, json.loads(text)) for batch in self._batches for at, text in enumerate(batch))
        _, _, line = next(lines)
        frame = Frame(Facts(*(line[key] for key in Facts._fields)), [], [], [], [])
        for batch, at, line in lines:
            match line["kind"]:
                case "row":
                    frame.rows.append(Row(line["name"], Box(*line["box"]), line["orient"], line["sites"]))
                case "fence":
                    frame.fences.append(Fence(line["name"], tuple(Box(*rect) for rect in line["rects"])))
                case "obstacle":
                    frame.obstacles.append(Obstacle(line["name"], Box(*line["box"])))
                case "soft":
                    frame.soft.append(Box(*line["box"]))
                case "cell" | "total":
                    self._read_ahead = batch[at:]
                    break
        return frame


def add_team(line: bytes, teams: list[str]) -> bool:
    """Adds the team to the list if the line is a fence. Returns False at the first line after the fences."""
    record = json.loads(line)
    if record["kind"] == "fence":
        teams.append(record["name"])
    return record["kind"] in ("design", "row", "fence")


def _cell(line: dict[str, Any]) -> Cell:
    """A cell of a line. Texts that many cells share are interned."""
    box = line["box"]
    return Cell(
        line["name"],
        sys.intern(line["team"]),
        sys.intern(line["macro"]),
        line["width"],
        line["height"],
        None if box is None else Box(*box),
        None if line["orient"] is None else sys.intern(line["orient"]),
        line["rule"],
        line["other"],
    )


def _line_of(cell: Cell) -> CellLine:
    """A cell as `cell_lines` yields it."""
    corners = (b"%d,%d" % cell.box[:2], b"%d,%d" % cell.box[2:]) if cell.box else (b"", b"")
    rule = b"" if cell.rule is None else b"%d" % cell.rule
    orient = (cell.orient or "").encode()
    return *corners, b"%d" % cell.height, cell.name.encode(), orient, rule, cell.team.encode(), b"%d" % cell.width


def _unescaped(line: CellLine) -> CellLine:
    """A cell whose name and team have no JSON escapes."""
    left_bottom, right_top, height, name, orient, rule, team, width = line
    return left_bottom, right_top, height, _plain(name), orient, rule, _plain(team), width


def _plain(text: bytes) -> bytes:
    """A text of a line without its JSON escapes."""
    if b"\\" in text.replace(b"\\\\", b"").replace(b'\\"', b""):
        return str(json.loads(b'"%b"' % text)).encode()
    return text.replace(b'\\"', b'"').replace(b"\\\\", b"\\")
