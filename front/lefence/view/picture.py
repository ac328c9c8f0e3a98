"""lefence-picture: draws a design as an SVG or a PNG."""

from __future__ import annotations

import heapq
import os
import shutil
import subprocess
import sys
import tempfile
from contextlib import ExitStack
from itertools import zip_longest
from pathlib import Path

from ..base.atomic_file import atomic_file, refuse_inputs
from ..base.description import Box, Cell, Description
from ..base.faults import DONE, FAILED, USAGE, Fault, Parser, log, run_tool
from ..base.input_files import use_plain_files
from ..base.program import find_program
from ..base.progress import Progress
from .drawing import Drawing, Move
from .scene import LIMIT, Scene

TOOL = "lefence-picture"
# The most arrows drawn.
MOST_MOVES = 2000
# A script for KLayout: Qt draws the picture at twice its size.
_SCRIPT = """import pya
renderer = pya.QSvgRenderer("picture.svg")
size = renderer.defaultSize()
image = pya.QImage(size.width * 2, size.height * 2, pya.QImage.Format_RGB32)
image.fill(0xffffffff)
painter = pya.QPainter(image)
renderer.render(painter)
painter.end()
image.save("picture.png")
"""


class Moves:
    """The cells that moved between two placements. Cells in the same order in both are not kept in memory."""

    def __init__(self) -> None:
        self.count = 0
        self._longest: list[tuple[int, int, Move]] = []
        # The cells of each placement that are not found yet in the other one.
        self._waiting: tuple[dict[str, Box | None], dict[str, Box | None]] = ({}, {})

    def take(self, cell: Cell, is_after: bool) -> None:
        """Adds a cell of the placement before or after."""
        mine, others = self._waiting[is_after], self._waiting[not is_after]
        if cell.name not in others:
            mine[cell.name] = cell.box
            return
        other = others.pop(cell.name)
        before, after = (other, cell.box) if is_after else (cell.box, other)
        if before is not None and after is not None and before[:2] != after[:2]:
            self.count += 1
            move = Move(cell.name, before, after)
            entry = move.length, self.count, move
            if len(self._longest) < MOST_MOVES:
                heapq.heappush(self._longest, entry)
            else:
                heapq.heappushpop(self._longest, entry)

    def longest(self) -> list[Move]:
        """The longest moves, in the order in which they were found."""
        return [move for _, _, move in sorted(self._longest, key=lambda entry: entry[1])]


def drawing_of(
    program: str, design: Path, libraries: list[Path], before: Path | None = None, limit: int = LIMIT
) -> Drawing:
    """Reads a design for drawing. With a DEF file from before, arrows lead from the old places to the new ones."""
    with ExitStack() as both:
        description = both.enter_context(Description(program, design, libraries))
        old = None if before is None else both.enter_context(Description(program, before, libraries))
        scene, moves = Scene(description.frame, limit), Moves()
        cells = Progress(TOOL, "cells").over(description.cells())
        for cell, earlier in zip_longest(cells, old.cells() if old else ()):
            if old and earlier is not None:
                moves.take(earlier, False)
            if cell is not None:
                scene.take(cell)
                if old:
                    moves.take(cell, True)
    return Drawing(scene, moves.longest() if old else None, moves.count)


def png_of(drawing: Drawing, klayout: str) -> bytes:
    """Makes a PNG of the picture with KLayout."""
    with tempfile.TemporaryDirectory(prefix="lefence-picture") as folder:
        (Path(folder) / "picture.svg").write_text("".join(drawing.svg()), encoding="utf-8")
        (Path(folder) / "draw.py").write_text(_SCRIPT)
        words = [klayout, "-z", "-nc", "-rx", "-r", "draw.py"]
        # Qt draws without a screen and keeps its files in the folder.
        environment = {**os.environ, "QT_QPA_PLATFORM": "offscreen", "HOME": folder, "KLAYOUT_HOME": folder}
        done = subprocess.run(
            words,
            cwd=folder,
            env=environment,
            stdin=subprocess.DEVNULL,
            stdout=subprocess.PIPE,
            stderr=subprocess.STDOUT,
        )
        made = Path(folder) / "picture.png"
        if done.returncode != 0 or not made.exists():
            raise Fault(FAILED, f"klayout made no PNG: {done.stdout.decode(errors='backslashreplace').strip()}")
        return made.read_bytes()


def _klayout(outputs: list[Path]) -> str:
    """Finds KLayout if a PNG is requested. Raises a Fault if it is not installed."""
    is_needed = any(output.suffix.lower() == ".png" for output in outputs)
    found = shutil.which("klayout")
    if is_needed and found is None:
        raise Fault(
            USAGE, "a PNG needs klayout, which is not installed: install the Debian package klayout, or write an SVG"
        )
    return found or ""


def parser() -> Parser:
    made = Parser(
        TOOL,
        "Draws a design: rows, fences, obstacles, and cells in the colour of their team. Cells that break a rule are\n"
        "red. Many cells are drawn as a map of bins: the darker a bin, the more of its area is taken.",
        f"{TOOL} chip.def tech.lef cells.lef -o chip.svg\n"
        f"{TOOL} new.def tech.lef cells.lef --before chip.def -o moves.png",
    )
    made.add_design()
    add = made.add_argument
    text = "write an SVG, or a PNG if the name ends with .png; may be repeated (default: an SVG on standard output)"
    add("-o", "--output", metavar="FILE", type=Path, action="append", help=text)
    add("--before", metavar="DEF", type=Path, help="draw arrows from the cells' places in this DEF file")
    add(
        "--limit",
        metavar="N",
        type=int,
        default=LIMIT,
        help=f"draw a map if the design has more than N cells ({LIMIT})",
    )
    made.add_program()
    return made


def main() -> int:
    options = parser().parse_args()

    def work() -> int:
        use_plain_files(options, "design", "libraries", "before")
        outputs = options.output or []
        for output in outputs:
            refuse_inputs(output, [options.design, *options.libraries, *([options.before] if options.before else [])])
            if output.suffix.lower() not in ("", ".svg", ".png"):
                raise Fault(USAGE, f"{output}: the name of a picture must end with .svg or .png, not {output.suffix}")
        klayout = _klayout(outputs)
        program = find_program(options.program)
        drawing = drawing_of(program, options.design, options.libraries, options.before, max(0, options.limit))
        if not outputs:
            sys.stdout.buffer.writelines(piece.encode() for piece in drawing.svg())
            sys.stdout.buffer.flush()
        for output in outputs:
            with atomic_file(output) as file:
                if output.suffix.lower() == ".png":
                    file.write(png_of(drawing, klayout))
                else:
                    file.writelines(piece.encode() for piece in drawing.svg())
            log(TOOL, f"{output}: {output.stat().st_size} bytes")
        return DONE

    return run_tool(TOOL, work)
