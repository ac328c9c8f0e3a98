#!/usr/bin/env python3
"""Prints the time and memory of lefence-markers and lefence-summary over designs whose cells are all illegal.

usage: bench/tools.py [CELLS [PROGRAM]]    (1,000,000; a description written in advance, in place of the program)

In `off` the cells are half a site off their sites. In `pairs` each cell overlaps another one, which is half the text
away.
"""

from __future__ import annotations

import multiprocessing
import os
import random
import subprocess
import sys
import tempfile
import time
from collections.abc import Iterator
from pathlib import Path

TOP = Path(__file__).resolve().parents[1]
SITE, ROW, WIDE = 200, 2000, 4
LEF = """SITE core CLASS CORE ; SYMMETRY Y ; SIZE 0.2 BY 2.0 ; END core
MACRO INV CLASS CORE ; SIZE 0.4 BY 2.0 ; SYMMETRY X Y ; END INV
END LIBRARY
"""
# A cell: its name, its corner, the rule that it breaks and the other cell.
Cell = tuple[str, int, int, int, str | None]


class Design:
    """Cells in rows, as a DEF text and as the program describes it."""

    def __init__(self, kind: str, cells: int, seed: int = 0, moved: int = 0) -> None:
        self.rows = max(2, int((cells / 5) ** 0.5))
        self.sites = (-(-cells // self.rows) + moved + 1) * WIDE
        half = cells // 2
        self.cells: list[Cell] = []
        for at in range(cells):
            spot = at % half if kind == "pairs" else at
            x, y = (spot // self.rows + moved) * WIDE * SITE, spot % self.rows * ROW
            other = f"block/instance_{(at + half) % cells}" if kind == "pairs" else None
            self.cells.append((f"block/instance_{at}", x + (kind == "off") * SITE // 2, y, 8 if other else 2, other))
        if seed:
            random.Random(seed).shuffle(self.cells)

    def def_text(self) -> Iterator[str]:
        yield "DESIGN bench ;\nUNITS DISTANCE MICRONS 1000 ;\n"
        for row in range(self.rows):
            orient = "N" if row % 2 == 0 else "FS"
            yield f"ROW r{row} core 0 {row * ROW} {orient} DO {self.sites} BY 1 STEP {SITE} 0 ;\n"
        yield f"COMPONENTS {len(self.cells)} ;\n"
        for name, x, y, _, _ in self.cells:
            yield f"- {name} INV + PLACED ( {x} {y} ) {'N' if y // ROW % 2 == 0 else 'FS'} ;\n"
        yield "END COMPONENTS\nEND DESIGN\n"

    def description(self) -> Iterator[str]:
        yield f'{{"kind":"design","name":"bench","site":"core","site_height":{ROW},"site_width":{SITE},"units":1000}}\n'
        for row in range(self.rows):
            box, orient = [0, row * ROW, self.sites * SITE, (row + 1) * ROW], "N" if row % 2 == 0 else "FS"
            yield f'{{"box":{box},"kind":"row","name":"r{row}","orient":"{orient}","sites":{self.sites}}}\n'
        for name, x, y, rule, other in self.cells:
            orient = "N" if y // ROW % 2 == 0 else "FS"
            known = f'"height":{ROW},"kind":"cell","macro":"INV","name":"{name}","orient":"{orient}"'
            overlapped = f'"{other}"' if other else "null"
            broken = f'"other":{overlapped},"rule":{rule}'
            yield f'{{"box":[{x},{y},{x + 400},{y + ROW}],{known},{broken},"team":"-","width":400}}\n'
        known = f'"cells":{len(self.cells)},"fences":0,"illegal":{len(self.cells)},"kind":"total","obstacles":0'
        yield f'{{{known},"rows":{self.rows},"soft":0,"unplaced":0}}\n'


def write(folder: Path, name: str, is_described: bool, *words: object, **more: int) -> str:
    """Writes the DEF text and returns its name. Without a program, writes the description that the program would print
    next to it.

    It is made in a separate process: the peak memory of a tool includes that of the process that starts it.
    """
    made = multiprocessing.Process(target=write_design, args=(folder, name, is_described, *words), kwargs=more)
    made.start()
    made.join()
    return f"{name}.def"


def write_design(folder: Path, name: str, is_described: bool, kind: str, cells: int, **more: int) -> None:
    design = Design(kind, cells, **more)
    with open(folder / f"{name}.def", "w") as file:
        file.writelines(() if is_described else design.def_text())
    if is_described:
        with open(folder / f"{name}.def.jsonl", "w") as file:
            file.writelines(design.description())


def measure(folder: Path, what: str, tool: str, *words: str) -> None:
    start = time.monotonic()
    with open(folder / "output", "wb") as output:
        process = subprocess.Popen([TOP / "front/bin" / tool, *words], cwd=folder, stdout=output, stderr=output)
    _, status, usage = os.wait4(process.pid, 0)
    if os.waitstatus_to_exitcode(status) not in (0, 4):
        sys.exit((folder / "output").read_text())
    busy = usage.ru_utime + usage.ru_stime
    print(
        f"{what:<35} {time.monotonic() - start:6.1f} s, {busy:6.1f} s busy, {usage.ru_maxrss / 1024:5.0f} MB",
        flush=True,
    )


def main() -> None:
    cells = int(sys.argv[1]) if len(sys.argv) > 1 else 1_000_000
    with tempfile.TemporaryDirectory(prefix="bench") as path:
        folder = Path(path)
        (folder / "t.lef").write_text(LEF)
        program = folder / "described"
        program.write_text('#!/bin/sh\ncat "$2.jsonl"\nexit 4\n')
        program.chmod(0o755)
        is_described = len(sys.argv) < 3
        with_program = ("t.lef", "--program", str(program) if is_described else os.path.abspath(sys.argv[2]))
        off, pairs = (write(folder, kind, is_described, kind, cells) for kind in ("off", "pairs"))
        moved = write(folder, "moved", is_described, "off", cells, moved=3)
        shuffled = write(folder, "shuffled", is_described, "off", cells, seed=1, moved=3)
        for name in (off, pairs):
            measure(folder, f"markers {name}", "lefence-markers", name, *with_program, "--output", "out.lyrdb")
            print(f"  a report database of {(folder / 'out.lyrdb').stat().st_size / 1e6:.0f} MB")
        measure(folder, "summary, cells in the same order", "lefence-summary", off, moved, *with_program)
        measure(folder, "summary, cells in another order", "lefence-summary", off, shuffled, *with_program)


if __name__ == "__main__":
    main()
