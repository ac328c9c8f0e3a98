"""A design of 20,000 cells of one to eight rows, most of them displaced, over sessions of more than 50,000 lines.

No contract can say that memory is available: commands that need it only for large inputs must not reply `OutOfMemory`.
"""

from __future__ import annotations

import json
import random
import re
import tempfile
import unittest
from collections.abc import Callable
from pathlib import Path
from typing import NamedTuple

from program import Service, Session, Talk, run

CELLS = 20_000
FENCES = 4
# Sites of a fence, and of the ground next to it.
WIDE = 250
LINES = 50_000
# Heights of macros in rows. For each height there are widths from 2 to 11 sites.
HEIGHTS = (1,) * 8 + (2,) * 4 + (3, 3, 4, 4, 5, 6, 7, 8)
MACROS = [(sites, rows) for rows in HEIGHTS for sites in range(2, 12)]
# The percentage of the spots in a packed floor that have a cell.
FILLED = 60
PLACEMENT = re.compile(r" \+ PLACED \( -?\d+ -?\d+ \) \w+")
TURNED = {"N": "FN", "FN": "N", "FS": "S", "S": "FS"}


class Cell(NamedTuple):
    """A cell at its spot: its macro's number, x in sites, its bottom row, and its team."""

    macro: int
    x: int
    row: int
    team: str


def lef_text() -> str:
    """The macros, all with the ground rail at the bottom."""
    parts = ["VERSION 5.8 ;\nSITE core\n  CLASS CORE ;\n  SYMMETRY Y ;\n  SIZE 0.2 BY 2.0 ;\nEND core\n"]
    for number, (sites, rows) in enumerate(MACROS):
        width, height = f"{sites * 0.2:.1f}", f"{rows * 2.0:.1f}"
        parts.append(
            f"MACRO M{number}\n  CLASS CORE ;\n  SIZE {width} BY {height} ;\n  SYMMETRY X Y ;\n  SITE core ;\n"
        )
        parts.append(
            f"  PIN VSS\n    USE GROUND ;\n    PORT\n      LAYER m1 ;\n      RECT 0 -0.1 {width} 0.1 ;\n    END\n"
        )
        parts.append(f"  END VSS\nEND M{number}\n")
    return "".join(parts) + "END LIBRARY\n"


def stacked(team: str, left: int, row: int, source: random.Random) -> list[Cell]:
    """Cells of a team next to each other in eight rows from this row on."""
    ends = [left] * 8
    cells: list[Cell] = []
    while True:
        sites, rows = MACROS[macro := source.randrange(len(MACROS))]
        bottoms = range(0, 9 - rows, 2 if rows % 2 == 0 else 1)
        bottom = min(bottoms, key=lambda begin: max(ends[begin : begin + rows]))
        x = max(ends[bottom : bottom + rows])
        if x + sites > left + WIDE:
            return cells
        ends[bottom : bottom + rows] = [x + sites] * rows
        if source.randrange(100) < FILLED:
            cells.append(Cell(macro, x, row + bottom, team))


def packed(source: random.Random) -> tuple[list[Cell], int]:
    """Cells at legal spots, in stripes of a fence and of the ground, and the number of rows that they take."""
    cells: list[Cell] = []
    rows = 0
    while len(cells) < CELLS:
        for stripe in range(2 * FENCES):
            team = f"f{stripe // 2}" if stripe % 2 == 0 else "-"
            cells += stacked(team, stripe * WIDE, rows, source)
        rows += 8
    return cells[:CELLS], rows


def displaced(number: int, cell: Cell, rows: int, source: random.Random) -> str:
    """The cell's entry: half a site or some sites and rows off its spot, or without a place. One in ten stays at its
    spot."""
    x, row, chance = cell.x * 200, cell.row, source.randrange(10)
    if chance < 5:
        x += 100
    elif chance < 8:
        x = max(0, x + 200 * source.randint(-20, 20))
        row = min(rows - 1, max(0, row + source.randint(-3, 3)))
    elif chance < 9:
        return f"- u{number} M{cell.macro} ;\n"
    return f"- u{number} M{cell.macro} + PLACED ( {x} {row * 2000} ) {'N' if row % 2 == 0 else 'FS'} ;\n"


def def_text(source: random.Random) -> tuple[str, list[str]]:
    """The design, in which the highest cells come first, so that a tidy finds room for them; and the team of each
    cell."""
    cells, rows = packed(source)
    cells.sort(key=lambda cell: -MACROS[cell.macro][1])
    parts = ["VERSION 5.8 ;\nDESIGN large ;\nUNITS DISTANCE MICRONS 1000 ;\n"]
    for row in range(rows):
        orient = "N" if row % 2 == 0 else "FS"
        parts.append(f"ROW r{row} core 0 {row * 2000} {orient} DO {2 * FENCES * WIDE} BY 1 STEP 200 0 ;\n")
    parts.append(f"REGIONS {FENCES} ;\n")
    for fence in range(FENCES):
        left = 2 * fence * WIDE * 200
        parts.append(f"- f{fence} ( {left} 0 ) ( {left + WIDE * 200} {rows * 2000} ) + TYPE FENCE ;\n")
    parts.append(f"END REGIONS\nCOMPONENTS {CELLS} ;\n")
    parts += [displaced(number, cell, rows, source) for number, cell in enumerate(cells)]
    parts.append(f"END COMPONENTS\nGROUPS {FENCES} ;\n")
    for fence in range(FENCES):
        names = " ".join(f"u{number}" for number, cell in enumerate(cells) if cell.team == f"f{fence}")
        parts.append(f"- g{fence} {names} + REGION f{fence} ;\n")
    return "".join(parts) + "END GROUPS\nEND DESIGN\n", [cell.team for cell in cells]


def entries(text: str) -> list[str]:
    """The entries of the cells in a DEF text."""
    return [line for line in text.split("\n") if line.startswith("- u")]


class Large(unittest.TestCase):
    """One design for all tests."""

    folder: tempfile.TemporaryDirectory[str]
    design: list[str]
    text: str
    teams: list[str]

    @classmethod
    def setUpClass(cls) -> None:
        cls.folder = tempfile.TemporaryDirectory(prefix="lefence-large-")
        path = Path(cls.folder.name)
        cls.text, cls.teams = def_text(random.Random(1))
        (path / "x.def").write_text(cls.text)
        (path / "x.lef").write_text(lef_text())
        cls.design = [str(path / "x.def"), str(path / "x.lef")]

    @classmethod
    def tearDownClass(cls) -> None:
        cls.folder.cleanup()

    def all_ok(self, talk: Talk, lines: list[str]) -> list[str]:
        """The replies to the lines. Each must be `ok`."""
        replies = talk.ask_all(lines)
        refused = [(line, reply) for line, reply in zip(lines, replies) if not reply.startswith("ok")]
        self.assertEqual(refused[:3], [])
        return replies

    def session(self, talk: Talk) -> list[str]:
        """Tidies every team, turns and queries every cell, and checks, writes and commits every team. Returns the
        entries written."""
        each = [f"f{fence}" for fence in range(FENCES)] + ["-"]
        count = 0

        def ask(lines: list[str]) -> list[str]:
            nonlocal count
            count += len(lines)
            return self.all_ok(talk, lines)

        ask([f"open {team}" for team in each])
        before = ask([f"check {team} 0" for team in each])
        self.assertGreater(min(len(json.loads(reply[3:])["violations"]) for reply in before), 1_000)
        tidied = ask([f"tidy {team} 0" for team in each])
        self.assertGreater(min(int(reply.split()[2]) for reply in tidied), 1_000)
        owned = list(enumerate(self.teams))
        found = [reply.split()[1:] for reply in ask([f"where {team} 0 u{cell}" for cell, team in owned])]
        ask([f"place {team} 0 u{cell} {x} {y} {TURNED[orient]}" for (cell, team), (x, y, orient) in zip(owned, found)])
        ask([f"find {team} 0 u{cell} {x} {y}" for (cell, team), (x, y, _) in list(zip(owned, found))[::2]])
        for team, reply in zip(each, ask([f"check {team} 0" for team in each])):
            report = {"cells": self.teams.count(team), "unplaced": 0, "violations": []}
            self.assertEqual(json.loads(reply[3:]), report)
        texts = [reply.partition("\n")[2] for reply in ask([f"def {team} 0" for team in each])]
        ask([f"commit {team} 0" for team in each])
        self.assertGreater(count, LINES)
        return [entry for text in texts for entry in entries(text)]

    def exported_by(self, ask: Callable[[list[str]], list[str]], name: str) -> None:
        """Checks the exported file: it is fully legal, differs from the design only in places, and has the entries that
        were written."""
        target = Path(self.folder.name) / name
        written = ask([*self.design, "--export", str(target)])
        ran = run(["check", str(target), self.design[1]])
        self.assertEqual(ran, (0, f'{{"cells":{CELLS},"unplaced":0,"violations":[]}}\n', ""))
        self.assertEqual(PLACEMENT.sub("", target.read_text()), PLACEMENT.sub("", self.text))
        self.assertEqual(sorted(entries(target.read_text())), sorted(written))

    def test_over_a_pipe(self) -> None:
        def ask(words: list[str]) -> list[str]:
            session = Session(["replay", *words])
            written = self.session(session)
            self.assertEqual(session.end(), (0, ""))
            return written

        self.exported_by(ask, "pipe.def")

    def test_over_one_connection(self) -> None:
        def ask(words: list[str]) -> list[str]:
            with Service(1, words) as service:
                with service.client() as client:
                    written = self.session(client)
                self.assertEqual(service.end(), (0, "listening\n", ""))
            return written

        self.exported_by(ask, "connection.def")

    def test_a_tidied_floor_is_saved_and_gone_on_from(self) -> None:
        state = str(Path(self.folder.name) / "x.state")
        each = [f"f{fence}" for fence in range(FENCES)] + ["-"]
        first = [line for team in each for line in (f"open {team}", f"tidy {team} 0", f"pad {team} 0 1")]
        later = [f"{verb} {team} 0" for team in each for verb in ("def", "undo", "check", "def")]

        def ask(words: list[str], lines: list[str]) -> list[str]:
            session = Session(["replay", *self.design, *words])
            replies = self.all_ok(session, lines)
            self.assertEqual(session.end(), (0, ""))
            return replies

        whole = ask([], first + later)
        cut = ask(["--save", state], first) + ask(["--state", state], later)
        self.assertEqual([line for line, old, new in zip(first + later, whole, cut, strict=True) if old != new], [])

    def test_a_report_of_all_cells_at_fault(self) -> None:
        status, written, said = run(["check", *self.design])
        self.assertEqual((status, said), (4, ""))
        report = json.loads(written)
        self.assertEqual((report["cells"], report["unplaced"]), (CELLS, CELLS - len(PLACEMENT.findall(self.text))))
        self.assertGreater(len(report["violations"]), CELLS // 2)


if __name__ == "__main__":
    unittest.main()
