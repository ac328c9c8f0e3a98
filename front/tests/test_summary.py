"""The summary of each team's cells between two placements."""

from __future__ import annotations

import json
import unittest

from support import PROGRAM, FrontCase

from lefence.base.description import Box, Cell, Facts, Fence, Frame, Row
from lefence.view.displacement import notes_of, summary_of
from lefence.view.displacement_text import text_of

ROWS = [Row("r0", Box(0, 0, 8000, 2000), "N", 40), Row("r1", Box(0, 2000, 8000, 4000), "FS", 40)]
FRAME = Frame(Facts("t", 1000, "core", 200, 2000), ROWS, [Fence("A", (Box(0, 0, 4000, 4000),))], [], [])


def cell(name: str, team: str, place: tuple[int, int, str] | None, rule: int | None = None) -> Cell:
    """A cell of 400 by 2000."""
    if place is None:
        return Cell(name, team, "INV", 400, 2000, None, None, rule, None)
    x, y, orient = place
    return Cell(name, team, "INV", 400, 2000, Box(x, y, x + 400, y + 2000), orient, rule, None)


BEFORE = [
    cell("still", "A", (0, 0, "N")),
    cell("turned", "A", (400, 0, "N")),
    cell("near", "A", (801, 0, "N"), 2),
    cell("far", "A", (1000, 0, "N"), 8),
    cell("lost", "A", None),
    cell("new", "-", None),
    cell("gone", "-", (4000, 0, "N")),
]
AFTER = [
    cell("gone", "-", None),
    cell("new", "-", (4000, 0, "N")),
    cell("far", "A", (2000, 2000, "FS")),
    cell("near", "A", (800, 0, "N")),
    cell("turned", "A", (400, 0, "FN")),
    cell("still", "A", (0, 0, "N")),
    cell("added", "-", (7800, 2000, "FS"), 2),
]
TEXT = """t: 7 cells, rows of 2 microns

team  cells  moved  turned  newly placed  newly unplaced
A         4      2       1             0               0
-         3      0       0             1               1
all       7      2       1             1               1

team  violations  unplaced  ground taken
A         2 -> 0    1 -> 0         20.0%
-         0 -> 1    1 -> 1         15.0%
all       2 -> 1    2 -> 1         17.5%

displacement   mean  median  largest  total  in rows:  mean  median  largest
A             1.500   1.500    3.000  3.001            0.75    0.75     1.50
-                 -       -        -      -               -       -        -
all           1.500   1.500    3.000  3.001            0.75    0.75     1.50

cells by displacement, in rows
stay       2  ########################################
up to 1    1  ####################
up to 2    1  ####################
up to 5    0
up to 10   0
up to 20   0
up to 50   0
over 50    0

farthest  team       from       to  distance  in rows
far          A      1 0 N   2 2 FS     3.000     1.50
near         A  0.801 0 N  0.8 0 N     0.001     0.00

cells only in the design before: 1 (lost)

cells only in the design after: 1 (added)
"""


class Summaries(FrontCase):
    def test_a_text_for_terminals(self) -> None:
        self.assertEqual(text_of(summary_of(BEFORE, AFTER, FRAME)), TEXT)

    def test_the_order_of_the_cells_does_not_matter(self) -> None:
        text = text_of(summary_of(BEFORE, AFTER, FRAME))
        for _ in range(50):
            early, late = (self.rng.sample(cells, len(cells)) for cells in (BEFORE, AFTER))
            self.assertEqual(text_of(summary_of(early, late, FRAME)), text)

    def test_the_farthest_cells_are_listed(self) -> None:
        names = [f"c{at:03}" for at in range(500)]
        early = [cell(name, "A", (0, 0, "N")) for name in names]
        late = [cell(name, "A", (200 + 200 * (at // 3), 0, "N")) for at, name in enumerate(names)]
        for order in (late, late[::-1], self.rng.sample(late, len(late))):
            self.assertEqual(
                [far.name for far in summary_of(early, order, FRAME, 5).farthest],
                ["c498", "c499", "c495", "c496", "c497"],
            )
        self.assertEqual(
            (summary_of(early, late, FRAME, 0).farthest, len(summary_of(early, late, FRAME).farthest)), ([], 10)
        )

    def test_what_else_differs_is_noted(self) -> None:
        other = Frame(FRAME.facts, FRAME.rows[:1], [], FRAME.obstacles, FRAME.soft)
        self.assertEqual(notes_of(FRAME, FRAME), [])
        self.assertEqual(
            notes_of(FRAME, other), ["the rows differ: 2 before, 1 after", "the fences differ: 1 before, 0 after"]
        )
        summary = summary_of(BEFORE, [cell("still", "-", (0, 0, "N"))], other)
        self.assertEqual([(team.name, team.lost) for team in summary.teams], [("-", 2), ("A", 4)])
        self.assertEqual(summary.notes, ["cells that changed their team: 1"])
        self.assertEqual(text_of(summary).split("\n\n")[1], "note: cells that changed their team: 1")

    def test_two_files_are_summarized_for_scripts(self) -> None:
        text, after = self.design.read_text(), self.folder / "after.def"
        self.design.write_text(text.replace("- f0c1 INV ;", "- f0c1 INV + PLACED ( 100 0 ) N ;"))
        after.write_text(text.replace("- f0c1 INV ;", "- f0c1 INV + PLACED ( 5000 4000 ) N ;"))
        done = self.tool("lefence-summary", self.design, after, self.lef, "--json", "--program", PROGRAM)
        self.assertEqual((done.returncode, done.stderr), (0, b""))
        read = json.loads(done.stdout)
        lengths = {"total": 8.9, "mean": 8.9, "median": 8.9, "largest": 8.9}
        team = {
            **{"name": "f0", "cells": 10, "moved": 1, "turned": 0, "kept": 0, "newly_placed": 0, "newly_unplaced": 0},
            **{"only_before": 0, "only_after": 0, "displacement": lengths, "histogram": [0, 0, 0, 1, 0, 0, 0, 0]},
            **{"displacement_rows": dict.fromkeys(lengths, 4.45), "utilization": 0.15},
            **{"violations": {"before": 1, "after": 0}, "unplaced": {"before": 9, "after": 9}},
        }
        self.assertEqual(read.pop("teams")[0], team)
        self.assertEqual(read.pop("all"), {**team, "name": "all", "cells": 90, "unplaced": {"before": 89, "after": 89}})
        known = {"design": "t", "units": 1000, "row_height": 2.0, "bins": [0, 1, 2, 5, 10, 20, 50]}
        far = {
            "name": "f0c1",
            "team": "f0",
            "before": [0.1, 0, "N"],
            "after": [5, 4, "N"],
            "displacement": 8.9,
            "displacement_rows": 4.45,
        }
        self.assertIsNone(read.pop("wire_length"))
        self.assertEqual(read, {**known, "only_before": [], "only_after": [], "farthest": [far], "notes": []})

    def test_other_units_are_refused(self) -> None:
        other = self.folder / "other.def"
        other.write_text(self.design.read_text().replace("MICRONS 1000", "MICRONS 500").replace("STEP 200", "STEP 100"))
        done = self.tool("lefence-summary", "t.def", "other.def", "t.lef", "--program", PROGRAM)
        expected = b"lefence-summary: t.def has 1000 database units per micron, but other.def has 500\n"
        self.assertEqual((done.returncode, done.stdout, done.stderr), (1, b"", expected))


if __name__ == "__main__":
    unittest.main()
