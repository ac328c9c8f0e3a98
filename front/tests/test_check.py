"""lefence-check: the table of teams, the first violations and their nearest legal places; other tools print it too."""

from __future__ import annotations

import json
import unittest
from pathlib import Path

from support import PROGRAM, FrontCase

# Fence A has the left half of two rows. Its cells: one on no site, two that overlap, one without a place, and one that
# is as wide as the fence; a cell of the ground is inside the fence.
LEF = """VERSION 5.8 ;
SITE core CLASS CORE ; SYMMETRY Y ; SIZE 0.2 BY 2.0 ; END core
MACRO INV CLASS CORE ; ORIGIN 0 0 ; SIZE 0.4 BY 2.0 ; SYMMETRY X Y ; SITE core ; END INV
MACRO WIDE CLASS CORE ; ORIGIN 0 0 ; SIZE 4.0 BY 2.0 ; SYMMETRY X Y ; SITE core ; END WIDE
END LIBRARY
"""
DEF = """VERSION 5.8 ; DESIGN t ; UNITS DISTANCE MICRONS 1000 ;
ROW r0 core 0 0 N DO 40 BY 1 STEP 200 0 ;
ROW r1 core 0 2000 FS DO 40 BY 1 STEP 200 0 ;
REGIONS 1 ; - A ( 0 0 ) ( 4000 4000 ) + TYPE FENCE ; END REGIONS
COMPONENTS 6 ;
- a1 INV + PLACED ( 100 0 ) N ;
- a2 INV + PLACED ( 1000 0 ) N ;
- a3 INV + PLACED ( 1200 0 ) N ;
- a4 INV ;
- a5 WIDE + PLACED ( 200 2000 ) FS ;
- g1 INV + PLACED ( 3600 0 ) N ;
END COMPONENTS
GROUPS 1 ; - g a* + REGION A ; END GROUPS
END DESIGN
"""
TEAMS = """team  cells  utilization  unplaced  illegal  by rule
A         5        70.0%         1        4  2 Row 1, 6 Fence 1, 8 Overlap 2
-         1         5.0%         0        1  6 Fence 1
all       6        37.5%         1        5  2 Row 1, 6 Fence 2, 8 Overlap 2
"""
CELLS = """cell  team  rule               at (microns)  nearest legal place
a1    A     2 Row              0.1 0 N       0 0 N, 0.1 away
a2    A     8 Overlap with a3  1 0 N         0.8 0 N, 0.2 away
a3    A     8 Overlap with a2  1.2 0 N       1.4 0 N, 0.2 away
a5    A     6 Fence            0.2 2 FS      0 2 S, 0.2 away
g1    -     6 Fence            3.6 0 N       4 0 N, 0.4 away
1 cell without a place: a4
"""


class Checks(FrontCase):
    def setUp(self) -> None:
        super().setUp()
        self.lef.write_text(LEF)
        self.design.write_text(DEF)

    def check(self, *words: str) -> tuple[int, str, str]:
        done = self.tool("lefence-check", self.design, self.lef, "--program", PROGRAM, *words)
        return done.returncode, done.stdout.decode(), done.stderr.decode()

    def test_teams_violations_and_the_nearest_legal_places(self) -> None:
        head = "t: 6 cells in 2 teams, 2 rows of 2 microns: NOT LEGAL\n"
        self.assertEqual(self.check(), (4, f"{head}{TEAMS}{CELLS}", ""))

    def test_a_legal_design_has_the_table_alone(self) -> None:
        self.design.write_text(self.repaired())
        status, output, _ = self.check()
        self.assertEqual(status, 0)
        head, _, *rows = output.splitlines()
        self.assertEqual(head, "t: 6 cells in 2 teams, 2 rows of 2 microns: legal")
        self.assertEqual([row.split()[0] for row in rows], ["A", "-", "all"])

    def repaired(self) -> str:
        target = self.folder / "new.def"
        done = self.tool("lefence-repair", self.design, self.lef, "-o", target, "--program", PROGRAM)
        self.assertEqual(done.returncode, 0, done.stderr)
        return target.read_text()

    def test_a_cell_without_a_legal_place_is_named(self) -> None:
        # (the other row is full too: nothing but a repair of several cells helps)
        text = DEF.replace("- a4 INV ;", "- a4 WIDE + PLACED ( 0 0 ) N ;")
        self.design.write_text(text)
        status, output, _ = self.check()
        self.assertEqual(status, 4)
        self.assertRegex(output, r"\na4 .* none: lefence-repair moves other cells too\n")

    def test_a_turned_cell_and_no_more_than_wanted(self) -> None:
        self.design.write_text(DEF.replace("( 100 0 ) N", "( 0 0 ) FS"))
        status, output, _ = self.check("--most", "1")
        self.assertEqual(status, 4)
        self.assertIn("\na1    A     4 Orient  0 0 FS        0 0 N, turned\n", output)
        self.assertIn("\n.. and 4 more that break a rule (--most N lists N; lefence-report makes a page)\n", output)
        _, output, _ = self.check("--most", "0")
        self.assertTrue(output.endswith("lefence-report makes a page)\n1 cell without a place\n"), output)

    def test_the_same_for_scripts(self) -> None:
        status, output, errors = self.check("--json", "--most", "2")
        self.assertEqual((status, errors), (4, ""))
        read = json.loads(output)
        self.assertEqual(read.pop("violations")[1], {
            **{"cell": "a2", "team": "A", "rule": 8, "rule_name": "Overlap", "other": "a3"},
            **{"at": [1.0, 0.0, "N"], "nearest": [0.8, 0.0, "N"], "distance": 0.2},
        })
        team = {"name": "A", "cells": 5, "utilization": 0.7, "unplaced": 1, "illegal": 4}
        self.assertEqual(read.pop("teams")[0], {**team, "rules": {"2": 1, "6": 1, "8": 2}})
        self.assertEqual(read.pop("all")["rules"], {"2": 1, "6": 2, "8": 2})
        known = {"design": "t", "units": 1000, "rows": 2, "row_height": 2.0, "legal": False}
        self.assertEqual(read, {**known, "unplaced": ["a4"]})

    def test_a_refused_design_ends_with_1(self) -> None:
        self.design.write_text(DEF.replace("UNITS", "#"))
        status, output, errors = self.check()
        self.assertEqual((status, output, errors[:26]), (1, "", "lefence-check: 7 NoUnits t"))

    def prepare(self, *words: str | Path) -> tuple[int, str, str]:
        done = self.tool("lefence-prepare", self.design, self.lef, "--program", PROGRAM, *words)
        return done.returncode, done.stdout.decode(), done.stderr.decode()

    def test_prepare_ends_with_the_table(self) -> None:
        status, output, _ = self.prepare("--look")
        self.assertEqual(status, 4)
        self.assertTrue(output.endswith(f"\n{TEAMS}"), output)
        status, _, errors = self.prepare("-o", "new.def")
        self.assertEqual(status, 0)
        self.assertTrue(errors.endswith("".join(f"lefence-prepare: {line}\n" for line in TEAMS.splitlines())), errors)

    def test_a_look_for_scripts(self) -> None:
        status, output, errors = self.prepare("--look", "--json")
        self.assertEqual((status, errors), (4, ""))
        read = json.loads(output)
        self.assertEqual((read["design"], read["status"], read["loads"]), (str(self.design), 4, True))
        [remark] = read["remarks"]
        self.assertEqual((remark["kind"], remark["line"]), ("cells inside fences", None))
        self.assertIn("--adopt A", remark["text"])
        self.assertEqual((read["teams"][1]["name"], read["all"]["illegal"]), ("-", 5))
        self.design.write_text(DEF.replace("COMPONENTS 6", "COMPONENTS 7").replace("core 0 0", "none 0 0"))
        status, output, _ = self.prepare("--look", "--json")
        read = json.loads(output)
        self.assertEqual((status, read["status"], read["loads"], read["teams"], read["all"]), (1, 1, False, None, None))
        self.assertEqual([(each["kind"], each["line"]) for each in read["remarks"]], [("wrong counts", 5)])
        self.assertIn("8 NoSite none", read["messages"][0])
        self.assertEqual(self.prepare("--json", "-o", "new.def")[0], 2)

    def test_a_repair_ends_with_the_table_of_what_it_wrote(self) -> None:
        done = self.tool("lefence-repair", self.design, self.lef, "-o", "new.def", "--program", PROGRAM)
        lines = [line.removeprefix("lefence-repair: ") for line in done.stderr.decode().splitlines()]
        at = lines.index("team  cells  utilization  unplaced  illegal  by rule")
        self.assertEqual([line.split()[0] for line in lines[at + 1 : -1]], ["A", "-", "all"])
        self.assertEqual(lines[-1], "every cell is legal")
        done = self.tool("lefence-repair", self.design, self.lef, "--dry-run", "--program", PROGRAM)
        self.assertNotIn(b"utilization", done.stderr)


if __name__ == "__main__":
    unittest.main()
