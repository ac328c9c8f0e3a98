"""Fillers: the free sites of each team's rows are filled, and the design stays as legal as it was."""

from __future__ import annotations

import subprocess
import unittest
from pathlib import Path

from support import AREAS, LEF, PROGRAM, TEAMS, FrontCase, klayout, with_klayout

from lefence.base.description import Description
from lefence.fill.main import Masters

FILLERS = """MACRO F4 CLASS CORE SPACER ; SIZE 0.8 BY 2.0 ; SYMMETRY X Y ; END F4
MACRO F1 CLASS CORE SPACER ; SIZE 0.2 BY 2.0 ; SYMMETRY X Y ; END F1
MACRO HIGH CLASS CORE SPACER ; SIZE 0.2 BY 4.0 ; END HIGH
END LIBRARY"""
ALL = "--masters=F4,INV,F1"


class Fillers(FrontCase):
    def setUp(self) -> None:
        super().setUp()
        self.lef.write_text(LEF.replace("END LIBRARY", FILLERS))
        done = self.tool("lefence-repair", self.design, self.lef, "-o", self.design, "--program", PROGRAM)
        self.assertEqual(done.returncode, 0, done.stderr)
        self.filled = self.folder / "filled.def"

    def fill(self, *words: str | Path, design: Path | None = None) -> subprocess.CompletedProcess[bytes]:
        done = self.tool(
            "lefence-fill", design or self.design, self.lef, "-o", self.filled, "--program", PROGRAM, *words
        )
        self.assertNotIn(b"Traceback", done.stderr)
        return done

    def test_every_site_is_filled_and_emptied_again(self) -> None:
        done = self.fill(ALL)
        self.assertEqual(done.returncode, 0, done.stderr)
        with Description(PROGRAM, self.filled, [self.lef]) as description:
            cells = list(description.cells())
            frame, total = description.frame, description.total
        self.assertEqual((total.unplaced, total.illegal), (0, 0))
        # (the cells do not overlap, and have the area of the rows)
        self.assertEqual(
            sum(cell.box.area for cell in cells if cell.box), sum(row.box.area for row in frame.rows)
        )
        # a fence's fillers are of its team
        self.assertEqual({cell.team for cell in cells if cell.name.startswith("FILLER_")}, set(frame.teams))
        self.assertIn(f"team f{TEAMS - 1}: ", done.stderr.decode())
        done = self.tool("lefence-fill", self.filled, self.lef, "-o", "back.def", ALL, "--remove")
        self.assertEqual(done.returncode, 0, done.stderr)
        back = (self.folder / "back.def").read_text()
        self.assertEqual(back, self.design.read_text())

    @with_klayout
    def test_klayout_finds_no_overlap_of_fillers(self) -> None:
        self.assertEqual(self.fill(ALL).returncode, 0)
        words = ("-b", "-rd", f"design={self.filled}", "-rd", f"lef={self.lef}")
        count, total, union = klayout(self.folder, AREAS, *words)[0].split()
        self.assertEqual(float(total), float(union))
        self.assertEqual(int(count), self.filled.read_text().count("+ PLACED"))

    def test_a_gap_that_no_master_fits_is_reported(self) -> None:
        done = self.fill("--masters", "F4", "--team", "f1")
        self.assertEqual(done.returncode, 4, done.stderr)
        self.assertRegex(done.stderr.decode(), r"team f1: \d+ fillers \(\d+ F4\); \d+ gaps of \d+ sites too small\n")
        with Description(PROGRAM, self.filled, [self.lef]) as description:
            self.assertEqual(
                {cell.team for cell in description.cells() if cell.name.startswith("FILLER_")}, {"f1"}
            )
            self.assertEqual(description.total.illegal, 0)

    def test_soft_blockages_can_stay_free(self) -> None:
        soft = "BLOCKAGES 1 ;\n- PLACEMENT + SOFT RECT ( 69100 0 ) ( 70500 2000 ) ;\nEND BLOCKAGES\n"
        self.design.write_text(self.design.read_text().replace("GROUPS 8", f"{soft}GROUPS 8"))
        for words, is_free in ((("--off-soft",), True), ((), False)):
            self.assertEqual(self.fill(ALL, "--prefix", "GAP", *words).returncode, 0)
            with Description(PROGRAM, self.filled, [self.lef]) as description:
                boxes = [cell.box for cell in description.cells() if cell.box and cell.name.startswith("GAP")]
            over = [box for box in boxes if box.bottom == 0 and box.left < 70500 and box.right > 69100]
            self.assertEqual(not over, is_free)

    def test_bad_masters_are_refused(self) -> None:
        for name, expected in (
            ("NONE", "no LEF file has a macro NONE"),
            ("HIGH", "macro HIGH is not one row high and a whole number of sites wide"),
        ):
            done = self.fill("--masters", name)
            self.assertEqual((done.returncode, done.stderr.decode()), (1, f"lefence-fill: {expected}\n"))
        self.assertEqual(self.fill("--masters", ",").returncode, 2)
        self.assertFalse(self.filled.exists())

    def test_an_illegal_design_gets_no_further_violation(self) -> None:
        text = self.design.read_text()
        self.design.write_text(text.replace("- f0c1 INV + PLACED ( ", "- f0c1 INV + PLACED ( 1", 1))
        self.assertIn(self.fill(ALL).returncode, (0, 4))
        before, after = (
            int(self.checked(path).stdout.count(b'"rule"')) for path in (self.design, self.filled)
        )
        self.assertEqual(after, before)

    def checked(self, path: Path) -> subprocess.CompletedProcess[bytes]:
        return subprocess.run([PROGRAM, "check", path, self.lef], capture_output=True, check=False)


class Gaps(unittest.TestCase):
    def test_the_widest_come_first_if_nothing_remains(self) -> None:
        for widths, sites, expected in (
            ({"A": 1, "B": 4}, 9, ["B", "B", "A"]),
            ({"A": 2, "B": 3}, 4, ["A", "A"]),
            ({"A": 2, "B": 3}, 1, []),
            ({"A": 3, "B": 5}, 7, ["A", "A"]),
            ({"A": 4}, 7, ["A"]),
        ):
            self.assertEqual(Masters(widths).of_gap(sites), expected)
        self.assertEqual(len(Masters({"A": 8, "B": 3}).of_gap(1_000_003)), 125_001)


if __name__ == "__main__":
    unittest.main()
