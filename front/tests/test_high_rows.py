"""Rows with several sites upwards: `lefence-prepare --rows` writes them as single rows."""

from __future__ import annotations

import subprocess
from unittest import main

from support import PROGRAM, FrontCase

from lefence.base.description import Description

TEXT = """VERSION 5.8 ;
DESIGN t ;
UNITS DISTANCE MICRONS 1000 ;
DIEAREA ( 0 0 ) ( 8000 14000 ) ;
ROW R0 core 0 0 N DO 40 BY 2 STEP 200 2000 ; # two in one
ROW r1 core 0 4000 FS DO 40 BY 1 STEP 200 0 ;
ROW R0_1 core 0 6000 N DO 40 BY 3 STEP 200 ;
ROW pads pad 0 0 E DO 1 BY 40 STEP 0 200 ;
COMPONENTS 1 ;
- a INV + PLACED ( 400 2000 ) N ;
END COMPONENTS
END DESIGN
"""
SPLIT = """ROW R0__0 core 0 0 N DO 40 BY 1 STEP 200 0 ;
ROW R0__1 core 0 2000 N DO 40 BY 1 STEP 200 0 ; # two in one
ROW r1 core 0 4000 FS DO 40 BY 1 STEP 200 0 ;
ROW R0_1_0 core 0 6000 N DO 40 BY 1 STEP 200 ;
ROW R0_1_1 core 0 8000 N DO 40 BY 1 STEP 200 ;
ROW R0_1_2 core 0 10000 N DO 40 BY 1 STEP 200 ;
ROW pads pad 0 0 E DO 1 BY 40 STEP 0 200 ;
"""


class HighRows(FrontCase):
    def setUp(self) -> None:
        super().setUp()
        pad = "SITE pad CLASS PAD ; SIZE 0.2 BY 2.0 ; END pad\nMACRO INV"
        self.lef.write_text(self.lef.read_text().replace("MACRO INV", pad))
        self.design.write_text(TEXT.replace("STEP 200 ;", "STEP 200 0 ;"))

    def prepare(self, *words: str) -> subprocess.CompletedProcess[bytes]:
        return self.tool("lefence-prepare", self.design, self.lef, "--program", PROGRAM, *words)

    def test_the_look_names_the_option(self) -> None:
        done = self.prepare("--look")
        self.assertEqual(done.returncode, 1, done.stderr)
        expected = b"row R0 of line 5 has 2 sites upwards: --rows writes it as single rows\n"
        self.assertTrue(done.stdout.endswith(expected), done.stdout)

    def test_each_site_upwards_becomes_a_row(self) -> None:
        done = self.prepare("--rows", "-o", "new.def")
        self.assertEqual(done.returncode, 0, done.stderr)
        text = (self.folder / "new.def").read_text()
        self.assertIn(SPLIT.replace("STEP 200 ;", "STEP 200 0 ;"), text)
        for expected in (
            "line 5: row R0 has 2 sites upwards: written as single rows, R0__0 to R0__1\n",
            "line 7: row R0_1 has 3 sites upwards: written as single rows, R0_1_0 to R0_1_2\n",
        ):
            self.assertIn(f"lefence-prepare: {expected}", done.stderr.decode())
        with Description(PROGRAM, self.folder / "new.def", [self.lef]) as description:
            self.assertEqual(len(description.frame.rows), 6)
            self.assertEqual([cell.rule for cell in description.cells()], [None])

    def test_with_a_core_all_rows_are_replaced(self) -> None:
        done = self.prepare("--rows", "--core", "0", "0", "8", "4", "-o", "new.def")
        self.assertEqual(done.returncode, 0, done.stderr)
        self.assertEqual((self.folder / "new.def").read_text().count("\nROW "), 2)


if __name__ == "__main__":
    main()
