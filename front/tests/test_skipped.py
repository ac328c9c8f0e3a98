"""The list by `lefence-prepare` of what the program skips in a text."""

from __future__ import annotations

import gzip
import subprocess
import unittest
from pathlib import Path

from support import PROGRAM, FrontCase, without_table

from lefence.prepare.skipped import line_of

TEXT = """VERSION 5.8 ;
DESIGN t ;
UNITS DISTANCE MICRONS 1000 ;
DIEAREA ( 0 0 ) ( 8000 4000 ) ;
ROW r0 core 0 0 N DO 40 BY 1 STEP 200 0 ;
ROW r1 wide 0 2000 N DO 4 BY 1 STEP 2000 0 ;
ROW r2 wide 0 4000 N DO 4 BY 1 STEP 2000 0 ;
REGIONS 3 ;
- A ( 0 0 ) ( 2000 2000 ) + TYPE FENCE ;
- B ( 4000 0 ) ( 6000 2000 ) + TYPE FENCE ; - C ( 6000 0 ) ( 8000 2000 ) ;
END REGIONS
BLOCKAGES 1 ;
- PLACEMENT + SOFTT RECT ( 7000 0 ) ( 7200 2000 ) ;
END BLOCKAGES
COMPONENTS 7 ;
# a1
- a1 INV + PLAECD ( 0 0 ) N ; - a2 INV + SOURCE DIST
  + PLACED ( 400 0 ) N + WIEGHT 3 + PROPERTY why "+ PLAECD" ;
- b1 INV + REGION B + PLACED ( 2000 0 ) N ;
- c1 INV + PLACED ( 2400 0 ) N ;
- wall INV + FIXD ( 7600 0 ) N ;
END COMPONENTS
GROUPS 3 ;
- g a* zz* a1 nobody \\* + REGION A ; - h b* + REGOIN B ;
- i c1 + REGION C ;
END GROUPS
END DESIGN
"""
REMARKS = """t.def, line 15: COMPONENTS 7, but there are 5
t.def, line 13: + SOFTT of blockage PLACEMENT is not in DEF 5.8 and is skipped
t.def, line 17: + PLAECD of component a1 is not in DEF 5.8 and is skipped: it is unplaced
t.def, line 17: + WIEGHT of component a2 is not in DEF 5.8 and is skipped
t.def, line 21: + FIXD of component wall is not in DEF 5.8 and is skipped: it is unplaced
t.def, line 24: + REGOIN of group h is not in DEF 5.8 and is skipped
t.def, line 19: + REGION B of component b1 has no effect, only a group binds to a fence: it is in team -
t.def, line 24: nobody of group g matches no component
t.def, line 24: \\* of group g matches no component
t.def, line 24: zz* of group g matches no component
t.def, line 25: group i is bound to C, which is not a fence: its cells are in team -; --as-fence C makes it one
t.def, line 10: fence B has no cells
t.def, line 6: 2 rows of site wide skipped: the core site is core
"""


class Looks(FrontCase):
    def setUp(self) -> None:
        super().setUp()
        self.lef.write_text(
            self.lef.read_text().replace("MACRO INV", "SITE wide CLASS CORE ; SIZE 2 BY 2 ; END wide MACRO INV")
        )
        self.design.write_text(TEXT)

    def run_on(self, *words: str | Path) -> subprocess.CompletedProcess[bytes]:
        return self.tool("lefence-prepare", "t.def", "t.lef", "--program", PROGRAM, *words)

    def test_what_is_skipped_is_listed_with_its_line(self) -> None:
        done = self.run_on("--look")
        self.assertEqual((done.returncode, done.stderr), (4, b""))
        *remarks, last = without_table(done.stdout.decode()).splitlines()
        self.assertEqual(sorted(remarks), sorted(REMARKS.splitlines()))
        self.assertEqual(last, "it loads: 5 cells, 2 unplaced, 0 illegal")
        self.assertEqual(sorted(path.name for path in self.folder.iterdir()), ["t.def", "t.lef"])

    def test_a_text_without_odd_words_has_no_remarks(self) -> None:
        clean = (
            TEXT.replace("ROW r1 wide", "HISTORY")
            .replace("ROW r2 wide", "HISTORY")
            .replace("SOFTT", "SOFT")
            .replace("PLAECD (", "PLACED (")
        )
        clean = (
            clean.replace("WIEGHT", "WEIGHT")
            .replace("FIXD", "FIXED")
            .replace("REGOIN", "REGION")
            .replace("zz* a1 nobody \\*", "a1")
        )
        clean = clean.replace("COMPONENTS 7", "COMPONENTS 5").replace("- i c1 + REGION C ;\n", "- i c1 ;\n")
        self.design.write_text(clean)
        done = self.run_on("--look")
        output = without_table(done.stdout.decode())
        expected = "it loads: 4 cells, 0 unplaced, 1 illegal (1 by rule 6 Fence)\n"
        self.assertEqual((done.returncode, output), (0, expected))

    def test_a_preparing_run_lists_it_with_the_lines_of_its_input(self) -> None:
        done = self.run_on(
            "--output",
            "x.def",
            "--rows",
            "--fence",
            "D",
            *"6072",
            "--group",
            "D",
            "q*",
            "--fillers",
            "nothing",
            "--fillers",
            "c1",
        )
        lines = [line.removeprefix("lefence-prepare: ") for line in done.stderr.decode().splitlines()]
        self.assertEqual(done.returncode, 0, lines)
        for line in REMARKS.splitlines():
            passed = "skipped: the core" in line or "COMPONENTS" in line
            self.assertEqual(line in lines, not passed, (line, lines))
        for line in (
            "fence D has no cells",
            "q* of group D matches no component",
            "no component has a name or a macro that matches nothing",
        ):
            self.assertIn(line, lines)

    def test_only_the_first_of_many_alike_are_listed(self) -> None:
        self.design.write_text(
            TEXT.replace(
                "END COMPONENTS", "".join(f"- x{at} INV + PLCED ( 0 0 ) N ;\n" for at in range(9)) + "END COMPONENTS"
            )
        )
        output = self.run_on("--look").stdout.decode()
        self.assertEqual([f"of component x{at} " in output for at in range(9)], [True] * 5 + [False] * 4)
        self.assertIn("\nand 4 more: + PLCED in COMPONENTS\n", output)

    def test_one_that_makes_every_cell_illegal_does_not_end_with_0(self) -> None:
        text = "".join(f"- x{at} INV + PLACED ( {at * 400 + 50} 0 ) N ;\n" for at in range(3))
        start = TEXT.split("ROW r0")[0]
        self.design.write_text(f"{start}COMPONENTS 3 ;\n{text}END COMPONENTS\nEND DESIGN\n")
        done = self.run_on("--output", "x.def", "--core", *"1084")
        self.assertEqual((done.returncode, (self.folder / "x.def").exists()), (4, True), done.stderr)
        self.assertIn(b"every cell breaks a rule", done.stderr)
        self.lef.write_text(
            self.lef.read_text().replace("INV CLASS CORE ; ORIGIN 0 0 ; SIZE 0.4 BY 2.0", "INV SIZE 0.4 BY 2.5")
        )
        done = self.run_on("--output", "y.def")
        expected = b"no cell fits the rows of site core, 2 microns high: the cells are 2.5 microns high;"
        expected += b" --site NAME keeps the rows of another site, --rows --site NAME makes such rows\n"
        self.assertEqual((done.returncode, (self.folder / "y.def").exists()), (1, False), done.stderr)
        self.assertIn(expected, done.stderr)
        self.assertEqual(self.run_on("--output", "y.def", "--force").returncode, 1)
        self.assertTrue((self.folder / "y.def").exists())

    def test_look_at_a_text_that_does_not_load(self) -> None:
        self.design.write_text(TEXT.replace("UNITS", "HISTORY"))
        done = self.run_on("--look")
        self.assertEqual(done.returncode, 1)
        self.assertIn(b"+ PLAECD of component a1", done.stdout)
        says = b"there is no UNITS DISTANCE MICRONS, which says how many database units a micron has\n"
        expected = b"it does not load: 7 NoUnits t; t.def, line 2: DESIGN t ;\n" + says
        self.assertTrue(done.stdout.endswith(expected), done.stdout)
        self.design.write_text("DESIGN t ;\nUNITS DISTANCE MICRONS 1000 ;\nEND DESIGN\n")
        done = self.run_on("--look")
        where = b"t.def, line 1 (there is no ROW: lefence-prepare makes rows): DESIGN t ;\n"
        remark = b"no ROW; a run with --output adds rows, --floorplan FP.def takes those of another DEF file\n"
        expected = remark + b"it does not load: 9 NoRows t; " + where
        self.assertEqual((done.returncode, done.stdout), (1, expected))

    def test_a_file_that_is_not_def_is_reported(self) -> None:
        for text in (b"", self.lef.read_bytes(), gzip.compress(self.lef.read_bytes())):
            self.design.write_bytes(text)
            for words in (("--look",), ("-o", "x.def")):
                done = self.run_on(*words)
                output = "lefence-prepare: t.def has no DESIGN: it is not a DEF file\n"
                self.assertEqual((done.returncode, done.stdout, done.stderr.decode()), (1, b"", output))

    def test_look_excludes_options_that_prepare(self) -> None:
        for words in (
            ("--output", "x"),
            ("--rows",),
            ("--fence", "A", *"0011"),
            ("--fillers", "x"),
            ("--group", "A", "x"),
        ):
            done = self.run_on("--look", *words)
            self.assertEqual((done.returncode, done.stdout), (2, b""), done.stderr)
        self.assertEqual(self.run_on().returncode, 2)

    def test_lines_are_counted_from_1(self) -> None:
        self.assertEqual([line_of(b"a\nb\n", place) for place in range(4)], [1, 1, 2, 2])


if __name__ == "__main__":
    unittest.main()
