"""Preparing a DEF file without rows or fences for the program."""

from __future__ import annotations

import subprocess
import unittest
from pathlib import Path

from support import PROGRAM, FrontCase, without_table

from lefence.base.description import Box
from lefence.base.faults import Fault
from lefence.base.lef import sites_of
from lefence.prepare.library_text import LibraryText
from lefence.prepare.preparation import PreparationOptions, Stages
from lefence.prepare.main import prepare

LEF = """VERSION 5.8 ;
PROPERTYDEFINITIONS MACRO SITE STRING ; END PROPERTYDEFINITIONS
SITE pad CLASS PAD ; SIZE 10 BY 10 ; END pad
SITE core SYMMETRY Y ; SIZE 0.2 BY 2.0 ; CLASS CORE ; END core # SITE x
SITE tall CLASS CORE ; SIZE 0.2 BY 4 ; END tall
MACRO INV CLASS CORE ; ORIGIN 0 0 ; SIZE 0.4 BY 2.0 ; SYMMETRY X Y ; SITE core ; END INV
MACRO FILL CLASS CORE ; ORIGIN 0 0 ; SIZE 0.2 BY 2.0 ; SYMMETRY X Y ; SITE core ; END FILL
END LIBRARY
"""
# Cells on a grid off the die's corner, one of them off the grid; fillers by name and by macro.
TEXT = """VERSION 5.8 ;
DESIGN t ;
UNITS DISTANCE MICRONS 1000 ;
# 1 2 ( 3 4 )
DIEAREA ( -100 -300 ) ( 4100 8100 ) ; # the die
TRACKS X -320.0 DO 3 STEP 80 LAYER m1 ;

COMPONENTS 7 ; # all
- a/one INV + PLACED ( 1050 2040 ) N ;
- a/two INV + SOURCE DIST + PLACED ( 1450 40 ) FS ;
- b/one INV + PLACED ( 50 4040 ) S ; - FILL_1 INV
  + PLACED ( 0 0 ) N ;
- b/two INV + PLACED ( 3100 50 ) N ;
- x FILL + FIXED ( 0 0 ) N ;
- y FILL ;
END COMPONENTS
NETS 1 ; - n ( a/one A ) ; END NETS
END DESIGN
"""
ROWS = """
ROW ROW_0 core 50 40 FS DO 20 BY 1 STEP 200 0 ;
ROW ROW_1 core 50 2040 N DO 20 BY 1 STEP 200 0 ;
ROW ROW_2 core 50 4040 FS DO 20 BY 1 STEP 200 0 ;
ROW ROW_3 core 50 6040 N DO 20 BY 1 STEP 200 0 ;"""
FENCES = """
REGIONS 2 ;
- A ( 0 0 ) ( 2000 8040 ) ( 2000 0 ) ( 2500 100 ) + TYPE FENCE ;
- B ( 3000 0 ) ( 4000 100 ) + TYPE FENCE ;
END REGIONS"""


class Preparations(FrontCase):
    def setUp(self) -> None:
        super().setUp()
        self.lef.write_text(LEF)
        self.design.write_text(TEXT)
        self.output = self.folder / "ready.def"

    def run_on(self, *words: str | Path) -> subprocess.CompletedProcess[bytes]:
        return self.tool(
            "lefence-prepare", self.design, self.lef, "--output", self.output, "--program", PROGRAM, *words
        )

    def test_the_sites_of_a_lef_text(self) -> None:
        sites = [(site.name, site.is_core, float(site.width), float(site.height)) for site in sites_of(LEF.encode())]
        self.assertEqual(sites, [(b"pad", False, 10, 10), (b"core", True, 0.2, 2), (b"tall", True, 0.2, 4)])

    def test_rows_fences_and_groups_are_added_and_fillers_removed(self) -> None:
        fences = "--fence A 0 0 2 8.04 --fence B 3 0 4 .1 --fence A 2 0 2.5 0.1 --group A a/* --group B nothing".split()
        done = self.run_on("--fillers", "FILL*", *fences)
        text = TEXT.replace("\nTRACKS", f"{ROWS}\nTRACKS").replace("\n\nCOMPONENTS 7", f"{FENCES}\n\nCOMPONENTS 4")
        for filler in (" - FILL_1 INV\n  + PLACED ( 0 0 ) N ;", "\n- x FILL + FIXED ( 0 0 ) N ;", "\n- y FILL ;"):
            text = text.replace(filler, "")
        groups = "\nGROUPS 2 ;\n- A a/* + REGION A ;\n- B nothing + REGION B ;\nEND GROUPS"
        text = text.replace("\nEND DESIGN", f"{groups}\nEND DESIGN")
        expected = (
            "4 rows of site core added: 20 sites each, the first at 50 40 is FS",
            "the rows follow the 5 placed cells: 3 fit along x, 3 along y, 3 have their row's orientation",
            "3 fillers removed (FILL*)",
            "fence A added: 2 rectangles",
            "fence B added: 1 rectangle",
            "nothing of group B matches no component",
            "fence B has no cells",
            "1 cell of team - is inside fence A: b/one; --adopt A binds them to its team",
            "team A has 2 cells",
            "it loads: 4 cells, 0 unplaced, 2 illegal (1 by rule 2 Row, 1 by rule 6 Fence)",
        )
        self.assertEqual((done.returncode, done.stdout), (0, b""), done.stderr)
        output = without_table(done.stderr.decode().replace("lefence-prepare: ", ""))
        self.assertEqual(output.splitlines(), [*expected])
        self.assertEqual(self.output.read_text(), text)

    def test_rows_start_at_the_corner_if_the_cells_have_no_grid(self) -> None:
        for text, expected in (
            (TEXT.replace("PLACED", "UNPLACED"), "no cell is placed"),
            (TEXT.replace("( 50 4040 )", "( 3 77 )"), "less than half of the 5 placed cells agree on a grid"),
        ):
            preparation = Stages(text.encode())
            prepare(preparation, PreparationOptions(), [LEF.encode()], None)
            self.assertEqual(preparation.messages[1], f"{expected}: the rows start at the core's corner with N")
            rows = b"\nROW ROW_0 core -100 -300 N DO 21 BY 1 STEP 200 0 ;\nROW ROW_1 core -100 1700 FS "
            self.assertIn(rows, preparation.result())

    def test_existing_sections_are_extended(self) -> None:
        self.design.write_text(self.output_of("--fence", "A", *"0011", "--group", "A", "a/*"))
        text = self.output_of("--fence", "B", *"1021", "--group", "A", "b/*", "--group", "B", "x")
        regions = "- A ( 0 0 ) ( 1000 1000 ) + TYPE FENCE ;\n- B ( 1000 0 ) ( 2000 1000 ) + TYPE FENCE ;\n"
        self.assertIn(f"\nREGIONS 2 ;\n{regions}END REGIONS", text)
        self.assertIn(
            "\nGROUPS 3 ;\n- A a/* + REGION A ;\n- A_2 b/* + REGION A ;\n- B x + REGION B ;\nEND GROUPS", text
        )
        self.design.write_text(text)
        self.assertEqual(self.output_of(), text)
        other = self.output_of(
            "--rows", "--site", "tall", "--core", "0", "0", "4", "9", "--margin", "0.3", "--force", status=1
        )
        rows = "\nROW ROW_0 tall 300 300 N DO 17 BY 1 STEP 200 0 ;\nROW ROW_1 tall 300 4300 FS DO 17 BY 1 STEP 200 0 ;"
        self.assertIn(f" # the die{rows}\nTRACKS", other)

    def output_of(self, *words: str, status: int = 0) -> str:
        done = self.run_on(*words)
        self.assertEqual(done.returncode, status, done.stderr)
        return self.output.read_text()

    def test_a_design_that_does_not_load_is_written_only_by_force(self) -> None:
        self.lef.write_text(LEF.replace("MACRO FILL", "MACRO GAP").replace("END FILL", "END GAP"))
        done = self.run_on()
        lines = TEXT.replace("\nTRACKS", f"{ROWS}\nTRACKS").split("\n")
        line = next(line for line in lines if line.startswith("- x FILL"))
        says = "no LEF file has this MACRO in front of its END LIBRARY"
        where = f"the prepared DEF file, line {lines.index(line) + 1} ({says}): {line}\n"
        expected = f"it does not load: 14 NoMacro FILL; {where}".encode()
        expected += b"lefence-prepare: nothing is written; --force writes it anyway\n"
        self.assertEqual((done.returncode, self.output.exists()), (1, False))
        self.assertTrue(done.stderr.endswith(expected), done.stderr)
        done = self.run_on("--force")
        self.assertEqual((done.returncode, self.output.read_text()), (1, TEXT.replace("\nTRACKS", f"{ROWS}\nTRACKS")))

    def test_impossible_requests_are_reported(self) -> None:
        text = self.design.read_text()
        for change, words, status, expected in (
            (("DIEAREA", "HISTORY"), (), 1, "the DEF file has no DIEAREA; use --core to place the rows"),
            (
                ("( 4100 8100 )", "( 0 1 ) ( 0 0 )"),
                (),
                1,
                "DIEAREA is not a rectangle in whole database units; use --core",
            ),
            (("UNITS", "HISTORY"), (), 1, "the DEF file has no UNITS DISTANCE MICRONS"),
            (("MICRONS 1000", "MICRONS 1"), (), 1, "site core is not a whole number of database units: 0.2"),
            (
                ("( 4100 8100 )", "( 4100 2147483647 )"),
                (),
                1,
                "1073741 rows of site core fit into the core; the",
            ),
            (
                ("", ""),
                ("--margin", "3"),
                1,
                "no row of site core fits into the core: ( 2900 2700 ) ( 1100 5100 ) database",
            ),
            (("", ""), ("--margin", "1e3"), 2, "1e3 is not a length in microns"),
            (
                ("", ""),
                ("--site", "pad"),
                1,
                "no LEF file has a site pad with CLASS CORE and a SIZE; found: core, tall",
            ),
            (("", ""), ("--group", "A", "x"), 1, "no fence A for the group; --fence A adds one"),
            (("", ""), ("--fence", "a;b c", *"0011"), 2, "'a;b c' cannot be a name in a DEF file"),
            (
                ("", ""),
                ("--fence", "A", *"1100"),
                2,
                "1 1 0 0 is not a rectangle: X1 Y1 X2 Y2 are left, bottom, right and top",
            ),
            (
                ("", ""),
                ("--fence", "A", "0.0001", *"011"),
                1,
                "0.0001 microns is not a whole number of database units: 0.1",
            ),
            (
                ("TRACKS", f"{ROWS} TRACKS"),
                ("--margin", "1"),
                2,
                "the DEF file has rows; --rows replaces them",
            ),
        ):
            self.design.write_text(text.replace(*change, 1))
            done = self.run_on(*words)
            self.assertEqual((done.returncode, self.output.exists()), (status, False), done.stderr)
            self.assertTrue(done.stderr.decode().startswith(f"lefence-prepare: {expected}"), done.stderr)

    def test_any_bytes_end_without_a_traceback(self) -> None:
        for _ in range(300):
            text = bytearray(TEXT.encode())
            for _ in range(self.rng.randrange(1, 4)):
                at = self.rng.randrange(len(text))
                odd = self.rng.choice([b"", b";", b"\xff", b" - ", b" END ", b'"', b"9" * 30, b"#"])
                text[at : at + self.rng.randrange(30)] = odd
            wanted = PreparationOptions(
                fillers=["F*"],
                fences={"A": [Box(0, 0, 1, 1)]},
                groups={"A": ["*"]},
                fixed=["x*"],
                adds_halos=True,
                splits_patterns=True,
            )
            LibraryText(bytes(text)).result()
            try:
                preparation = Stages(bytes(text))
                self.assertIsInstance(preparation.next().units, int)
                prepare(preparation, wanted, [bytes(text), LEF.encode()], None)
                preparation.result()
            except Fault:
                pass


if __name__ == "__main__":
    unittest.main()
