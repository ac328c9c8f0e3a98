"""Texts as flows write them: what `lefence-prepare` says of them and makes of them, and what the program then does.

The texts are our own, in the forms of Nangate45 and GF180 libraries (words in lower case, rails as polygons), memory
compilers (long decimals), OpenROAD, Innovus and ICC2 (halos, fillers in fences, regions without a type, four corners).
"""

from __future__ import annotations

import json
import re
import subprocess
from pathlib import Path
from unittest import main

from support import PLACES, PROGRAM, FrontCase, klayout, with_klayout

from lefence.base.description import Cell, Description

TECH = """VERSION 5.6 ;
UNITS DATABASE MICRONS 1000 ; END UNITS
SITE core
  SYMMETRY y ;
  CLASS core ;
  SIZE 0.2 BY 2.0 ;
END core
END LIBRARY
"""
CELLS = """VERSION 5.6 ;
MACRO INV class core ; FOREIGN INV 0 0 ; ORIGIN 0 0 ; SYMMETRY X Y ; SITE core ;
  SIZE 0.40000000000000002 BY 2e0 ;
  PIN VDD DIRECTION INOUT ; USE power ; PORT LAYER m1 ; RECT 0 1.9 0.4 2.1 ; END END VDD
END INV
MACRO DBL CLASS CORE ; SIZE 0.4 BY 4.0 ; SYMMETRY X Y ; SITE core ;
  PIN VDD DIRECTION INOUT ; USE power ;
    PORT LAYER m1 ; POLYGON 0 -0.1 0.4 -0.1 0.4 0.1 0.2 0.1 0.2 0.3 0 0.3 ; END
  END VDD
END DBL
END LIBRARY
MACRO RAM CLASS BLOCK ; SIZE 4.0 BY 20.0 ; SYMMETRY X Y R90 ; END RAM
end library
"""
ROWS = "".join(f"ROW r{row} core 0 {row * 2000} {('N', 'FS')[row % 2]} DO 100 BY 1 STEP 200 0 ;\n" for row in range(12))
DESIGN = f"""VERSION 5.8 ;
DESIGN chip ;
UNITS DISTANCE MICRONS 1000 ;
DIEAREA ( 0 0 ) ( 0 24000 ) ( 20000 24000 ) ( 20000 0 ) ;
{ROWS}REGIONS 2 ;
- dsp ( 0 0 ) ( 4000 4000 ) ( 4000 0 ) ( 6000 2000 ) + TYPE FENCE ;
- pd ( 0 8000 ) ( 4000 12000 ) ;
END REGIONS
COMPONENTS 9 ;
- u_dsp/a INV + PLACED ( 0 0 ) N ;
- u_dsp/b INV + PLACED ( 400 0 ) N ;
- FILLER_1 INV + SOURCE DIST + PLACED ( 3800 0 ) N ;
- FILLER_2 INV + SOURCE DIST + PLACED ( 4400 0 ) N ;
- FILLER_3 INV + SOURCE DIST + PLACED ( 5800 0 ) N ;
- u_pd/c INV + PLACED ( 0 8000 ) N ;
- ram1 RAM + FIXED ( 10000 2000 ) FS + HALO 200 400 600 800 ;
- ram2 RAM + PLACED ( 16000 0 ) N ;
- top/d DBL + PLACED ( 8000 2000 ) FS ;
END COMPONENTS
GROUPS 2 ;
- g u_dsp/* + REGION dsp ;
- h u_pd/* + REGION pd ;
END GROUPS
END DESIGN
"""


class Flows(FrontCase):
    def setUp(self) -> None:
        super().setUp()
        self.tech = self.folder / "tech.lef"
        self.tech.write_text(TECH)
        self.lef.write_text(CELLS)
        self.design.write_text(DESIGN)

    def prepare(self, *words: str | Path) -> subprocess.CompletedProcess[bytes]:
        done = self.tool("lefence-prepare", self.design, self.tech, self.lef, "--program", PROGRAM, *words)
        self.assertNotIn(b"Traceback", done.stderr)
        return done

    def prepared(self, *words: str) -> str:
        """The DEF text that the options make, over LEF files in the program's words."""
        done = self.prepare("--lef-output", "lef", "-o", "new.def", *words)
        self.assertEqual(done.returncode, 0, done.stderr)
        return (self.folder / "new.def").read_text()

    def cells(self) -> dict[str, Cell]:
        """The prepared design as the program describes it."""
        libraries = [self.folder / "lef" / path.name for path in (self.tech, self.lef)]
        with Description(PROGRAM, self.folder / "new.def", libraries) as description:
            return {cell.name: cell for cell in description.cells()}

    def test_lef_files_are_written_in_the_programs_words(self) -> None:
        self.assertEqual(self.prepare("-o", "new.def").returncode, 1)
        done = self.prepare("--lef-output", "lef")
        self.assertEqual(done.returncode, 0, done.stderr)
        tech = TECH.replace("SYMMETRY y", "SYMMETRY Y").replace("CLASS core", "CLASS CORE")
        self.assertEqual((self.folder / "lef/tech.lef").read_text(), tech)
        cells = CELLS.replace("class core", "CLASS CORE").replace("USE power", "USE POWER")
        cells = cells.replace("0.40000000000000002 BY 2e0", "0.4 BY 2").replace("END LIBRARY\nMACRO", "\nMACRO")
        polygon = "0 0.3 ; "
        cells = cells.replace(polygon, f"{polygon}RECT 0 -0.1 0.4 0.1 ; RECT 0 0.1 0.2 0.3 ; ")
        self.assertEqual((self.folder / "lef/t.lef").read_text(), cells.replace("end library", "END LIBRARY"))
        output = done.stderr.decode()
        for expected in (
            f"{self.tech}, line 4: y written as Y",
            f"{self.lef}, line 3: 0.40000000000000002 written as 0.4, and 1 more like it",
            f"{self.lef}, line 8: RECT added to pin VDD, which has a POLYGON alone",
            f"{self.lef}, line 11: END LIBRARY removed, since text follows it",
        ):
            self.assertIn(f"lefence-prepare: LEF file {expected}\n", output)
        verbose = self.prepare("--lef-output", "lef", "--verbose").stderr.decode()
        self.assertIn(f"{self.lef}, line 3: 0.40000000000000002 written as 0.4\n", verbose)
        self.assertIn(f"{self.lef}, line 3: 2e0 written as 2\n", verbose)
        # what is prepared needs nothing more
        self.tech, self.lef = self.folder / "lef/tech.lef", self.folder / "lef/t.lef"
        again = self.prepare("--lef-output", "again")
        self.assertEqual((again.returncode, again.stderr), (0, b""))

    def test_look_warns_of_what_may_go_wrong(self) -> None:
        output = self.prepare("--look").stdout.decode()
        self.assertIn(f"LEF file {self.tech}, line 4: y written as Y and 1 more like it would help", output)
        self.assertIn("1 FIXED component has a HALO, which the program skips: ram1; --halos", output)
        self.prepared("--fillers", "none")
        self.tech, self.lef = self.folder / "lef/tech.lef", self.folder / "lef/t.lef"
        done = self.prepare("--look")
        self.assertEqual(done.returncode, 4)
        output = done.stdout.decode()
        self.assertNotIn("LEF file", output)
        for expected in (
            "2 cells of team - are inside fence dsp: FILLER_1, FILLER_2; --adopt dsp binds them to its team\n",
            "1 cell can move and is higher than 8 rows: ram2 (RAM); no rows hold such a cell; --fix PATTERN",
            "group h is bound to pd, which is not a fence",
        ):
            self.assertIn(expected, output)
        self.tech.write_text(self.tech.read_text().replace("  SYMMETRY Y ;\n", ""))
        self.design.write_text(DESIGN.replace("( 400 0 ) N", "( 400 0 ) FN"))
        output = self.prepare("--look").stdout.decode()
        self.assertIn("1 cell is flipped against the row: u_dsp/b; site core has no SYMMETRY in its LEF file\n", output)

    def test_repair_prints_the_warnings(self) -> None:
        self.prepared("--fix", "RAM")
        self.tool("lefence-repair", "new.def", "lef/tech.lef", "lef/t.lef", "--dry-run")
        done = self.tool("lefence-repair", "new.def", "lef/tech.lef", "lef/t.lef", "--dry-run", "--program", PROGRAM)
        self.assertIn(
            b"lefence-repair: warning: 2 cells of team - are inside fence dsp: FILLER_1, FILLER_2; --adopt", done.stderr
        )

    def test_cells_inside_a_fence_join_its_team(self) -> None:
        text = self.prepared("--adopt", "d*", "--fix", "RAM")
        self.assertIn("GROUPS 3 ;\n", text)
        self.assertIn("- dsp FILLER_1 FILLER_2 + REGION dsp ;\nEND GROUPS", text)
        cells = self.cells()
        self.assertEqual([cells[f"FILLER_{at}"].team for at in (1, 2, 3)], ["dsp", "dsp", "-"])
        self.assertEqual([cells[f"FILLER_{at}"].rule for at in (1, 2)], [None, None])

    def test_macros_are_fixed_and_halos_kept_free(self) -> None:
        text = self.prepared("--fix", "RAM", "--halos")
        self.assertIn("- ram2 RAM + FIXED ( 16000 0 ) N ;", text)
        # (of FS, what is below faces up)
        self.assertIn("BLOCKAGES 1 ;\n- PLACEMENT RECT ( 9800 1200 ) ( 14600 22400 ) ;\nEND BLOCKAGES\nGROUPS", text)
        self.assertNotIn("ram2", self.cells())

    @with_klayout
    def test_klayout_reads_what_is_prepared_as_the_original(self) -> None:
        self.prepared("--adopt", "dsp", "--fix", "RAM", "--halos", "--as-fence", "pd")
        found = []
        for design, folder in ((self.design, self.folder), (self.folder / "new.def", self.folder / "lef")):
            lefs = f"{folder / self.tech.name},{folder / self.lef.name}"
            found.append(klayout(self.folder, PLACES, "-zz", "-rd", f"design={design}", "-rd", f"lefs={lefs}"))
        self.assertEqual(len(found[0]), 9)
        self.assertEqual(sorted(found[0]), sorted(found[1]))

    def test_halos_turn_with_their_components(self) -> None:
        for orient, expected in (
            ("N", "( 9800 1600 ) ( 14600 22800 )"),
            ("S", "( 9400 1200 ) ( 14200 22400 )"),
            ("W", "( 9200 1800 ) ( 30400 6600 )"),
            ("E", "( 9600 1400 ) ( 30800 6200 )"),
            ("FN", "( 9400 1600 ) ( 14200 22800 )"),
            ("FW", "( 9600 1800 ) ( 30800 6600 )"),
            ("FE", "( 9200 1400 ) ( 30400 6200 )"),
        ):
            self.design.write_text(DESIGN.replace("( 10000 2000 ) FS + HALO", f"( 10000 2000 ) {orient} + HALO"))
            self.assertIn(f"- PLACEMENT RECT {expected} ;\n", self.prepared("--fix", "RAM", "--halos"), orient)
        self.design.write_text(DESIGN.replace("+ HALO 200", "+ HALO SOFT 200"))
        self.assertIn("- PLACEMENT + SOFT RECT ( 9800 1200 )", self.prepared("--halos", "--fix", "RAM"))

    def test_a_region_without_a_type_becomes_a_fence(self) -> None:
        text = self.prepared("--as-fence", "pd", "--fix", "RAM")
        self.assertIn("- pd ( 0 8000 ) ( 4000 12000 ) + TYPE FENCE ;", text)
        self.assertEqual(self.cells()["u_pd/c"].team, "pd")
        for name, expected in (("dsp", "region dsp already has TYPE FENCE"), ("x", "the DEF file has no region x")):
            done = self.prepare("-o", "x.def", "--as-fence", name)
            self.assertEqual((done.returncode, expected in done.stderr.decode()), (1, True), done.stderr)

    def test_the_longest_of_nested_patterns_claims_a_component(self) -> None:
        text = DESIGN.replace("- pd ( 0 8000 ) ( 4000 12000 ) ;", "- pd ( 0 8000 ) ( 4000 12000 ) + TYPE FENCE ;")
        text = text.replace("u_pd/c", "u_dsp/u_pd/c").replace("- h u_pd/*", "- h u_dsp/u_pd/*")
        self.design.write_text(text)
        self.assertEqual(self.prepare("--lef-output", "lef", "-o", "new.def", "--fix", "RAM").returncode, 1)
        made = self.prepared("--longest-pattern", "--fix", "RAM")
        self.assertIn("- g u_dsp/a\n  u_dsp/b + REGION dsp ;\n- h u_dsp/u_pd/* + REGION pd ;", made)
        cells = self.cells()
        self.assertEqual([cells[name].team for name in ("u_dsp/a", "u_dsp/u_pd/c")], ["dsp", "pd"])
        self.design.write_text(text.replace("- h u_dsp/u_pd/*", "- h u_dsp/*"))
        done = self.prepare("-o", "x.def", "--longest-pattern")
        self.assertEqual(done.returncode, 1)

    def test_rows_of_the_wanted_site_remain(self) -> None:
        double = "SITE dbl CLASS CORE ; SIZE 0.2 BY 4.0 ; END dbl\n"
        self.tech.write_text(TECH.replace("END LIBRARY", f"{double}END LIBRARY"))
        row = "ROW d0 dbl 0 0 N DO 100 BY 1 STEP 200 0 ;\n"
        self.design.write_text(DESIGN.replace("ROW r0", f"{row}ROW r0"))
        expected = DESIGN.replace("PLACED ( 16000", "FIXED ( 16000")
        self.assertEqual(self.prepared("--site", "core", "--fix", "RAM"), expected)
        self.assertEqual(self.prepared("--drop-rows", "dbl", "--fix", "RAM"), expected)
        done = self.prepare("--lef-output", "lef", "-o", "x.def", "--site", "none")
        self.assertEqual(done.returncode, 1)

    def test_rows_are_made_in_a_die_of_four_corners(self) -> None:
        self.design.write_text(DESIGN.replace(ROWS, ""))
        self.assertIn("ROW ROW_11 core 0 22000 FS DO 100 BY 1 STEP 200 0 ;", self.prepared("--fix", "RAM"))

    def test_places_go_back_into_the_original(self) -> None:
        self.prepared("--adopt", "dsp", "--fix", "RAM", "--halos", "--as-fence", "pd", "--fillers", "FILLER_3")
        placed = (self.folder / "new.def").read_text()
        placed = placed.replace("- u_dsp/b INV + PLACED ( 400 0 ) N", "- u_dsp/b INV + PLACED ( 800 2000 ) FS")
        placed = placed.replace("- top/d DBL + PLACED ( 8000 2000 ) FS", "- top/d DBL + UNPLACED")
        (self.folder / "placed.def").write_text(placed)
        words = ["placed.def", "lef/tech.lef", "lef/t.lef", "--back", str(self.design), "-o", "back.def"]
        done = self.tool("lefence-prepare", *words)
        self.assertEqual(done.returncode, 0, done.stderr)
        expected = DESIGN.replace("( 400 0 ) N", "( 800 2000 ) FS").replace("+ PLACED ( 8000 2000 ) FS", "+ UNPLACED")
        self.assertEqual((self.folder / "back.def").read_text(), expected)
        self.assertIn(b"2 components with a new place", done.stderr)
        stay = b"2 movable components of the original not movable in the prepared file: at the old place"
        self.assertIn(stay, done.stderr)

    def test_a_prepared_flow_is_repaired(self) -> None:
        self.prepared("--adopt", "dsp", "--fix", "RAM", "--halos", "--as-fence", "pd")
        words = ["new.def", "lef/tech.lef", "lef/t.lef"]
        done = self.tool("lefence-repair", *words, "-o", "repaired.def", "--program", PROGRAM)
        self.assertEqual(done.returncode, 0, done.stderr)
        checked = subprocess.run([PROGRAM, "check", "repaired.def", *words[1:]], cwd=self.folder, capture_output=True)
        self.assertEqual((checked.returncode, json.loads(checked.stdout)["unplaced"]), (0, 0))
        self.assertEqual(len(re.findall(r"\+ TYPE FENCE", (self.folder / "repaired.def").read_text())), 2)


if __name__ == "__main__":
    main()
