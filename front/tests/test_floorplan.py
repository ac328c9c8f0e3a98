"""A design in two texts: `lefence-prepare --floorplan` takes rows, regions, groups, blockages and FIXED components."""

from __future__ import annotations

import subprocess
from pathlib import Path
from unittest import main

from support import PROGRAM, FrontCase

from lefence.base.description import Description

RAM = "MACRO RAM CLASS BLOCK ; SIZE 4.0 BY 4.0 ; SYMMETRY X Y ; END RAM\nEND LIBRARY"
FLOORPLAN = """# written by the floorplan team
VERSION 5.8 ;
DESIGN chip ;
UNITS DISTANCE MICRONS 1000 ;
DIEAREA ( 0 0 ) ( 20000 8000 ) ;
# the core
ROW r0 core 0 0 N DO 100 BY 1 STEP 200 0 ;
ROW r1 core 0 2000 FS DO 100 BY 1 STEP 200 0 ;
ROW r2 core 0 4000 N DO 100 BY 1 STEP 200 0 ;
REGIONS 2 ;
- A ( 0 0 ) ( 4000 4000 ) + TYPE FENCE ;
- B ( 4000 0 ) ( 8000 4000 ) + TYPE FENCE ; # of two
END REGIONS
COMPONENTS 4 ;
- ram RAM + SOURCE DIST + FIXED ( 12000 0 ) N + HALO 200 0 200 0 + WEIGHT 1 ;
- tap INV + SOURCE DIST
  + FIXED ( 0 4000 ) N ;
- a/one INV + PLACED ( 600 0 ) N ;
- a/two INV + PLACED ( 600 0 ) N ;
END COMPONENTS
BLOCKAGES 2 ;
- PLACEMENT RECT ( 18000 0 ) ( 20000 2000 ) ;
- PLACEMENT + SOFT RECT ( 9000 0 ) ( 9400 2000 ) ;
END BLOCKAGES
GROUPS 2 ;
- A a/* + REGION A ;
- B b/* + REGION B ;
END GROUPS
END DESIGN
"""
# The placement, without rows and fences. The ram has another place here, and the group A other members.
PLACEMENT = """VERSION 5.8 ;
DESIGN chip ;
UNITS DISTANCE MICRONS 1000 ;
COMPONENTS 4 ; # of the netlist
- a/one INV + PLACED ( 0 0 ) N ;
- b/one INV ;
- ram RAM + PLACED ( 0 0 ) N ;
- top INV + PLACED ( 10000 2000 ) FS ;
END COMPONENTS
BLOCKAGES 1 ;
- PLACEMENT
  RECT ( 18000 0 ) ( 20000 2000 ) ;
END BLOCKAGES
NETS 1 ; - n ( a/one A ) ; END NETS
GROUPS 1 ;
- A a/one x + REGION A ;
END GROUPS
END DESIGN
"""
JOINED = """VERSION 5.8 ;
DESIGN chip ;
UNITS DISTANCE MICRONS 1000 ;
DIEAREA ( 0 0 ) ( 20000 8000 ) ;
ROW r0 core 0 0 N DO 100 BY 1 STEP 200 0 ;
ROW r1 core 0 2000 FS DO 100 BY 1 STEP 200 0 ;
ROW r2 core 0 4000 N DO 100 BY 1 STEP 200 0 ;
REGIONS 2 ;
- A ( 0 0 ) ( 4000 4000 ) + TYPE FENCE ;
- B ( 4000 0 ) ( 8000 4000 ) + TYPE FENCE ;
END REGIONS
COMPONENTS 5 ; # of the netlist
- a/one INV + PLACED ( 0 0 ) N ;
- b/one INV ;
- ram RAM + FIXED ( 12000 0 ) N + HALO 200 0 200 0 ;
- top INV + PLACED ( 10000 2000 ) FS ;
- tap INV + SOURCE DIST
  + FIXED ( 0 4000 ) N ;
END COMPONENTS
BLOCKAGES 2 ;
- PLACEMENT
  RECT ( 18000 0 ) ( 20000 2000 ) ;
- PLACEMENT + SOFT RECT ( 9000 0 ) ( 9400 2000 ) ;
END BLOCKAGES
NETS 1 ; - n ( a/one A ) ; END NETS
GROUPS 2 ;
- A a/* + REGION A ;
- B b/* + REGION B ;
END GROUPS
END DESIGN
"""
MESSAGES = """fp.def, line 5: DIEAREA taken
fp.def, line 7: 3 rows taken
fp.def, line 11: region A taken
fp.def, line 12: region B taken
fp.def, line 26: group A replaces the one of line 16
fp.def, line 27: group B taken
fp.def, line 23: 1 blockage taken
fp.def, line 15: component ram of line 7 FIXED
fp.def, line 16: component tap taken
"""


class Floorplans(FrontCase):
    def setUp(self) -> None:
        super().setUp()
        self.lef.write_text(self.lef.read_text().replace("END LIBRARY", RAM))
        self.design.write_text(PLACEMENT)
        (self.folder / "fp.def").write_text(FLOORPLAN)

    def prepare(self, *words: str | Path) -> subprocess.CompletedProcess[bytes]:
        done = self.tool("lefence-prepare", self.design, self.lef, "-o", "new.def", "--program", PROGRAM, *words)
        self.assertNotIn(b"Traceback", done.stderr)
        return done

    def test_two_texts_become_one_design(self) -> None:
        done = self.prepare("--floorplan", "fp.def")
        self.assertEqual(done.returncode, 0, done.stderr)
        self.assertEqual((self.folder / "new.def").read_text(), JOINED)
        lines = [line.removeprefix("lefence-prepare: ") for line in done.stderr.decode().splitlines()]
        self.assertEqual([line for line in lines if line.startswith("fp.def")], MESSAGES.splitlines())
        with Description(PROGRAM, self.folder / "new.def", [self.lef]) as description:
            teams = {cell.name: cell.team for cell in description.cells()}
            self.assertEqual(len(description.frame.obstacles), 3)
        self.assertEqual(teams, {"a/one": "A", "b/one": "B", "top": "-"})

    def test_the_rows_of_the_floorplan_replace_those_of_the_design(self) -> None:
        self.design.write_text(JOINED.replace("ROW r0 core 0 0 N DO 100", "ROW old core 0 0 N DO 50"))
        done = self.prepare("--floorplan", "fp.def")
        self.assertEqual(done.returncode, 0, done.stderr)
        self.assertEqual((self.folder / "new.def").read_text(), JOINED)
        self.assertIn(b"line 5: 3 rows removed", done.stderr)
        # what is there already is not taken again
        self.assertNotIn(b"region A", done.stderr)
        self.assertNotIn(b"component ram", done.stderr)

    def test_other_options_see_the_floorplan(self) -> None:
        done = self.prepare("--floorplan", "fp.def", "--halos", "--fillers", "tap")
        self.assertEqual(done.returncode, 0, done.stderr)
        text = (self.folder / "new.def").read_text()
        self.assertIn("- PLACEMENT RECT ( 11800 0 ) ( 16200 4000 ) ;\nEND BLOCKAGES", text)
        self.assertNotIn("- tap", text)

    def test_a_floorplan_that_does_not_fit_is_refused(self) -> None:
        for change, status, expected in (
            (("MICRONS 1000", "MICRONS 2000"), 1, "the floorplan fp.def has 2000 database units per micron"),
            (("UNITS DISTANCE MICRONS 1000 ;", ""), 1, "the floorplan fp.def has no UNITS DISTANCE MICRONS"),
            (("END DESIGN", ""), 1, "fp.def ends without END DESIGN: it is truncated"),
            ((FLOORPLAN, "SITE x"), 1, "fp.def has no DESIGN: it is not a DEF file"),
        ):
            (self.folder / "fp.def").write_text(FLOORPLAN.replace(*change))
            done = self.prepare("--floorplan", "fp.def")
            self.assertEqual((done.returncode, (self.folder / "new.def").exists()), (status, False), done.stderr)
            self.assertIn(f"lefence-prepare: {expected}", done.stderr.decode())

    def test_another_macro_of_the_floorplan_is_named(self) -> None:
        (self.folder / "fp.def").write_text(FLOORPLAN.replace("- ram RAM", "- ram INV"))
        done = self.prepare("--floorplan", "fp.def")
        expected = b"1 component of another macro in the floorplan: ram; the design's macro is kept"
        self.assertIn(expected, done.stderr)
        self.assertIn("- ram RAM + FIXED", (self.folder / "new.def").read_text())

    def test_any_bytes_of_a_floorplan_end_without_a_traceback(self) -> None:
        for _ in range(10):
            text = bytearray(FLOORPLAN.encode())
            at = self.rng.randrange(len(text))
            odd = self.rng.choice([b"", b";", b"\xff", b" - ", b" END ", b'"', b"#"])
            text[at : at + self.rng.randrange(30)] = odd
            (self.folder / "fp.def").write_bytes(bytes(text))
            self.prepare("--floorplan", "fp.def")


if __name__ == "__main__":
    main()
