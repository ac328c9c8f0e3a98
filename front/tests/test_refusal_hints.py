"""What `lefence-prepare --look` adds to a refusal: the word of the texts that matters."""

from __future__ import annotations

from unittest import main

from support import PROGRAM, FrontCase

# A library in the form of SKY130, and a design of it.
SKY130 = """VERSION 5.7 ;
BUSBITCHARS "[]" ;
PROPERTYDEFINITIONS
  LAYER LEF58_TYPE STRING ;
END PROPERTYDEFINITIONS
LAYER nwell
  TYPE MASTERSLICE ;
  PROPERTY LEF58_TYPE "TYPE NWELL ;" ;
END nwell
SITE unithd
  SYMMETRY Y ;
  CLASS CORE ;
  SIZE 0.46 BY 2.72 ;
END unithd
SITE unithddbl
  SYMMETRY Y ;
  CLASS CORE ;
  SIZE 0.46 BY 5.44 ;
END unithddbl
MACRO inv_1
  CLASS CORE ;
  FOREIGN inv_1 0 0 ;
  ORIGIN 0 0 ;
  SIZE 1.38 BY 2.72 ;
  SYMMETRY X Y R90 ;
  SITE unithd ;
END inv_1
MACRO tap_1
  CLASS CORE WELLTAP ;
  SIZE 0.46 BY 2.72 ;
  SYMMETRY X Y R90 ;
  SITE unithd ;
END tap_1
END LIBRARY
"""
# A second library with other sizes of a site and two macros.
OTHER_SIZES = """MACRO inv_1
  SIZE 1.84 BY 2.72 ;
END inv_1
# MACRO tap_1
MACRO tap_1 SIZE 0.92 BY 2.72 ; END tap_1
SITE unithd CLASS CORE ; SIZE 0.46 BY 2.720 ; END unithd
SITE unithddbl SIZE 0.46 BY 5 ; END unithddbl
END LIBRARY
"""
DESIGN = """VERSION 5.8 ;
DESIGN chip ;
UNITS DISTANCE MICRONS 1000 ;
DIEAREA ( 0 0 ) ( 27600 5440 ) ;
ROW ROW_0 unithd 0 0 N DO 60 BY 1 STEP 460 0 ;
ROW ROW_1 unithd 0 2720 FS DO 60 BY 1 STEP 460 0 ;
COMPONENTS 3 ;
- u_core.regs\\[0\\] inv_1 ;
- u_core.regs\\[1\\] inv_1 + PLACED ( 470 0 ) N ;
- TAP_0 tap_1 + SOURCE DIST + FIXED ( 460 2720 ) FS ;
END COMPONENTS
END DESIGN
"""


class Hints(FrontCase):
    def test_a_refusal_has_the_word_that_matters(self) -> None:
        for lef, design, expected in (
            (
                SKY130.replace("CLASS CORE ;\n  SIZE", "CLASS core ;\n  SIZE"),
                DESIGN,
                "no row is of a core site: site unithd has CLASS core, which is not CORE",
            ),
            (SKY130, DESIGN.replace("STEP 460", "STEP 1840"), "row ROW_0 has STEP 1840, but site unithd is 460 wide"),
            (
                SKY130.replace("1.38", "1.3805"),
                DESIGN,
                "inv_1 is 1.3805 by 2.72 microns, and a database unit is 1/1000 micron",
            ),
            (SKY130, DESIGN.replace("1 unithd", "1 io"), "--drop-rows io removes the rows of this site"),
            (
                SKY130,
                DESIGN.replace("ROW ROW_1 unithd 0 2720", "\nROW ROW_1 unithd 27140 -2719"),
                "row ROW_1 of line 7 overlaps row ROW_0 of line 5",
            ),
        ):
            self.lef.write_text(lef)
            self.design.write_text(design)
            done = self.tool("lefence-prepare", self.design, self.lef, "--program", PROGRAM, "--look")
            self.assertEqual(done.returncode, 1)
            self.assertIn(f"{expected}\n", done.stdout.decode())

    def test_a_refused_line_has_the_word_that_is_wrong(self) -> None:
        name = "x" * 1025
        for lef, design, expected in (
            (SKY130, DESIGN.replace("UNITS", "HISTORY"), "there is no UNITS DISTANCE MICRONS, which says how many"),
            (
                SKY130.replace("SIZE 1.38 BY 2.72", "SIZE 1.38 BY &height"),
                DESIGN,
                "&height is a word of &ALIAS, which LEF 5.8 lacks: write what it stands for",
            ),
            (SKY130, DESIGN.replace("470 0 ) N", "470 0 ) R0"), "R0 is an orientation of OpenAccess: DEF calls it N"),
            (SKY130, DESIGN.replace("470 0 ) N", "470 0 ) fs"), "fs is not an orientation: DEF writes FS"),
            (SKY130, DESIGN.replace("TAP_0", name), "a name has 1,025 bytes, and the program reads names of at most"),
            (SKY130, DESIGN.replace("COMP", "\fCOMP", 1), "a form feed is not white space in LEF and DEF"),
            (
                SKY130,
                DESIGN.replace("COMP", "IOTIMINGS 0 ;\nEND IOTIMINGS\nCOMP", 1),
                "IOTIMINGS does not begin a statement of DEF 5.8: remove it up to its end",
            ),
        ):
            self.lef.write_text(lef)
            self.design.write_text(design)
            done = self.tool("lefence-prepare", self.design, self.lef, "--program", PROGRAM, "--look")
            self.assertEqual(done.returncode, 1)
            self.assertIn(f"\n{expected}", done.stdout.decode())

    def test_words_that_are_right_are_not_named(self) -> None:
        self.lef.write_text(SKY130)
        for design, expected in (
            (DESIGN.replace("ROW_0 unithd 0 0 N DO 60", "R0 unithd 0 0 N DO 60 DO"), b""),
            (DESIGN.replace("ROW_0 unithd 0 0 N", "n unithd 0 0 R180"), b"R180 is an orientation of OpenAccess"),
            (DESIGN.replace("DESIGN chip ;", "DESIGN chip ; ASSERTIONS 0 ;"), b"ASSERTIONS does not begin a statement"),
        ):
            self.design.write_text(design)
            done = self.tool("lefence-prepare", self.design, self.lef, "--program", PROGRAM, "--look")
            [line] = [line for line in done.stdout.splitlines() if b"it does not load" in line]
            hint = done.stdout.partition(line + b"\n")[2]
            self.assertTrue(hint.startswith(expected) and bool(hint) == bool(expected), hint)

    def test_sites_and_macros_of_two_sizes_are_named(self) -> None:
        second = self.folder / "second.lef"
        second.write_text(OTHER_SIZES)
        self.lef.write_text(SKY130)
        self.design.write_text(DESIGN)
        done = self.tool("lefence-prepare", self.design, self.lef, second, "--program", PROGRAM, "--look")
        output = done.stdout.decode()
        for what, one, line, two, other_line in (
            ("site unithddbl", "0.46 by 5.44", 15, "0.46 by 5", 7),
            ("macro inv_1", "1.38 by 2.72", 20, "1.84 by 2.72", 1),
            ("macro tap_1", "0.46 by 2.72", 28, "0.92 by 2.72", 5),
        ):
            first = f"{what} is {one} microns in LEF file {self.lef}, line {line}"
            other = f"but {two} microns in LEF file {second}, line {other_line}: the program uses the first\n"
            self.assertIn(f"{first}, {other}", output)
        self.assertEqual(output.count("the program uses the first"), 3)
        # a file that is given twice is not worth a word
        done = self.tool("lefence-prepare", self.design, self.lef, self.lef, "--program", PROGRAM, "--look")
        self.assertNotIn(b"the program uses the first", done.stdout)


if __name__ == "__main__":
    main()
