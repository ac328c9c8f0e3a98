"""The moves between two placements as Tcl commands: what they say, and that Tcl reads the names as they are."""

from __future__ import annotations

import shutil
import subprocess
import unittest
from pathlib import Path

from support import PROGRAM, FrontCase

from lefence.view.tcl_moves import tcl_word, without_escapes

# The teams' cells of the design, whose places differ: moved, turned, newly placed, unplaced, and as before.
BEFORE = {"f0c0": "( 0 0 ) N", "f0c1": "( 1000 0 ) N", "f1c2": None, "f1c3": "( 9000 0 ) N", "f1c4": "( 9600 0 ) N"}
AFTER = {**BEFORE, "f0c0": "( 50 4000 ) N", "f0c1": "( 1000 0 ) FN", "f1c2": "( 8400 2000 ) FS", "f1c3": None}
INNOVUS = """# Places of lefence for innovus, in microns.
placeInstance {f0c0} 0.050 4.000 R0 -placed
placeInstance {f0c1} 1.000 0.000 MY -placed
placeInstance {f1c2} 8.400 2.000 MX -placed
"""
ICC2 = """# Places of lefence for icc2, in microns.
set_cell_location -coordinates {0.050 4.000} -orientation N {f0c0}
set_cell_location -coordinates {1.000 0.000} -orientation FN {f0c1}
set_cell_location -coordinates {8.400 2.000} -orientation FS {f1c2}
"""
NAMES = ("a", "u_core/state_reg[3]", "a\\[1\\]", "x{1}", "x{", "}{", "a\\", "q$b", 'a"b', "a;b", "#c", "\\{d", "a\\\\b")
# Stands for OpenROAD's commands: they print what they get. One instance has brackets without backslashes in its name.
OPENROAD = r"""
namespace eval ord {
    proc get_db_block {} { return block }
    proc microns_to_dbu {microns} { return [expr {round($microns * 1000)}] }
}
proc block {find name} {
    if {$name ni {f0c0 f0c1 {u/q[3]}}} { return NULL }
    set ::name $name
    return inst
}
proc inst {args} { puts [list $::name {*}$args] }
source moves.tcl
"""


class Moves(FrontCase):
    def setUp(self) -> None:
        super().setUp()
        self.after = self.folder / "after.def"
        self.put(self.design, BEFORE, self.design.read_text())

    def put(self, path: Path, places: dict[str, str | None], text: str) -> None:
        for name, place in places.items():
            for macro in ("INV", "BUF"):
                clause = f" + PLACED {place}" if place else ""
                text = text.replace(f"- {name} {macro} ;", f"- {name} {macro}{clause} ;")
        path.write_text(text)

    def unplaced_text(self) -> str:
        """The design without places."""
        text = self.design.read_text()
        for place in BEFORE.values():
            text = text.replace(f" + PLACED {place}", "")
        return text

    def moves(self, tool: str) -> tuple[str, str]:
        """The script, and what is printed on standard error."""
        self.put(self.after, AFTER, self.unplaced_text())
        words = ("--tcl", tool, "-o", "moves.tcl", "--program", PROGRAM)
        done = self.tool("lefence-summary", self.design, self.after, self.lef, *words)
        self.assertEqual(done.returncode, 0, done.stderr)
        self.assertIn(b"\nteam ", done.stdout)
        return (self.folder / "moves.tcl").read_text(), done.stderr.decode()

    def test_the_commands_of_innovus_and_icc2(self) -> None:
        said = (
            "lefence-summary: moves.tcl: commands for 3 cells\n"
            "lefence-summary: no commands for 1 cell without a place in AFTER: f1c3\n"
        )
        self.assertEqual(self.moves("innovus"), (INNOVUS, said))
        self.assertEqual(self.moves("icc2"), (ICC2, said))

    @unittest.skipUnless(shutil.which("tclsh"), "tclsh is not here")
    def test_openroad_runs_the_commands(self) -> None:
        text, _ = self.moves("openroad")
        text = text.replace("{f1c2}", "{u/q\\[3\\]}")
        (self.folder / "moves.tcl").write_text(text)
        done = subprocess.run(["tclsh"], input=OPENROAD, capture_output=True, text=True, cwd=self.folder)
        self.assertEqual(done.stderr, "")
        expected = []
        for name, orient, x, y in (("f0c0", "R0", 50, 4000), ("f0c1", "MY", 1000, 0), ("{u/q[3]}", "MX", 8400, 2000)):
            expected += [f"{name} setOrient {orient}", f"{name} setLocation {x} {y}"]
            expected.append(f"{name} setPlacementStatus PLACED")
        self.assertEqual(done.stdout.splitlines(), expected)

    @unittest.skipUnless(shutil.which("tclsh"), "tclsh is not here")
    def test_tcl_reads_each_name_as_it_is(self) -> None:
        script = "".join(f"puts {tcl_word(name)}\n" for name in NAMES)
        done = subprocess.run(["tclsh"], input=script, capture_output=True, text=True)
        self.assertEqual((done.stdout, done.stderr), ("".join(f"{name}\n" for name in NAMES), ""))

    def test_backslashes_of_def_are_taken_away(self) -> None:
        self.assertEqual(without_escapes("u/state\\[3\\]\\$_D"), "u/state[3]$_D")
        self.assertEqual(without_escapes("a\\\\b\\/c"), "a\\b/c")

    def test_a_tool_and_a_file_belong_together(self) -> None:
        for words in (("--tcl", "innovus"), ("-o", "moves.tcl"), ("--tcl", "other", "-o", "moves.tcl")):
            done = self.tool("lefence-summary", self.design, self.design, self.lef, *words, "--program", PROGRAM)
            self.assertEqual((done.returncode, done.stdout), (2, b""))
        words = ("--tcl", "icc2", "-o", str(self.lef))
        done = self.tool("lefence-summary", self.design, self.design, self.lef, *words, "--program", PROGRAM)
        self.assertEqual(done.returncode, 2)
        self.assertIn(b"is an input file, so it cannot be the output\n", done.stderr)


if __name__ == "__main__":
    unittest.main()
