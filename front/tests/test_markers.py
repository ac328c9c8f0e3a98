"""The report database of violations, read by KLayout next to its own reading of the same DEF and LEF files."""

from __future__ import annotations

import json
import unittest
from pathlib import Path
from xml.etree import ElementTree

from support import PROGRAM, FrontCase, klayout, with_klayout

from lefence.base.description import Box, Cell
from lefence.base.faults import Fault
from lefence.base.protocol import ORIENTS
from lefence.view.markers import Violation, violations_of

# Each item of the database with its tagged values, and the box of the cell with that name in KLayout's own reading.
ITEMS = """
import json, pya
options = pya.LoadLayoutOptions()
config = options.lefdef_config
config.dbu, config.lef_files, config.read_lef_with_def, config.macro_resolution_mode = 0.0001, [lef], False, 1
config.instance_property_name, config.produce_cell_outlines, config.cell_outline_layer = "name", True, "outline (99/0)"
units = lambda box: [round(length / 0.0005, 6) for length in (box.left, box.bottom, box.right, box.top)]
layout = pya.Layout()
layout.read(design, options)
outline = layout.find_layer(99, 0)
boxes = {}
for each in layout.top_cell().each_inst():
    boxes[each.property("name")] = units(each.dcplx_trans * each.cell.dbbox_per_layer(outline))
database = pya.ReportDatabase("")
database.load(markers)
tags = {database.user_tag_id(name): name for name in ("cell", "team", "other")}
for item in database.each_item():
    rule, top = database.category_by_id(item.category_id()), database.cell_by_id(item.cell_id())
    found = {"rule": rule.name(), "top": top.name()}
    for value in item.each_value():
        if value.is_box():
            found["other box" if value.tag_id else "box"] = units(value.box())
        else:
            found[tags[value.tag_id]] = value.string()
    for name in {"cell", "other"} & set(found):
        found[name + " there"] = boxes[found[name]]
    print(json.dumps(found))
print(json.dumps([database.description, database.top_cell_name, layout.top_cell().name]))
"""
# What KLayout shows after it has opened files by its command line.
SHOWN = """
view = __import__("pya").MainWindow.instance().current_view()
layout = view.cellview(0).layout()
print(view.num_rdbs(), view.rdb(0).num_items(), layout.dbu, sum(1 for _ in layout.top_cell().each_inst()))
"""
LEF = """VERSION 5.8 ;
SITE core CLASS CORE ; SYMMETRY Y ; SIZE 0.2 BY 2.0 ; END core
MACRO INV CLASS CORE ; ORIGIN 0 0 ; FOREIGN INV 0 0 ; SIZE 0.4 BY 2.0 ; SYMMETRY X Y ; SITE core ; END INV
MACRO OFF CLASS CORE ; ORIGIN 0.1 0.3 ; SIZE 0.6 BY 2.0 ; SYMMETRY X Y ; SITE core ; END OFF
END LIBRARY
"""
# Cells off the rows in each orientation, overlaps in both directions, a legal cell and an unplaced one.
TEXT = """VERSION 5.8 ;
DESIGN top:<1>&'t' ;
UNITS DISTANCE MICRONS 2000 ;
ROW r core 0 0 N DO 100 BY 1 STEP 400 0 ;
REGIONS 1 ;
- A ( 20000 0 ) ( 40000 4000 ) + TYPE FENCE ;
END REGIONS
COMPONENTS 13 ;
%s- u<1>/b[3]&'c' OFF + PLACED ( 20000 0 ) N ;
- over OFF + PLACED ( 20400 0 ) FN ;
- legal INV + PLACED ( 0 0 ) N ;
- none INV ;
- ground INV + PLACED ( 30001 0 ) N ;
END COMPONENTS
GROUPS 1 ;
- g u* over + REGION A ;
END GROUPS
END DESIGN
"""


def cell(name: str, rule: int | None, other: str | None = None) -> Cell:
    return Cell(name, "A", "INV", 400, 2000, Box(0, 0, 400, 2000), "N", rule, other)


class Markers(FrontCase):
    def setUp(self) -> None:
        super().setUp()
        self.lef = self.folder / "apart" / "cells.lef"
        self.lef.parent.mkdir()
        self.lef.write_text(LEF)
        cells = "".join(
            f"- o{each} OFF + PLACED ( {at * 5000 - 3333} -7001 ) {each} ;\n" for at, each in enumerate(ORIENTS)
        )
        self.design.write_text(TEXT % cells)
        self.markers, self.technology = self.folder / "t.lyrdb", self.folder / "t.lyt"

    def write(self) -> None:
        words = (self.design, self.lef, "--output", self.markers, "--technology", self.technology)
        done = self.tool("lefence-markers", *words, "--program", PROGRAM)
        expected = b"lefence-markers: 11 of 13 cells break a rule; 1 without a place have no marker\n"
        self.assertEqual((done.returncode, done.stdout, done.stderr), (0, b"", expected))

    def test_a_marker_for_each_violation(self) -> None:
        self.write()
        tree = ElementTree.parse(self.markers)
        names = ["1 Height", "2 Row", "3 Stand", "4 Orient", "5 Rail", "6 Fence", "7 Obstacle", "8 Overlap"]
        self.assertEqual([each.findtext("name") for each in tree.iterfind("categories/category")], names)
        items = list(tree.iterfind("items/item"))
        self.assertEqual(len(items), 11)
        self.assertEqual(items[0].findtext("category"), "'2 Row'")
        values = [each.text for each in items[0].iterfind("values/value")]
        self.assertEqual(values, ["[#cell] text: 'oN'", "[#team] text: '-'", "box: (-1.6665,-3.5005;-1.0665,-1.5005)"])
        self.assertEqual(items[8].findtext("category"), "'8 Overlap'")
        values = [each.text for each in items[8].iterfind("values/value")]
        text = [r"[#cell] text: 'u<1>/b[3]&\'c\''", "[#team] text: 'A'", "box: (10,0;10.6,2)"]
        self.assertEqual(values, [*text, "[#other] text: 'over'", "[#other] box: (10.2,0;10.8,2)"])

    @with_klayout
    def test_each_marker_lies_where_klayout_has_the_cell(self) -> None:
        self.write()
        words = ("-rd", f"design={self.design}", "-rd", f"lef={self.lef}", "-rd", f"markers={self.markers}")
        *lines, last = map(json.loads, klayout(self.folder, ITEMS, "-b", *words))
        self.assertEqual(
            [line["cell"] for line in lines], [*(f"o{each}" for each in ORIENTS), "u<1>/b[3]&'c'", "over", "ground"]
        )
        self.assertEqual([line["rule"][0] for line in lines], [*"21212121882"])
        for line in lines:
            self.assertEqual(line["box"], line["cell there"], line)
            self.assertEqual(line.get("other box"), line.get("other there"), line)
            self.assertEqual(line["top"], last[2])
        self.assertEqual([line.get("other") for line in lines[8:]], ["over", "u<1>/b[3]&'c'", None])
        self.assertEqual(last[:2], ["11 of 13 cells break a rule; 1 without a place have no marker", last[2]])

    @with_klayout
    def test_klayout_opens_them_over_the_design_by_the_technology(self) -> None:
        self.write()
        lines = klayout(self.folder, SHOWN, *"-z -nc -rx -nn t.lyt t.def -m t.lyrdb".split())
        self.assertEqual(lines, ["1 11 0.0005 12"])

    def test_the_other_cell_may_come_earlier_or_later(self) -> None:
        cells = [cell("a", 8, "c"), cell("b", 8, "a"), cell("legal", None), cell("c", 2)]
        box = Box(0, 0, 400, 2000)
        expected = [
            Violation("b", "A", 8, box, "a", box),
            Violation("a", "A", 8, box, "c", box),
            Violation("c", "A", 2, box),
        ]
        self.assertEqual(list(violations_of(cells)), expected)
        with self.assertRaises(Fault) as caught:
            list(violations_of(cells[:3]))
        self.assertEqual(caught.exception.status, 3)

    def test_a_fault_keeps_the_old_file(self) -> None:
        self.markers.write_text("old")
        early = self.folder / "early"
        early.write_text(f'#!/bin/sh\n{PROGRAM} "$@" | head -4\n')
        early.chmod(0o755)
        faults = ((PROGRAM, Path("nowhere.lef"), 3), (str(early), self.lef, 3), (PROGRAM, self.design, 1))
        for program, lef, status in faults:
            done = self.tool("lefence-markers", self.design, lef, "--output", self.markers, "--program", program)
            self.assertEqual((done.returncode, self.markers.read_text()), (status, "old"), done.stderr)
        self.assertEqual(
            sorted(path.name for path in self.folder.iterdir()), ["apart", "early", "t.def", "t.lef", "t.lyrdb"]
        )
        done = self.tool("lefence-markers", self.design, self.lef, "--output", self.design, "--program", PROGRAM)
        self.assertEqual(
            (done.returncode, done.stderr.count(b"t.def is an input file, so it cannot be the output")), (2, 1)
        )


if __name__ == "__main__":
    unittest.main()
