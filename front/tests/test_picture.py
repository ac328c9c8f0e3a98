"""Pictures: the drawn things and their places."""

from __future__ import annotations

import re
import shutil
import subprocess
import unittest
from xml.etree import ElementTree

from support import PATIENCE, TEAMS, FrontCase, tool_words

from lefence.base.description import Box, Description
from lefence.view.drawing import MOVE_COLOURS, Drawing, Move, shortened, text_of
from lefence.view.scene import Scene, colour_of

SVG = "{http://www.w3.org/2000/svg}"
# A FIXED component, a blockage, a soft one, two cells that overlap, one far outside, and one with a name that needs
# escapes in XML.
MORE = """BLOCKAGES 2 ;
- PLACEMENT RECT ( 70000 4000 ) ( 71000 8000 ) ;
- PLACEMENT + SOFT RECT ( 9000 0 ) ( 9400 2000 ) ;
END BLOCKAGES
COMPONENTS 6 ;
- wall BUF + FIXED ( 0 6000 ) N ;
- one INV + PLACED ( 64000 0 ) N ;
- two INV + PLACED ( 64200 0 ) N ;
- far INV + PLACED ( 2000000 0 ) N ;
- f0c<&"'\\]]> INV + PLACED ( 400 2000 ) FS ;
- f1cx INV + PLACED ( 8400 0 ) N ;
END COMPONENTS
"""


def boxes(group: ElementTree.Element) -> list[Box]:
    """The rectangles of a group."""
    found = ([int(rect.attrib[key]) for key in ("x", "y", "width", "height")] for rect in group.iter(f"{SVG}rect"))
    return [Box(x, y, x + width, y + height) for x, y, width, height in found]


def titled(group: ElementTree.Element, name: str) -> list[ElementTree.Element]:
    """The elements of a group with this title."""
    return [found for found in group.iter() if found.findtext(f"{SVG}title") == name]


class Pictures(FrontCase):
    def setUp(self) -> None:
        super().setUp()
        self.design.write_text(self.design.read_text().replace("END DESIGN", f"{MORE}END DESIGN"))

    def picture(self, *words: str, design: str = "t.def") -> dict[str, ElementTree.Element]:
        """The groups of the picture by name; the whole picture has the empty name."""
        done = self.tool("lefence-picture", design, "t.lef", "--program", self.program, "-o", "x.svg", *words)
        self.assertEqual(done.returncode, 0, done.stderr)
        root = ElementTree.parse(self.folder / "x.svg").getroot()
        return {"": root, **{found.attrib["id"]: found for found in root.iter() if "id" in found.attrib}}

    def test_each_thing_is_drawn_at_its_described_place(self) -> None:
        groups = self.picture()
        with Description(self.program, self.design, [self.lef]) as description:
            frame, cells = description.frame, list(description.cells())
        self.assertEqual(boxes(groups["rows"]), [row.box for row in frame.rows])
        self.assertEqual(boxes(groups["fences"]), [rect for fence in frame.fences for rect in fence.rects])
        self.assertEqual(
            boxes(groups["fixed"]) + boxes(groups["blockages"]), [obstacle.box for obstacle in frame.obstacles]
        )
        self.assertEqual(boxes(groups["soft"]), frame.soft)
        legal = {cell.name: cell.box for cell in cells if cell.box and cell.rule is None}
        drawn = {rect.findtext(f"{SVG}title"): boxes(group)[0] for group, rect in self.each_in_group(groups["cells"])}
        self.assertEqual(drawn, legal)
        self.assertEqual(boxes(groups["broken"]), [cell.box for cell in cells if cell.name in ("one", "two")])
        self.assertEqual(len(titled(groups["broken"], "two overlaps one")), 1)
        legend = "".join(groups["legend"].itertext())
        for text in (
            "f0 11 cells",
            "breaks a rule 3 cells",
            "FIXED component 1",
            "soft blockage 1",
            "90 unplaced",
            "1 outside",
        ):
            self.assertIn(text, legend)

    def each_in_group(self, group: ElementTree.Element) -> list[tuple[ElementTree.Element, ElementTree.Element]]:
        """The rectangles of a group, each in a group of its own."""
        found = []
        for rect in group.iter(f"{SVG}rect"):
            group = ElementTree.Element("g")
            group.append(rect)
            found.append((group, rect))
        return found

    def test_up_is_up(self) -> None:
        groups = self.picture()
        a, b, c, d, e, f = map(float, groups["chip"].attrib["transform"][7:-1].split())
        with Description(self.program, self.design, [self.lef]) as description:
            view = Scene(description.frame).view
        ground = next(rect for rect in groups[""].findall(f"{SVG}rect") if "x" in rect.attrib).attrib
        left, top, width, height = (float(ground[key]) for key in ("x", "y", "width", "height"))
        self.assertEqual((a, b, c), (-d, 0, 0))
        for x, y, wanted in (
            (view.left, view.top, (left, top)),
            (view.right, view.bottom, (left + width, top + height)),
        ):
            self.assertAlmostEqual(a * x + e, wanted[0], 1)
            self.assertAlmostEqual(d * y + f, wanted[1], 1)

    def test_above_the_limit_there_is_a_map(self) -> None:
        groups = self.picture("--limit", "3")
        self.assertNotIn("cells", groups)
        side, _, _, other, left, bottom = map(int, groups["map"].attrib["transform"][7:-1].split())
        self.assertEqual((side, other, left, bottom), (312, 312, -1440, -1440))

        def bins(paths: list[ElementTree.Element]) -> set[tuple[int, int]]:
            runs = [
                map(int, run) for path in paths for run in re.findall(r"M(\d+) (\d+)h(\d+)v1h-\d+z", path.attrib["d"])
            ]
            return {(along, y) for x, y, length in runs for along in range(x, x + length)}

        def under(box: Box) -> set[tuple[int, int]]:
            xs = range((box.left - left) // side, (box.right - 1 - left) // side + 1)
            return {
                (x, y) for x in xs for y in range((box.bottom - bottom) // side, (box.top - 1 - bottom) // side + 1)
            }

        mine = [path for path in groups["map"] if path.attrib["fill"] == colour_of(0, "f0")]
        self.assertEqual(bins(mine), under(Box(400, 2000, 800, 4000)))
        self.assertEqual(bins(list(groups["broken"])), under(Box(64000, 0, 64600, 2000)))
        self.assertIn("Bins of 0.312 µm", "".join(groups["legend"].itertext()))

    def test_arrows_lead_from_the_old_places(self) -> None:
        text = self.design.read_text()
        old = text.replace("( 8400 0 ) N", "( 12400 4000 ) N").replace("two INV + PLACED ( 64200 0 ) N", "two INV")
        # The components have another order.
        first = "- far INV + PLACED ( 2000000 0 ) N ;\n"
        (self.folder / "old.def").write_text(old.replace(first, "").replace("- one", f"{first}- one"))
        groups = self.picture("--before", "old.def")
        ((arrow,),) = list(groups["moves"])
        self.assertEqual(arrow.findtext(f"{SVG}title"), "f1cx")
        self.assertTrue(arrow.attrib["d"].startswith("M12600 5000L8600 1000M"), arrow.attrib)
        self.assertIn("→ 1 moved\nup to 5 rows 1\n", "".join(groups["legend"].itertext()))

    def test_arrows_have_the_colours_of_their_lengths(self) -> None:
        near, far = "- near INV + PLACED ( {} 0 ) N ;\n", "- away INV + PLACED ( {} 2000 ) FS ;\n"
        text = self.design.read_text()
        self.design.write_text(text.replace("- far", near.format(66000) + far.format(16000) + "- far"))
        (self.folder / "old.def").write_text(text.replace("- far", near.format(65800) + far.format(40000) + "- far"))
        groups = self.picture("--before", "old.def")
        drawn = {
            group.attrib["stroke"]: [arrow.findtext(f"{SVG}title") for arrow in group] for group in groups["moves"]
        }
        self.assertEqual(drawn, {MOVE_COLOURS[0][1]: ["near"], MOVE_COLOURS[3][1]: ["away"]})
        legend = "".join(groups["legend"].itertext())
        self.assertIn("→ 2 moved\nup to 2 rows 1\nup to 20 rows 1\n", legend)

    def test_the_legend_is_not_cut_off(self) -> None:
        long = "W" * 30
        self.design.write_text(self.design.read_text().replace(" f0 ", f" {long} "))
        with Description(self.program, self.design, [self.lef]) as description:
            scene = Scene(description.frame)
            for cell in description.cells():
                scene.take(cell)
        move = Move("f1cx", Box(0, 0, 400, 2000), Box(400, 0, 800, 2000))
        root = ElementTree.fromstring("".join(Drawing(scene, [move] * 2000, 51850).svg()))
        legend = next(found for found in root.iter() if found.attrib.get("id") == "legend")
        for line in legend:
            left = float(line.attrib["transform"][10:].split()[0])
            text = line.find(f"{SVG}text")
            assert text is not None
            output = "".join(text.itertext())
            # DejaVu Sans: a W is as wide as high, a small letter or a digit has two thirds of that.
            wide = 13 * sum(0.99 if each in "W…→" else 0.6 for each in output)
            self.assertLessEqual(left + float(text.get("x", 0)) + wide, float(root.attrib["width"]), output)
        self.assertIn("51,850 moved", "".join(legend.itertext()))

    def test_if_most_cells_break_a_rule_a_map_shows_overfull_bins(self) -> None:
        astray = "".join(f"- x{at} INV + PLACED ( {20000 + 13 * at} 3 ) N ;\n" for at in range(40))
        self.design.write_text(
            self.design.read_text().replace("- far", f"{astray}- lone INV + PLACED ( 50007 1 ) N ;\n- far")
        )
        groups = self.picture("--limit", "3")
        red = [
            tuple(map(int, run))
            for path in groups["broken"]
            for run in re.findall(r"M(\d+) (\d+)h(\d+)v1h-\d+z", path.attrib["d"])
        ]
        side, _, _, _, left, _ = map(int, groups["map"].attrib["transform"][7:-1].split())
        # The bins of the forty cells and of the two that overlap are red, but not that of a single cell.
        places = {(left + side * (x + at)) // 10000 for x, _, length in red for at in range(length)}
        self.assertEqual(places - {1}, {2, 6})
        self.assertIn("red\nbins are more than full", "".join(groups["legend"].itertext()))

    def test_designs_without_cells_or_places(self) -> None:
        bare = self.design.read_text().split("COMPONENTS")[0] + "END DESIGN\n"
        for text in (bare, bare.replace("END DESIGN", "COMPONENTS 1 ;\n- f0c0 INV ;\nEND COMPONENTS\nEND DESIGN")):
            self.design.write_text(text)
            for words in ((), ("--limit", "0"), ("--before", "t.def")):
                groups = self.picture(*words)
                self.assertEqual(len(boxes(groups["fences"])), TEAMS)
                self.assertEqual(len(boxes(groups.get("cells", groups["broken"]))), 0)

    def test_any_name_is_text(self) -> None:
        self.assertEqual(text_of('a\x00<\ud800&"\uffff'), "a\\x00&lt;\\xd800&amp;&quot;\\xffff")
        self.assertEqual(shortened("abcdefghij", 6), "abc…ij")
        odd = self.folder / "\u00e9<&\n.def"
        odd.write_bytes(self.design.read_bytes().replace(b"DESIGN t ", b'DESIGN <t&"> '))
        groups = self.picture(design=odd.name)
        self.assertEqual(groups[""].findtext(f"{SVG}title"), '<t&">')

    def test_a_png(self) -> None:
        words = [*tool_words("lefence-picture"), "t.def", "t.lef", "--program", self.program, "-o", "x.png"]
        # KLayout takes seconds to start.
        done = subprocess.run(words, cwd=self.folder, capture_output=True, timeout=5 * PATIENCE)
        if shutil.which("klayout"):
            self.assertEqual(done.returncode, 0, done.stderr)
            made = (self.folder / "x.png").read_bytes()
            self.assertEqual(made[:8], b"\x89PNG\r\n\x1a\n")
            with Description(self.program, self.design, [self.lef]) as description:
                drawing = Drawing(Scene(description.frame))
            # The picture exists and is at least twice as wide as the chip.
            self.assertGreater(int.from_bytes(made[16:20]), 2 * drawing.wide)
        else:
            self.assertEqual(done.returncode, 2)
            self.assertIn(b"install the Debian package klayout", done.stderr)

    def test_inputs_are_not_overwritten(self) -> None:
        done = self.tool("lefence-picture", "t.def", "t.lef", "--program", self.program, "-o", "t.lef")
        self.assertEqual(
            (done.returncode, done.stderr),
            (2, b"lefence-picture: t.lef is an input file, so it cannot be the output\n"),
        )
        done = self.tool("lefence-picture", "t.def", "t.lef", "--program", self.program, "-o", "x.jpg")
        self.assertEqual((done.returncode, (self.folder / "x.jpg").exists()), (2, False), done.stderr)


if __name__ == "__main__":
    unittest.main()
