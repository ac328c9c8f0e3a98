"""The page about a design: its contents, and its behaviour in a real browser."""

from __future__ import annotations

import json
import re
import unittest
from html.parser import HTMLParser
from typing import Any
from urllib.parse import quote

from browser import CHROMIUM, Browser
from support import FrontCase

import lefence
from lefence.base.description import Box, Cell
from lefence.view.report import Near

# Cells that break rules, two of them with odd names; a soft blockage, a FIXED component with such a name, and a
# blockage.
ODD = "f0c</script><b>&\"'%41"
MORE = f"""BLOCKAGES 2 ;
- PLACEMENT RECT ( 70000 4000 ) ( 71000 8000 ) ;
- PLACEMENT + SOFT RECT ( 9000 0 ) ( 9400 2000 ) ;
END BLOCKAGES
COMPONENTS 6 ;
- </script>wall BUF + FIXED ( 0 6000 ) N ;
- one INV + PLACED ( 64000 0 ) N ;
- two INV + PLACED ( 64200 0 ) N ;
- far INV + PLACED ( 2000000 0 ) N ;
- {ODD} INV + PLACED ( 500 2000 ) FS ;
- f1cx INV + PLACED ( 8400 0 ) N ;
END COMPONENTS
"""
# A net with an odd name, of two cells and a pin of the design, and one of a single pin; pins for INV.
NETS = """PINS 1 ;
- p + NET n + DIRECTION INPUT + LAYER m1 ( 0 0 ) ( 20 20 ) + FIXED ( 20 30 ) N ;
END PINS
NETS 2 ;
- </script>n ( one A ) ( two A ) ( PIN p ) ;
- m ( two Z ) ;
END NETS
"""
PINS = "PIN A PORT LAYER m1 ; RECT 0 0.5 0.2 1.5 ; END END A"


class Text(HTMLParser):
    """Parses the text of tables, row by row, and the embedded data."""

    def __init__(self, page: str) -> None:
        super().__init__()
        self.lines: list[list[str]] = []
        self.links: list[str] = []
        self.data = ""
        self._in: str | None = None
        self.feed(page)

    def handle_starttag(self, tag: str, attrs: list[tuple[str, str | None]]) -> None:
        if tag == "tr":
            self.lines.append([])
        elif tag in ("td", "th"):
            self.lines[-1].append("")
        elif tag == "a":
            self.links.append(dict(attrs)["href"] or "")
        self._in = "data" if dict(attrs).get("id") == "data" else "cell" if tag in ("td", "th") else self._in

    def handle_endtag(self, tag: str) -> None:
        self._in = None if tag in ("td", "th", "script") else self._in

    def handle_data(self, data: str) -> None:
        if self._in == "data":
            self.data += data
        elif self._in == "cell":
            self.lines[-1][-1] += data


class ReportCase(FrontCase):
    def setUp(self) -> None:
        super().setUp()
        self.design.write_text(self.design.read_text().replace("END DESIGN", f"{MORE}END DESIGN"))

    def page(self, *words: str) -> str:
        done = self.tool("lefence-report", "t.def", "t.lef", "--program", self.program, "-o", "x.html", *words)
        self.assertEqual(done.returncode, 0, done.stderr)
        return (self.folder / "x.html").read_text()


class Reports(ReportCase):
    def data(self, text: Text) -> dict[str, Any]:
        read: dict[str, Any] = json.loads(text.data)
        return read

    def test_the_contents_of_the_tables(self) -> None:
        text = Text(self.page())
        self.assertIn(["twooverlaps one", "8 Overlap", "-", "64.2, 0"], text.lines)
        self.assertIn("#v=" + quote(ODD, safe=""), text.links)
        # Team f0 has seven cells of 400 * 2000 and four of 600 * 2000. Ten are unplaced, one is off its site. The wall
        # is in its ground.
        self.assertIn(["f0", "11", "1", "10", "1Row 1", "10.4", "62.8", "16.6%"], text.lines)
        self.assertIn(["f1", "11", "1", "10", "0", "10.4", "64.0", "16.2%"], text.lines)
        ground = ["-the ground outside all fences", "13", "3", "10", "3Row 1, Overlap 2", "12.0", "60.0", "20.0%"]
        self.assertIn(ground, text.lines)
        data = self.data(text)
        self.assertEqual([cell[6] for cell in data["broken"]], ["one", "two", "far", ODD])
        self.assertEqual([cell[:4] + cell[6:] for cell in data["cells"]], [[8400, 0, 400, 2000, "f1cx"]])
        self.assertEqual(data["obstacles"], [[0, 6000, 600, 2000, "</script>wall"], [70000, 4000, 1000, 4000, None]])
        self.assertEqual((data["soft"], data["map"]), ([[9000, 0, 400, 2000]], None))

    def test_above_the_limit_there_is_a_map_with_the_cells_near_violations(self) -> None:
        page = self.page("--limit", "2", "--most", "1")
        self.assertIn("The first 1 of 4 are listed", page)
        data = self.data(Text(page))
        self.assertEqual([cell[6] for cell in data["broken"]], ["one"])
        self.assertEqual([cell[6] for cell in data["cells"]], ["two"])
        self.assertTrue(data["map"]["paths"] and data["map"]["broken"])

    def test_a_fully_legal_design_and_one_without_cells(self) -> None:
        bare = self.design.read_text().split("COMPONENTS")[0] + "END DESIGN\n"
        self.design.write_text(bare)
        for words in ((), ("--limit", "0")):
            page = self.page(*words)
            self.assertIn("fully legal", page)
            self.assertIn("No cell breaks a rule.", page)
            self.assertIn(["f0", "0", "0", "0", "0", "0.0", "64.0", "0.0%"], Text(page).lines)

    def test_cells_near_a_huge_one_are_bounded(self) -> None:
        huge = Cell("huge", "-", "M", 10**9, 10**9, Box(0, 0, 10**9, 10**9), "N", 1, None)
        near = Near([huge], 2000)
        nearby = Cell("a", "-", "M", 400, 2000, Box(0, 0, 400, 2000), "N", None, None)
        far = nearby._replace(name="b", box=Box(9**9, 0, 9**9 + 400, 2000))
        self.assertEqual([near.has(cell) for cell in (huge, nearby, far)], [False, True, False])
        self.assertTrue(near.has(nearby._replace(name="x" * 3_000_000)))
        self.assertFalse(near.has(nearby))

    def test_the_page_has_its_date_and_version(self) -> None:
        self.assertRegex(
            self.page(),
            rf"<dd>\d{{4}}-\d\d-\d\d \d\d:\d\d UTC, by lefence-report {re.escape(lefence.__version__)}</dd>",
        )

    def test_before_and_after(self) -> None:
        early = self.design.read_text()
        (self.folder / "early.def").write_text(early)
        self.design.write_text(early.replace("one INV + PLACED ( 64000 0 ) N", "one INV + PLACED ( 66000 2000 ) FS"))
        page = self.page("--before", "early.def")
        text = Text(page)
        self.assertIn("1 cell moved, 0 only turned, 4 stayed.", page)
        # Two cells no longer overlap; the cell far outside is still illegal.
        self.assertIn(["-", "1", "0", "0", "0", "4.00", "4.00", "3 → 1", "10 → 10"], text.lines)
        self.assertIn(["f0", "0", "0", "0", "0", "–", "–", "1 → 1", "10 → 10"], text.lines)
        self.assertIn(["one", "-", "64, 0", "66, 2", "4.00", "2.0"], text.lines)
        self.assertIn("#m=one", text.links)
        found = self.data(text)["since"]
        self.assertEqual(
            (found["arrows"], found["far"]), ([[64200, 1000, 66200, 3000, 0, "one"]], [["one", 64000, 0, 66000, 2000]])
        )
        self.assertIsNone(self.data(Text(self.page()))["since"])

    def test_designs_with_other_units_are_not_compared(self) -> None:
        text = "DESIGN t ;\nUNITS DISTANCE MICRONS 2000 ;\nROW r0 core 0 0 N DO 10 BY 1 STEP 400 0 ;\nEND DESIGN\n"
        (self.folder / "early.def").write_text(text)
        done = self.tool(
            "lefence-report", "t.def", "t.lef", "--program", self.program, "-o", "x.html", "--before", "early.def"
        )
        self.assertEqual((done.returncode, (self.folder / "x.html").exists()), (1, False), done.stderr)
        self.assertIn(b"2000 database units per micron", done.stderr)

    def test_without_violations_there_is_no_card_of_them(self) -> None:
        self.assertIn("<h2>Violations</h2>", self.page())
        self.design.write_text(self.design.read_text().split("COMPONENTS")[0] + "END DESIGN\n")
        self.assertNotIn("<h2>Violations</h2>", self.page())

    def test_the_head_of_the_page_has_the_files_and_the_wire_length(self) -> None:
        (self.folder / "early.def").write_text(self.design.read_text().replace("END DESIGN", f"{NETS}END DESIGN"))
        self.design.write_text((self.folder / "early.def").read_text().replace("( 64000 0 )", "( 66000 0 )"))
        self.lef.write_text(self.lef.read_text().replace("SITE core ; END INV", f"SITE core ; {PINS} END INV"))
        page = self.page("--before", "early.def")
        # The net goes from the pin at 30 40 to the pin of `two` or `one` at y 1000; the net of `m` has one pin only.
        wires = "wire length 65.230 -&gt; 67.030 microns (+2.8%)"
        self.assertTrue(f'<span class="badge faint">{wires}</span>' in page)
        head = r'<p class="faint">t.def · t.lef · 95 cells · \d{4}-\d\d-\d\d \d\d:\d\d UTC</p>'
        self.assertTrue(re.search(head, page))

    def test_the_density_is_the_area_of_cells_by_the_area_of_rows(self) -> None:
        found = self.data(Text(self.page()))["density"]
        # Four rows of 72 microns in bins of one row; the wall and a blockage take room.
        self.assertEqual((found["side"], found["columns"], len(found["used"])), (2000, 36, 144))
        self.assertEqual((found["wide"], found["high"]), (72000, 8000))
        self.assertEqual(sum(found["room"]), 36 * 4 * 4 - 0.6 * 2 - 1 * 4)
        # (one, two, the odd one, and f1cx; far is far away)
        self.assertAlmostEqual(sum(found["used"]), 4 * 0.4 * 2)
        self.assertEqual([at for at, area in enumerate(found["used"]) if area], [4, 32, 36])
        large = self.data(Text(self.page("--limit", "2")))["density"]
        self.assertEqual(large, found)

    def test_a_histogram_of_displacements(self) -> None:
        early = self.design.read_text()
        (self.folder / "early.def").write_text(early)
        self.assertNotIn("<h2>Displacements</h2>", self.page("--before", "early.def"))
        self.design.write_text(early.replace("one INV + PLACED ( 64000 0 ) N", "one INV + PLACED ( 66000 2000 ) FS"))
        lines = Text(self.page("--before", "early.def")).lines
        self.assertIn(["stay", "4", "80.0%", ""], lines)
        self.assertIn(["up to 2", "1", "20.0%", ""], lines)
        self.assertIn(["over 50", "0", "0.0%", ""], lines)

    def test_the_nets_of_the_cells(self) -> None:
        self.design.write_text(self.design.read_text().replace("END DESIGN", f"{NETS}END DESIGN"))
        data = self.data(Text(self.page()))
        names = [cell[6] for cell in [*data["broken"], *data["cells"]]]
        one, two = names.index("one"), names.index("two")
        # (without PINs in the LEF file a pin is in the middle of its cell)
        expected = ["</script>n", 64200.0, 1000.0, one, 64400.0, 1000.0, two, 30.0, 40.0, -1]
        self.assertEqual(data["nets"], [expected])
        large = f"( PIN p ) ;\n- big ( two A ) {' '.join(['( one A )'] * 101)} ;"
        self.design.write_text(self.design.read_text().replace("( PIN p ) ;", large))
        page = self.page()
        self.assertEqual(self.data(Text(page))["nets"], [expected])
        self.assertIn("<dd>Nets of more than 100 pins are left out: 1.</dd>", page)

    def test_the_page_loads_nothing_else(self) -> None:
        self.assertIsNone(re.search(r"""(?:src|href)=["'](?!#|data:)|https?:|@import|url[(]""", self.page()))


@unittest.skipUnless(CHROMIUM, "chromium is not there: no browser to load the page with")
class InABrowser(ReportCase):
    def setUp(self) -> None:
        super().setUp()
        self.page()
        self.browser = self.enterContext(Browser(self.folder / "browser"))

    def where(self) -> list[float]:
        found: list[float] = self.browser.value("[at.x, at.y, at.scale, chosen]")
        return found

    def test_the_page_in_a_browser(self) -> None:
        browser = self.browser
        browser.open((self.folder / "x.html").as_uri())
        browser.screen(1400)
        # Initially all is visible; a click on a violation's row shows its place.
        x, y, all_scale, chosen = self.where()
        self.assertEqual((x, y, chosen), (36000, 4000, -1))
        browser.click("tr[data-go='v=two']")
        x, y, scale, chosen = self.where()
        self.assertEqual((x, y, chosen), (64400, 1000, 1))
        self.assertGreater(scale, 1.5 * all_scale)
        self.assertEqual(browser.value("location.hash"), "#v=two")
        self.assertEqual(browser.value("document.querySelector('tr.here a').textContent"), "two")
        # The cell is drawn in red, with its frame next to it.
        pixels = "pen.getImageData(across(64200), down(2000), 400 * at.scale, 2000 * at.scale).data"
        count = "(p => [p.filter((v, n) => n % 4 == 0 && v == 217 && p[n + 1] == 43).length, p.length / 4])"
        red, all_ = browser.value(f"{count}([...{pixels}])")
        self.assertGreater(red, all_ / 3)
        self.look_around(scale)
        # Rows of teams, odd names, and widths and colours of the screen.
        browser.click("tr[data-go='t=f1']")
        self.assertEqual(self.where()[:2], [12000, 4000])
        browser.click(f"a[href='#v={quote(ODD, safe='')}']")
        self.assertEqual(self.where()[:2], [700, 3000])
        light = browser.value("colours.row")
        for width in (1400, 800, 360):
            browser.screen(width, dark=True)
            browser.until(f"document.documentElement.scrollWidth <= {width}")
        browser.until(f"colours.row !== {json.dumps(light)}")
        self.assertEqual(browser.faults(), [])

    def look_around(self, scale: float) -> None:
        """Wheel, drag, buttons and keys."""
        browser = self.browser
        x, y = browser.value(
            "[canvas.getBoundingClientRect()].map((b) => [b.x + size.wide / 2, b.y + size.high / 2])[0]"
        )
        browser.mouse("mouseWheel", x, y, deltaX=0, deltaY=-200)
        browser.drawn()
        self.assertGreater(self.where()[2], scale)
        before = self.where()
        for kind, way, buttons in (("mousePressed", 0, 1), ("mouseMoved", 50, 1), ("mouseReleased", 50, 0)):
            browser.mouse(kind, x + way, y, button="left", buttons=buttons, clickCount=1)
        browser.drawn()
        self.assertAlmostEqual(self.where()[0], before[0] - 50 / before[2], 3)
        for key, changed in (("ArrowUp", 1), ("ArrowRight", 0), ("+", 2), ("-", 2)):
            before = self.where()
            browser.key(key)
            self.assertNotEqual(self.where()[changed], before[changed], key)
        browser.key("n")
        self.assertEqual(self.where()[3], 2)
        browser.click("#out")
        browser.click("#all")
        self.assertEqual(self.where()[:2], [36000, 4000])

    def test_moves_in_a_browser(self) -> None:
        early = self.design.read_text()
        (self.folder / "early.def").write_text(early)
        self.design.write_text(early.replace("one INV + PLACED ( 64000 0 ) N", "one INV + PLACED ( 66000 2000 ) FS"))
        self.page("--before", "early.def")
        self.browser.open((self.folder / "x.html").as_uri())
        self.browser.click("tr[data-go='m=one']")
        self.assertEqual(self.where()[:2], [65000, 1000])
        # The arrow has the colour of short moves; a button hides it.
        line = "pen.getImageData(across(65200) - 1, down(2000) - 1, 3, 3).data"
        self.assertTrue(self.browser.value(f"[...{line}].some((v, n) => n % 4 == 0 && v < 90)"))
        self.browser.click("#ways")
        self.assertFalse(self.browser.value("arrowsShown"))
        self.browser.screen(360)
        self.browser.until("document.documentElement.scrollWidth <= 360")
        self.assertEqual(self.browser.faults(), [])

    def test_an_address_leads_to_a_place(self) -> None:
        for hash_, chosen in (("#v=one", 0), ("#v=nobody", -1), ("#%", -1), ("#v=%", -1)):
            self.browser.open("about:blank")
            self.browser.open((self.folder / "x.html").as_uri() + hash_)
            self.assertEqual(self.where()[3], chosen)
            self.assertEqual(self.browser.faults(), [])

    def press(self, *keys: str) -> None:
        """Presses keys in the picture."""
        self.browser.value("canvas.focus()")
        for key in keys:
            self.browser.key(key)

    def colour(self, x: int, y: int) -> list[int]:
        """The colour of the picture at a point in database units."""
        self.browser.drawn()
        # (a copy of the pixel is read, since the browser warns of many reads of a picture)
        copy = 'new OffscreenCanvas(1, 1).getContext("2d", { willReadFrequently: true })'
        code = f"const copy = {copy}; copy.drawImage(canvas, -Math.round(across({x})), -Math.round(down({y})));"
        found: list[int] = self.browser.value(f"(() => {{ {code} return [...copy.getImageData(0, 0, 1, 1).data]; }})()")
        return found[:3]

    def test_the_density_map_in_a_browser(self) -> None:
        browser = self.browser
        browser.open((self.folder / "x.html").as_uri())
        empty = self.colour(20000, 3000)
        self.press("d")
        self.assertEqual(browser.value("[joinedBins, densityBins().length]"), [4, 9])
        self.assertNotEqual(self.colour(20000, 3000), empty)
        self.assertFalse(browser.value("document.getElementById('shares').hidden"))
        # Bins become smaller and larger, down to one row and up to one bin.
        self.press("[", "[", "[")
        self.assertEqual(browser.value("[joinedBins, densityBins().length]"), [1, 144])
        # The bin of `one` and `two` is 0.6 microns of 2 full, and the tip says so.
        bin_ = "densityBins().find((bin) => bin.box[0] === 64000 && bin.box[1] === 0)"
        self.assertEqual(browser.value(f"shareText({bin_})"), "40 %")
        self.assertIn("40 % of the rows taken in 2 × 2 µm", browser.value("under(across(65800), down(1000))"))
        self.press(*"]" * 9)
        self.assertEqual(browser.value("densityBins().length"), 1)
        browser.click("#density")
        self.assertEqual(self.colour(20000, 3000), empty)
        self.assertEqual(browser.faults(), [])

    def test_a_search_in_a_browser(self) -> None:
        browser = self.browser
        browser.open((self.folder / "x.html").as_uri())
        browser.key("/")
        self.assertEqual(browser.value("document.activeElement.id"), "search")

        def found(text: str) -> list[str]:
            browser.value(f"search.value = {json.dumps(text)}; search.dispatchEvent(new Event('input'))")
            names: list[str] = browser.value("[...foundList.children].map((entry) => entry.textContent)")
            return names

        self.assertEqual(found("TWO"), ["twoINV"])
        self.assertEqual(found("f1"), ["f1team", *(f"f1c{at}unplaced" for at in range(10)), "f1cxINV"])
        self.assertEqual(found("f*c3"), [f"f{at}c3unplaced" for at in range(8)])
        self.assertEqual(found("c")[-1], "and 81 more")
        self.assertEqual(found("wall"), ["</script>wallFIXED"])
        self.assertEqual(found("script"), ["</script>wallFIXED", f"{ODD}INV"])
        self.assertEqual(found("f0c[1"), ["nothing has this name"])
        found("two")
        browser.key("Enter")
        self.assertEqual(self.where()[:2], [64400, 1000])
        self.assertEqual(browser.value("[location.hash, foundList.hidden]"), ["#c=two", True])
        self.assertEqual(browser.value("info.firstChild.textContent"), "two")
        found("*script*b*")
        browser.click("#found button")
        self.assertEqual(self.where()[:2], [700, 3000])
        self.assertEqual(browser.value("info.firstChild.textContent"), ODD)
        self.press("Escape")
        self.assertTrue(browser.value("info.hidden"))
        self.assertEqual(browser.faults(), [])

    def test_before_and_after_in_a_browser(self) -> None:
        early = self.design.read_text()
        (self.folder / "early<b>.def").write_text(early)
        self.design.write_text(early.replace("one INV + PLACED ( 64000 0 ) N", "one INV + PLACED ( 66000 2000 ) FS"))
        self.page("--before", "early<b>.def")
        browser = self.browser
        browser.open((self.folder / "x.html").as_uri())
        browser.click("tr[data-go='m=one']")
        self.press("m")
        red, row = [217, 43, 43], self.colour(68000, 1000)
        self.assertEqual(browser.value("when.textContent"), "after: t.def")
        self.assertEqual((self.colour(64100, 1000), self.colour(66100, 3000)), (row, [135, 152, 174]))
        # Before, `one` overlaps `two`.
        self.press("b")
        self.assertEqual(browser.value("when.textContent"), "before: early<b>.def")
        self.assertEqual((self.colour(64100, 1000), self.colour(66100, 3000)), (red, row))
        browser.click("#before")
        self.assertEqual(self.colour(66100, 3000), [135, 152, 174])
        self.assertEqual(browser.faults(), [])

    def test_names_of_javascript_are_names_of_cells(self) -> None:
        cells = "- constructor INV + PLACED ( 65000 2000 ) FS ;\n- __proto__ INV + PLACED ( 65600 2000 ) FS ;\n"
        early = self.design.read_text().replace("- far INV", f"{cells}- far INV")
        (self.folder / "early.def").write_text(early)
        self.design.write_text(early.replace("( 65600 2000 )", "( 68000 2000 )"))
        self.page("--before", "early.def")
        browser = self.browser
        browser.open((self.folder / "x.html").as_uri())
        lefts = "Object.entries(Object.fromEntries(cells.map((cell) => [`c_${cell[NAME]}`, placeOf(cell)[LEFT]])))"
        after = dict(browser.value(lefts))
        self.press("b")
        before = dict(browser.value(lefts))
        self.assertEqual((after["c_constructor"], after["c___proto__"]), (65000, 68000))
        self.assertEqual({name: left for name, left in before.items() if after[name] != left}, {"c___proto__": 65600})
        self.assertEqual(browser.faults(), [])

    def test_the_nets_of_a_clicked_cell_in_a_browser(self) -> None:
        self.design.write_text(self.design.read_text().replace("END DESIGN", f"{NETS}END DESIGN"))
        self.page()
        browser = self.browser
        browser.open((self.folder / "x.html").as_uri() + "#t=-")
        empty = self.colour(32115, 520)
        # A click on a cell shows its nets, with a line to each other pin; a click beside all cells ends that.
        spot = "((x, y) => { const b = canvas.getBoundingClientRect(); return [b.x + across(x), b.y + down(y)]; })"
        for x, y, shown in ((64100, 1000, True), (32000, 7000, False)):
            across, down = browser.value(f"{spot}({x}, {y})")
            for kind in ("mousePressed", "mouseReleased"):
                browser.mouse(kind, across, down, button="left", clickCount=1)
            browser.drawn()
            self.assertEqual(browser.value("!info.hidden"), shown)
            self.assertEqual(self.colour(32115, 520) != empty, shown)
            if shown:
                self.assertEqual(browser.value("info.lastChild.textContent"), "1 net: </script>n")
                self.assertEqual(browser.value("location.hash"), "#c=one")
        self.assertEqual(browser.faults(), [])

    def test_a_scale_bar_in_a_browser(self) -> None:
        browser = self.browser
        browser.open((self.folder / "x.html").as_uri())
        for _ in range(3):
            text, width = browser.value("[scaleBar.textContent, parseFloat(scaleBar.style.width)]")
            length = float(text.removesuffix(" µm"))
            self.assertAlmostEqual(browser.value(f"{length} * data.units * at.scale"), width, 2)
            self.assertTrue(45 < width <= 121, width)
            self.press("+", "+", "+")
        self.assertEqual(browser.faults(), [])

    def test_a_map_in_a_browser(self) -> None:
        self.page("--limit", "2")
        self.browser.open((self.folder / "x.html").as_uri())
        red = "[...pen.getImageData(Math.round(across(64400)), Math.round(down(1000)), 1, 1).data]"
        self.assertGreater(self.browser.value(red)[0], 180)
        self.browser.click("tr[data-go='v=two']")
        self.assertEqual(self.where()[:2], [64400, 1000])
        self.assertEqual(self.browser.faults(), [])


if __name__ == "__main__":
    unittest.main()
