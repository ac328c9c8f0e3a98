"""lefence-view in a real browser: what is drawn, what changes show, and work that ends legal."""

from __future__ import annotations

import json
import os
import subprocess
import threading
import time
import unittest
from collections.abc import Callable, Iterator
from pathlib import Path
from typing import Any

from browser import CHROMIUM, Browser
from support import PATIENCE, PROGRAM, WIDTH, HubCase, Talker, tool_words

from lefence.base.description import Box, Cell, Facts, Frame, Row
from lefence.live.board import Board
from lefence.live.cells import CellTable, Place
from lefence.live.design import design_of
from lefence.live.server import PageServer
from lefence.view.scene import BROKEN, colour_of

GL: tuple[str, ...] = ("--use-angle=swiftshader", "--enable-unsafe-swiftshader")
NO_GL: tuple[str, ...] = ("--disable-3d-apis",)
# Names that a page must not take for markup, and one that a link must escape.
HOSTILE = ("f0<script>alert(1)</script>", "f0<img/src=x/onerror=alert(1)>", "f0&amp;\"'`${1}", "f0#s=%41&v=1")


def in_page(code: str) -> str:
    """An expression in which `l` is what the page shows to tests."""
    return f"(() => {{ const l = window.lefence; return {code}; }})()"


def rgb(colour: str) -> list[int]:
    return [int(colour[at : at + 2], 16) for at in (1, 3, 5)]


class ViewCase(HubCase):
    """A page of a hub, or of files, in a browser."""

    FLAGS = GL
    browser: Browser

    def setUp(self) -> None:
        super().setUp()
        if CHROMIUM is None:
            self.skipTest("chromium is not here; Debian has it as the package chromium")
        self.browser = self.new_browser("browser")

    def new_browser(self, name: str) -> Browser:
        return self.enterContext(Browser(self.folder / name, *self.FLAGS))

    def view(self, *words: str | Path) -> str:
        """Starts lefence-view; returns the address of its page."""
        command = [*tool_words("lefence-view"), *map(str, words), "--program", PROGRAM]
        process = subprocess.Popen(command, stdout=subprocess.PIPE, stderr=subprocess.PIPE, cwd=self.folder, text=True)
        self.addCleanup(self.end, process)
        assert process.stdout and process.stderr
        address = process.stdout.readline().strip()
        self.assertTrue(address.startswith("http://127.0.0.1:"), address or process.stderr.read())
        self.process = process
        return address

    def end(self, process: subprocess.Popen[str]) -> None:
        process.terminate()
        process.communicate(timeout=PATIENCE)

    def open(self, address: str, browser: Browser | None = None) -> None:
        """Opens a page and waits until it shows the design."""
        (browser or self.browser).open(address)
        self.until("!!window.lefence", browser)

    def value(self, code: str, browser: Browser | None = None) -> Any:
        """Evaluates JavaScript in the page; `l` is what the page shows to tests."""
        return (browser or self.browser).value(in_page(code))

    def until_text(self, selector: str, words: str) -> None:
        """Waits until the text of an element has these words."""
        self.until(f"document.querySelector({selector!r})?.textContent.includes({json.dumps(words)})")

    def until(self, code: str, browser: Browser | None = None) -> None:
        """Waits until an expression of the page is true."""
        (browser or self.browser).until(in_page(code))

    def place(self, cell: str) -> list[Any]:
        """A cell's place in the page."""
        number = f"l.cellNamed({cell!r})"
        code = f"[l.state.now.x[{number}], l.state.now.y[{number}], l.orientOf({number}) ?? null]"
        found: list[Any] = self.value(code)
        return found if found[2] else [None]

    def until_at(self, cell: str, x: int, y: int, orient: str = "N") -> None:
        number = f"l.cellNamed({cell!r})"
        here = f"l.state.now.x[{number}] === {x} && l.state.now.y[{number}] === {y}"
        self.until(f"{here} && l.orientOf({number}) === {orient!r}")

    def point(self, x: float, y: float) -> tuple[float, float]:
        """A point of the design in pixels of the window."""
        code = f"(box => [l.across({x}) + box.x, l.down({y}) + box.y])(l.stage.getBoundingClientRect())"
        along, down = self.value(code)
        return along, down

    def pixel(self, x: float, y: float) -> list[int]:
        """The colour of the picture at a point of the design."""
        found: list[int] = self.value(f"l.pixelAt(l.across({x}), l.down({y}))")
        return found

    def text(self, selector: str) -> str:
        return str(self.browser.value(f"document.querySelector({selector!r})?.textContent ?? ''"))

    def choose(self, name: str, value: str) -> None:
        """Chooses a value of a list."""
        code = f"const m = document.getElementById({name!r}); m.value = {value!r}; m.dispatchEvent(new Event('input'))"
        self.browser.value(f"{{ {code} }}")

    def drag(self, start: tuple[float, float], end: tuple[float, float], on_way: Callable[[], None]) -> None:
        """Drags with the mouse; calls a function before the end."""
        mouse = self.browser.mouse
        mouse("mousePressed", *start, button="left", buttons=1, clickCount=1)
        for part in (0.5, 1.0):
            x, y = (one + part * (other - one) for one, other in zip(start, end))
            mouse("mouseMoved", x, y, button="left", buttons=1)
        on_way()
        mouse("mouseReleased", *end, button="left", clickCount=1)

    def assert_no_faults(self, address: str) -> None:
        """No error in the page, and no request to elsewhere."""
        for event in self.browser.events:
            fields = event.get("params", {})
            self.assertNotEqual(event.get("method"), "Runtime.exceptionThrown", event)
            if event.get("method") == "Log.entryAdded":
                self.assertNotEqual(fields["entry"]["level"], "error", event)
            if event.get("method") == "Network.requestWillBeSent":
                self.assertTrue(fields["request"]["url"].startswith((address, "data:")), event)


class HubPages(ViewCase):
    def setUp(self) -> None:
        super().setUp()
        self.start()
        self.user = self.talk("f0")
        self.user.ask("open f0", "place f0 0 f0c1 0 0 N", "place f0 0 f0c2 2000 0 N", "place f0 0 f0c3 4000 2000 FS")

    def test_what_happens_shows(self) -> None:
        address = self.view("s")
        self.open(address)
        self.assertEqual(self.place("f0c2"), [2000, 0, "N"])
        self.assertEqual(self.place("f0c4"), [None])
        self.value("l.fit([0, 0, 8000, 8000])")
        self.assertEqual(self.pixel(100, 400), rgb(colour_of(0, "f0")))
        # (a glow fades after seconds: this page keeps all of them)
        self.value("(l.state.glows.delete = () => false, true)")
        # each change, of the team's socket or the operator's
        self.user.ask("place f0 0 f0c4 1000 0 N")
        self.until_at("f0c4", 1000, 0)
        self.until_text("#changes tr", "place f0c4 1000 0 N")
        self.until_text("#changes tr", f", pid {os.getpid()} · socket f0")
        self.assertTrue(self.value("l.state.glows.has(l.cellNamed('f0c4'))"))
        self.talk("operator").ask("open f0", "legalize f0 1 f0c4 6000 0")
        self.until_at("f0c4", 6000, 0)
        self.until_text("#changes tr", "operator's socket")
        self.user.ask("sync f0 0", "swap f0 0 f0c1 f0c2")
        self.until_at("f0c1", 2000, 0)
        self.until_at("f0c2", 0, 0)
        self.user.ask("undo f0 0", "undo f0 0")
        self.until_at("f0c1", 0, 0)
        self.until_at("f0c4", 1000, 0)
        self.user.ask("unplace f0 0 f0c4")
        self.until("l.orientOf(l.cellNamed('f0c4')) === undefined")
        self.user.ask("tidy f0 0")
        self.until("l.state.facts[0].unplaced === 0")
        self.until("[...document.querySelectorAll('#teams tr')][0].children[1].textContent === '10'")
        for cell in range(10):
            where = self.user.ask(f"where f0 0 f0c{cell}")[0].split()[1:]
            self.assertEqual([str(word) for word in self.place(f"f0c{cell}")], where)
        # committed places
        self.assertEqual(self.value("l.state.uncommitted.size"), 10)
        self.user.ask("commit f0 0")
        self.until("l.state.uncommitted.size === 0 && l.state.facts[0].uncommitted === 0")
        self.user.ask("place f0 0 f0c1 0 6000 FS")
        self.until("l.state.uncommitted.size === 1")
        self.user.ask("revert f0 0")
        self.until("l.state.uncommitted.size === 0")
        self.until_at("f0c1", 0, 0)
        self.assert_no_faults(address)

    def test_a_broken_rule_is_red_until_it_is_cured(self) -> None:
        # (undo restores a place that a padding has made illegal)
        self.user.ask("place f0 0 f0c4 400 0 N", "pad f0 0 2")
        address = self.view("s")
        self.open(address)
        self.value("l.fit([0, 0, 8000, 8000])")
        self.assertEqual(self.pixel(100, 400), rgb(BROKEN))
        self.browser.key("n")
        self.assertIn("f0c1 overlaps f0c4", self.text("#violations tr.here"))
        self.assertIn("8 Overlap", self.text("#cell"))
        self.user.ask("pad f0 0 0")
        self.until("l.state.facts[0].broken[8] === undefined")
        self.until("document.querySelectorAll('#violations tr').length === 0")
        self.value("l.fit([0, 0, 8000, 8000])")
        self.assertEqual(self.pixel(100, 400), rgb(colour_of(0, "f0")))
        self.assert_no_faults(address)

    def test_a_drag_ends_at_the_legal_place_that_was_shown(self) -> None:
        address = self.view("s", "--edit", "f0")
        self.open(address)
        self.value("l.fit([0, 0, 8000, 8000])")
        self.browser.drawn()
        ghost: list[Any] = []

        def look() -> None:
            # (the ghost of the last target: onto f0c2)
            self.until("l.shown.ghost !== null && Math.abs(l.shown.ghost[0] - 2000) <= 600")
            self.until_text("#measure", "legal at")
            ghost.extend(self.value("l.shown.ghost"))

        self.drag(self.point(200, 1000), self.point(2200, 1000), look)
        self.until("l.state.facts[0].revision === 4")
        self.assertEqual(self.place("f0c1")[:2], ghost[:2])
        self.assertEqual(self.user.ask("sync f0 0", "where f0 0 f0c1")[1], "ok %d %d N" % (ghost[0], ghost[1]))
        # (the reply to the page and the event of the change come in any order)
        self.until_text("#lines", f"legalize f0 1 f0c1 2000 0ok 4 {ghost[0]} {ghost[1]} N")
        # a cell of a team that the page may not change stays
        self.talk("f1").ask("open f1", f"place f1 0 f1c1 {WIDTH} 0 N")
        self.until_at("f1c1", WIDTH, 0)
        self.value("l.fitAll()")
        self.drag(self.point(WIDTH + 200, 1000), self.point(WIDTH + 3000, 1000), lambda: None)
        self.assertEqual(self.talk("f1").ask("open f1", "where f1 1 f1c1")[1], f"ok {WIDTH} 0 N")
        answer = self.browser.value("lefence.send('f1', 'unplace f1c1')")
        self.assertIn("may not change team f1", answer["refusal"])
        self.assert_no_faults(address)

    def test_a_refusal_shows_its_rule_and_the_other_cell(self) -> None:
        self.open(self.view("s", "--edit", "f0"))
        self.browser.value("lefence.send('f0', 'place f0c1 2000 0 N')")
        self.assertIn("f0c1 would overlap f0c2", self.text("#notice"))
        self.assertEqual(self.value("l.shown.other === l.cellNamed('f0c2')"), True)
        self.assertIn("no 7 Illegal 8 f0c1 f0c2", self.text("#lines"))
        self.assertEqual(self.user.ask("where f0 0 f0c1"), ["ok 0 0 N"])

    def test_the_change_of_another_session_is_not_overwritten(self) -> None:
        self.open(self.view("s", "--edit", "f0"))
        self.browser.value("lefence.send('f0', 'place f0c1 0 4000 N')")
        self.user.ask("sync f0 0", "place f0 0 f0c1 400 4000 N")
        self.until_at("f0c1", 400, 4000)
        self.browser.value("lefence.send('f0', 'undo')")
        self.until_text("#lines", "sync f0 1")
        self.until_text("#notice", "Stale: another session has changed team f0")
        self.assertEqual(self.user.ask("where f0 0 f0c1"), ["ok 400 4000 N"])
        # then the page may work again
        self.until("document.getElementById('lines').textContent.endsWith('ok 5')")
        self.browser.value("lefence.send('f0', 'undo')")
        self.until_at("f0c1", 0, 4000)

    def test_buttons_and_the_console_send_lines(self) -> None:
        self.open(self.view("s", "--edit", "f0", "f1"))
        self.value("l.select(l.cellNamed('f0c1'))")
        self.browser.click("#work-unplace")
        self.until("l.orientOf(l.cellNamed('f0c1')) === undefined")
        self.browser.click("#work-undo")
        self.until_at("f0c1", 0, 0)
        self.value("l.select(l.cellNamed('f0c1'))")
        self.browser.click("#work-swap")
        self.value("l.select(l.cellNamed('f0c2'))")
        self.until_at("f0c1", 2000, 0)
        self.browser.click("#work-tidy")
        self.until("l.state.facts[0].unplaced === 0")
        self.browser.click("#work-commit")
        self.until("l.state.facts[0].uncommitted === 0")
        self.until_text("#work-revision", "revision 8")
        self.until_text("#lines", "commit f0 1ok 8")
        self.browser.click("[data-tab='console']")
        self.browser.value("document.getElementById('ask-line').value = 'where f0c2'")
        self.browser.click("#ask button")
        self.until("document.getElementById('lines').textContent.endsWith('where f0 1 f0c2ok 0 0 N')")
        refused = self.browser.value("lefence.send('f0', 'export x')")
        self.assertEqual(refused["refusal"], "a page cannot send export")

    def test_a_button_that_is_pressed_while_something_moves_does_its_work(self) -> None:
        self.open(self.view("s", "--edit", "f0"))
        x, y = self.browser.middle("#work-tidy")
        self.browser.mouse("mousePressed", x, y, button="left", clickCount=1)
        self.talk("f1").ask("open f1", f"place f1 0 f1c1 {WIDTH} 0 N")
        self.until_at("f1c1", WIDTH, 0)
        self.browser.mouse("mouseReleased", x, y, button="left", clickCount=1)
        self.until("l.state.facts[0].unplaced === 0")

    def test_a_page_that_only_looks_changes_nothing(self) -> None:
        self.open(self.view("s"))
        answer = self.browser.value("lefence.send('f0', 'find f0c1 1000 0')")
        self.assertEqual(answer["reply"], "ok 1000 0 N")
        answer = self.browser.value("lefence.send('f0', 'unplace f0c1')")
        self.assertIn("may not change team f0", answer["refusal"])
        self.assertEqual(self.value("[document.getElementById('work').hidden, l.state.facts[0].revision]"), [True, 3])

    def test_a_hub_that_restarts_under_an_open_page(self) -> None:
        address = self.view("s")
        self.open(address)
        self.hub.kill()
        self.until("document.getElementById('state').textContent === 'the hub is gone'")
        self.start()
        self.until("document.getElementById('state').textContent === 'live'")
        self.talk("f0").ask("open f0", "place f0 0 f0c1 800 0 N")
        self.until_at("f0c1", 800, 0)
        self.until_text("#changes tr", "place f0c1 800 0 N")
        self.until("l.state.uncommitted.size === 3")

    def test_two_pages_and_one_that_closes(self) -> None:
        address = self.view("s", "--edit", "f0")
        self.open(address)
        other = self.new_browser("other")
        self.open(address, other)
        self.browser.value("lefence.send('f0', 'place f0c1 0 4000 N')")
        self.until("l.state.now.y[l.cellNamed('f0c1')] === 4000", other)
        # (the page's session is free after it is closed)
        self.assertEqual(self.user.ask("open f0"), ["ok 2 4"])
        self.user.ask("close f0 2")
        self.browser.open("about:blank")
        self.until_slot_is_free(self.user, 1)

    def until_slot_is_free(self, talker: Talker, number: int) -> None:
        last = time.monotonic() + PATIENCE
        while (reply := talker.ask("open f0")[0]) != f"ok {number} 4":
            self.assertLess(time.monotonic(), last, reply)
            talker.ask(f"close f0 {reply.split()[1]}")
            time.sleep(0.05)

    def test_an_earlier_state_of_the_hub_is_known_to_a_new_page(self) -> None:
        self.user.ask("tidy f0 0", "commit f0 0", "place f0 0 f0c1 0 6000 FS")
        self.open(self.view("s"))
        self.assertEqual(self.value("[...l.state.uncommitted].map(l.nameOf)"), ["f0c1"])
        self.assertEqual(self.value("l.state.committed.y[l.cellNamed('f0c1')]"), 0)
        self.user.ask("commit f0 0")
        self.until("l.state.uncommitted.size === 0")


class PictureCase(ViewCase):
    """Files with cells, two of which overlap, and with obstacles."""

    PLACED = """BLOCKAGES 2 ;
- PLACEMENT RECT ( 70000 4000 ) ( 71000 8000 ) ;
- PLACEMENT + SOFT RECT ( 9000 0 ) ( 9400 2000 ) ;
END BLOCKAGES
COMPONENTS 5 ;
- wall BUF + FIXED ( 68000 0 ) N ;
- one INV + PLACED ( 64000 0 ) N ;
- two INV + PLACED ( 64200 0 ) N ;
- f0cx/y INV + PLACED ( 4000 2000 ) FS ;
- f0cz INV + PLACED ( 6000 2000 ) S ;
END COMPONENTS
"""

    def setUp(self) -> None:
        super().setUp()
        self.add(self.PLACED)

    def add(self, sections: str) -> None:
        text = self.design.read_text()
        self.design.write_text(text.replace("END DESIGN", f"{sections}END DESIGN"))

    def check_picture(self) -> None:
        address = self.view("t.def", "t.lef")
        self.open(address)
        self.assertEqual(self.pixel(4200, 3000), rgb(colour_of(0, "f0")))
        self.assertEqual(self.pixel(64300, 1000), rgb(BROKEN))
        self.assertEqual(self.pixel(70500, 6000), rgb("#aab2bd"))
        self.assertEqual(self.pixel(68450, 700), rgb("#59626e"))
        self.assertEqual(self.pixel(66000, 6600), rgb("#ffffff"))
        red, green, blue = self.pixel(WIDTH + 4100, 5000)
        self.assertTrue(200 < red < 240 and green > red and blue > 220 - 40, (red, green, blue))
        # layers
        self.browser.value("document.getElementById('layer-cells').click()")
        self.assertNotEqual(self.pixel(4200, 3000), rgb(colour_of(0, "f0")))
        self.assert_no_faults(address)


class FilePages(PictureCase):
    def test_what_is_drawn(self) -> None:
        self.check_picture()
        self.assertEqual(self.text("#drawn"), "WebGL")

    def test_find_and_understand(self) -> None:
        self.lef.write_text(self.lef.read_text().replace("SITE core ; END INV", "PIN A END A PIN B END B END INV"))
        (self.folder / "before.def").write_text(self.design.read_text().replace("( 6000 2000 ) S", "( 2000 6000 ) S"))
        address = self.view("t.def", "t.lef", "--compare", "before.def")
        self.open(address)
        self.value("l.search('f0cx*')")
        self.assertEqual(self.value("l.nameOf(l.shown.selected)"), "f0cx/y")
        self.assertIn("INV", self.text("#cell"))
        self.assertIn("2 pins", self.text("#cell"))
        self.assertIn("4, 2 µm FS  (4000 2000)", self.text("#cell"))
        self.value("l.search('nothing')")
        self.assertIn("no cell has such a name", self.text("#found"))
        # violations, one after the other
        for name in ("one", "two", "one"):
            self.browser.key("n")
            self.assertEqual(self.value("l.nameOf(l.shown.selected)"), name)
        self.browser.key("F2")
        # a region, with Shift
        mouse, start, end = self.browser.mouse, self.point(60000, -2000), self.point(72000, 7900)
        mouse("mousePressed", *start, button="left", buttons=1, clickCount=1, modifiers=8)
        mouse("mouseMoved", *end, button="left", buttons=1, modifiers=8)
        mouse("mouseReleased", *end, button="left", clickCount=1, modifiers=8)
        self.until("document.getElementById('region-facts') !== null")
        self.assertIn("Cells2,", self.text("#region-facts"))
        self.assertIn("Pins4", self.text("#region-facts"))
        # maps, and two moments
        for kind in ("use", "pins", "moves"):
            self.choose("map", kind)
            self.assertFalse(self.value("document.getElementById('legend').hidden"))
        self.choose("base", "before")
        self.assertIn("1 cells are elsewhere than before.def: 8 µm on average", self.text("#base-note"))
        self.assertEqual(self.value("l.currentMap().values.filter((value) => value > 0).length"), 1)
        counts = "[...document.querySelectorAll('#histogram .number')].map((each) => each.textContent)"
        self.assertEqual(self.value(counts), ["0", "1", "0", "0", "0", "0"])
        self.assert_no_faults(address)

    def test_a_ruler_and_keys(self) -> None:
        self.open(self.view("t.def", "t.lef"))
        self.browser.key("r")
        self.drag(self.point(64000, 0), self.point(66000, 0), lambda: None)
        self.assertEqual(self.value("l.shown.rulers"), [[64000, 0, 66000, 0]])
        self.assertEqual(self.text("#measure"), "2 µm  (Δx 2, Δy 0)")
        self.browser.ask("Input.dispatchKeyEvent", type="keyDown", key="k", modifiers=2)
        self.assertEqual(self.value("l.shown.rulers"), [])
        self.browser.key("s")
        before = self.value("[l.view.x, l.view.y, l.view.scale]")
        x, y = self.point(64000, 4000)
        self.browser.mouse("mouseWheel", x, y, deltaX=0, deltaY=-300)
        self.until(f"l.view.scale > {before[2]}")
        # (the point under the pointer stays)
        self.assertLess(max(abs(one - other) for one, other in zip(self.point(64000, 4000), (x, y))), 2)
        for key in ("ArrowUp", "ArrowLeft", "+"):
            before = self.value("[l.view.x, l.view.y, l.view.scale]")
            self.browser.key(key)
            self.assertNotEqual(self.value("[l.view.x, l.view.y, l.view.scale]"), before)
        self.browser.key("F2")
        self.assertEqual(self.value("[l.view.x, l.view.y]"), [36000, 4000])

    def test_a_link_shows_the_same(self) -> None:
        address = self.view("t.def", "t.lef")
        self.open(f"{address}#v=64000,1000,0.02&l=names,moves&m=use,7&c=opened&s=f0cx%2Fy&r=0,0,4000,2000")
        self.assertEqual(self.value("[l.view.x, l.view.y, l.view.scale]"), [64000, 1000, 0.02])
        self.assertEqual(self.value("[l.layers.names, l.layers.moves, l.layers.cells]"), [False, True, True])
        shown = self.value("[l.shown.map, l.shown.bin, l.shown.base, l.nameOf(l.shown.selected), l.shown.region]")
        self.assertEqual(shown, ["use", 7, "opened", "f0cx/y", [0, 0, 4000, 2000]])
        self.browser.key("ArrowRight")
        self.until("location.hash.startsWith('#v=68000,1000,0.02&l=names,moves&m=use,7&c=opened&s=f0cx%2Fy')")
        for odd in ("#%&s=%", "#v=1,x,3&s=nobody&m=x,y&r=1&v=1e999,0,1"):
            self.browser.open("about:blank")
            self.open(address + odd)
            self.assertEqual(self.value("[l.view.x, l.shown.selected, l.shown.map]"), [36000, -1, "none"])
            self.assert_no_faults(address)

    def test_hostile_names(self) -> None:
        parts = "".join(f"- {name} INV + PLACED ( {4400 + 800 * at} 4000 ) N ;\n" for at, name in enumerate(HOSTILE))
        self.add(f"COMPONENTS {len(HOSTILE)} ;\n{parts}END COMPONENTS\n")
        address = self.view("t.def", "t.lef")
        self.open(address)
        for at, name in enumerate(HOSTILE):
            self.browser.value(f"lefence.select(lefence.cellNamed({name!r}), true)")
            self.assertTrue(self.text("#cell").startswith(name), name)
            self.browser.value(f"lefence.search({name[:6]!r})")
            self.browser.mouse("mouseMoved", *self.point(4600 + 800 * at, 5000))
        self.assertEqual(self.browser.value("document.querySelectorAll('aside script, aside img').length"), 0)
        self.browser.value(f"lefence.select(lefence.cellNamed({HOSTILE[3]!r}))")
        self.until("location.hash.includes('s=f0%23')")
        link = self.value("location.hash")
        self.browser.open("about:blank")
        self.open(address + link)
        self.assertEqual(self.value("l.nameOf(l.shown.selected)"), HOSTILE[3])
        self.assert_no_faults(address)

    def test_cells_smaller_than_a_pixel_are_bins(self) -> None:
        self.open(self.view("t.def", "t.lef"))
        self.value("l.view.scale = 0.001; l.viewChanged()".replace("; ", ", "))
        self.browser.drawn()
        self.assertEqual(self.value("[l.drawn.isMap, l.drawn.cells]"), [True, 0])
        self.value("l.fit([64000, 0, 8000, 8000])")
        self.browser.drawn()
        self.assertEqual(self.value("[l.drawn.isMap, l.drawn.cells]"), [False, 2])


class PlainFilePages(PictureCase):
    """The plain canvas, in a browser without WebGL."""

    FLAGS = NO_GL

    def test_what_is_drawn_without_webgl(self) -> None:
        self.check_picture()
        self.assertEqual(self.text("#drawn"), "canvas")


class LargePages(ViewCase):
    """A million cells; bench/view.py has the times."""

    COUNT = 1_000_000

    def board(self) -> Board:
        side = 1000
        rows = [Row(f"r{at}", Box(0, 2000 * at, 1000 * side, 2000 * at + 2000), "N", 5 * side) for at in range(side)]
        frame = Frame(Facts("large", 1000, "core", 200, 2000), rows, [], [], [])

        def cells() -> Iterator[Cell]:
            for at in range(self.COUNT):
                x, y = 1000 * (at % side), 2000 * (at // side)
                yield Cell(f"block/u{at}", "-", "INV", 400, 2000, Box(x, y, x + 400, y + 2000), "N", None, None)

        return Board(frame, CellTable(frame.teams, cells()))

    def test_a_million_cells(self) -> None:
        board = self.board()
        design = design_of(board.frame, board.table, {}, "x", {"is_live": True, "editable": [], "compare": None})
        server = PageServer(0, board, design, None)
        threading.Thread(target=server.serve_forever, daemon=True).start()
        self.addCleanup(server.server_close)
        self.addCleanup(server.shutdown)
        self.addCleanup(board.events.end)
        self.open(server.address)
        self.assertEqual(self.value("[l.state.count, l.drawn.isMap]"), [self.COUNT, True])
        # (a bin is two fifths full)
        red, green, blue = self.pixel(500_000, 1_000_000)
        self.assertTrue(blue > green > red and red < 230, (red, green, blue))
        self.value("l.search('block/u777777')")
        self.browser.drawn()
        self.assertEqual(self.pixel(777_100, 1_554_400), rgb(colour_of(0, "-")))
        self.assertLess(self.value("l.drawn.cells"), 1000)
        board.move(0, [(777_777, Place(777_400, 1_554_000, 0))])
        self.until_at("block/u777777", 777_400, 1_554_000)
        self.assertEqual(self.pixel(777_500, 1_554_400), rgb(colour_of(0, "-")))
        self.browser.ask("HeapProfiler.collectGarbage")
        heap = self.browser.ask("Runtime.getHeapUsage")
        self.assertLess(heap["usedSize"] + heap.get("backingStorageSize", 0), 500 << 20, heap)


if __name__ == "__main__":
    unittest.main()
