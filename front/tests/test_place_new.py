"""New cells near their nets: `lefence-prepare --place-new` and `lefence-carry --place-new`."""

from __future__ import annotations

import json
import random
import subprocess
from pathlib import Path
from unittest import main

from support import PROGRAM, SEED, FrontCase

from lefence.base.description import Description
from lefence.base.design import Design
from lefence.base.nets import Netlist, Place
from lefence.base.state_text import teams_in
from lefence.prepare.new_cells import MOST_PINS, places_near_nets

PIN = "PIN {0} PORT LAYER m1 ; RECT {1} {2} {1} {2} ; END END {0}"
LEF = f"""VERSION 5.8 ;
SITE core CLASS CORE ; SYMMETRY Y ; SIZE 0.2 BY 2.0 ; END core
MACRO INV CLASS CORE ; SIZE 0.4 BY 2.0 ; SYMMETRY X Y ; {PIN.format("A", 0.1, 0.5)} {PIN.format("Z", 0.3, 1.5)} END INV
MACRO DBL CLASS CORE ; SIZE 0.6 BY 4.0 ; SYMMETRY X Y ; {PIN.format("A", 0.1, 2.5)} END DBL
MACRO RAM CLASS BLOCK ; SIZE 4.0 BY 4.0 ; END RAM
END LIBRARY
"""
SITES, ROWS = 50, 8


def design_text(components: list[str], nets: list[str], fence: str = "", pins: tuple[str, ...] = ()) -> str:
    """A design of equal rows; the fence F has the cells f/*."""
    rows = "".join(f"ROW r{row} core 0 {row * 2000} N DO {SITES} BY 1 STEP 200 0 ;\n" for row in range(ROWS))
    regions = f"REGIONS 1 ;\n- F {fence} + TYPE FENCE ;\nEND REGIONS\n" if fence else ""
    groups = "GROUPS 1 ;\n- F f/* + REGION F ;\nEND GROUPS\n" if fence else ""
    sections = ""
    for name, entries in (("COMPONENTS", components), ("PINS", pins), ("NETS", nets)):
        lines = "".join(f"- {entry} ;\n" for entry in entries)
        sections += f"{name} {len(entries)} ;\n{lines}END {name}\n"
    head = "VERSION 5.8 ;\nDESIGN t ;\nUNITS DISTANCE MICRONS 1000 ;\n"
    return f"{head}{rows}{regions}{sections}{groups}END DESIGN\n"


class PlaceNew(FrontCase):
    def setUp(self) -> None:
        super().setUp()
        self.lef.write_text(LEF)

    def places(self, text: str) -> dict[str, tuple[Place, int]]:
        """The places that the cells without one get, each with its number of nets."""
        self.design.write_text(text)
        with Description(PROGRAM, self.design, [self.lef]) as description:
            cells = [cell for cell in description.cells() if cell.box is None]
            frame = description.frame
        netlist = Netlist(Design(text.encode()), [LEF.encode()], 1000, {cell.name.encode() for cell in cells})
        return {name: (near.place, near.nets) for name, near in places_near_nets(netlist, frame, cells).items()}

    def test_a_place_makes_the_nets_nearly_as_short_as_can_be(self) -> None:
        for turn in range(15):
            rng = random.Random(f"{SEED} {turn}")
            components = [
                f"c{number} INV + PLACED ( {rng.randrange(SITES) * 200} {rng.randrange(ROWS) * 2000} ) N"
                for number in range(8)
            ]
            team, fence = rng.choice([("new", ""), ("f/new", "( 2000 4000 ) ( 6000 12000 )")])
            nets = []
            for number in range(rng.randrange(1, 6)):
                others = [f"( c{rng.randrange(8)} {rng.choice('AZ')} )" for _ in range(rng.randrange(1, 4))]
                nets.append(f"n{number} ( {team} {rng.choice('AZ')} ) {' '.join(others)}")
            text = design_text([*components, f"{team} INV"], nets, fence)
            place, count = self.places(text)[team]
            self.assertEqual((count, place.orient), (len(nets), b"N"))
            netlist = Netlist(Design(text.encode()), [LEF.encode()], 1000)
            lengths = {}
            for x in range(0, SITES * 200 - 200, 200):
                for y in range(0, ROWS * 2000, 2000):
                    if not fence or (2000 <= x <= 5600 and 4000 <= y <= 10000):
                        netlist.places[team.encode()] = Place(x, y, b"N")
                        lengths[x, y] = sum(map(netlist.length, netlist.nets))
            # (the grid point that is nearest to the best point need not be the best one)
            self.assertLessEqual(lengths[place.x, place.y], min(lengths.values()) + 2 * len(nets) * (200 + 2000))

    def test_cells_that_only_new_cells_know_follow_in_rounds(self) -> None:
        components = ["a INV + PLACED ( 6000 8000 ) N", "n3 INV", "n1 INV", "n2 INV", "alone INV", "x INV"]
        nets = ["p ( a Z ) ( n1 A )", "q ( n1 Z ) ( n2 A )", "r ( n2 Z ) ( n3 A )", "s ( x A ) ( nobody Z )"]
        found = self.places(design_text(components, nets))
        self.assertEqual([*found], ["n3", "n1", "n2"])
        # each new cell has its pin A over the pin Z of the one before
        self.assertEqual([found[name][0].x for name in ("n1", "n2", "n3")], [6200, 6400, 6600])

    def test_large_nets_supplies_and_nets_without_places_do_not_count(self) -> None:
        many = " ".join(f"( m{number} A )" for number in range(MOST_PINS))
        components = [f"m{number} INV + PLACED ( 0 0 ) N" for number in range(MOST_PINS)]
        components += ["a INV + FIXED ( 8000 14000 ) N", "new INV"]
        nets = [f"big ( new A ) {many}", "vdd ( new A ) ( m1 A ) + USE POWER", "one ( new Z )"]
        self.assertEqual(self.places(design_text(components, nets)), {})
        found = self.places(design_text(components, [*nets, "n ( new A ) ( a A )"]))
        # (a is FIXED, so the cell is beside it)
        self.assertEqual(found["new"], (Place(7600, 14000, b"N"), 1))

    def test_pins_of_the_design_and_components_without_pins_lead_to_a_place(self) -> None:
        pins = ("clk + NET n + DIRECTION INPUT + LAYER m1 ( 0 0 ) ( 9 9 ) + FIXED ( 5100 6500 ) N",)
        found = self.places(design_text(["new INV"], ["n ( PIN clk ) ( new A )"], pins=pins))
        self.assertEqual(found["new"], (Place(5000, 6000, b"N"), 1))
        found = self.places(design_text(["ram RAM + FIXED ( 4000 0 ) N", "new INV"], ["n ( ram D ) ( new D )"]))
        # (the middle of the RAM is on it, so the cell is beside it)
        self.assertEqual(found["new"][0], Place(5800, 4000, b"N"))

    def test_a_place_is_in_the_teams_ground_and_holds_all_rows_of_the_cell(self) -> None:
        components = ["a INV + PLACED ( 0 0 ) N", "f/new INV", "f/dbl DBL", "top INV", "high DBL"]
        nets = [f"n{name} ( a A ) ( {name} A )" for name in ("f/new", "f/dbl")]
        components += ["b INV + PLACED ( 3000 4000 ) N"]
        nets += [f"n{name} ( b A ) ( {name} A )" for name in ("top", "high")]
        found = self.places(design_text(components, nets, "( 2000 4000 ) ( 4000 10000 )"))
        self.assertEqual(found["f/new"][0], Place(2000, 4000, b"N"))
        self.assertEqual(found["f/dbl"][0], Place(2000, 4000, b"N"))
        self.assertEqual(found["top"][0], Place(4000, 4000, b"N"))
        self.assertEqual(found["high"][0], Place(3000, 0, b"N"))

    def test_prepare_places_new_cells_and_a_repair_takes_them_from_there(self) -> None:
        text = design_text(
            ["a INV + PLACED ( 6000 8000 ) N", "b INV + PLACED ( 6000 4000 ) N", "new INV", "lost INV + UNPLACED"],
            ["n ( a A ) ( new A ) ( b A )", "m ( new A ) ( a A )"],
        )
        self.design.write_text(text)
        done = self.tool("lefence-prepare", self.design, self.lef, "-o", "new.def", "--program", PROGRAM, "--place-new")
        self.assertEqual(done.returncode, 0, done.stderr)
        expected = text.replace("- new INV ;", "- new INV + PLACED ( 6000 8000 ) N ;")
        self.assertEqual((self.folder / "new.def").read_text(), expected)
        line = text[: text.index("- new INV")].count("\n") + 1
        for expected in (
            f"line {line}: component new placed at ( 6000 8000 ) N, near 2 nets",
            "1 cell of 2 without a place now near its nets; no net of the other 1 cell leads to a place in a row",
            "it loads: 4 cells, 1 unplaced, 2 illegal (2 by rule 8 Overlap)",
        ):
            self.assertIn(f"lefence-prepare: {expected}\n", done.stderr.decode())
        done = self.tool("lefence-repair", "new.def", self.lef, "-o", "done.def", "--program", PROGRAM)
        self.assertEqual(done.returncode, 0, done.stderr)
        with Description(PROGRAM, self.folder / "done.def", [self.lef]) as description:
            boxes = {cell.name: cell.box for cell in description.cells()}
        box = boxes["new"]
        self.assertTrue(box and abs(box.left - 6000) + abs(box.bottom - 8000) <= 400, box)

    def test_a_design_that_does_not_load_is_refused_as_without_the_option(self) -> None:
        self.design.write_text(design_text(["new GONE"], []))
        words = (self.design, self.lef, "-o", "new.def", "--program", PROGRAM)
        plain, done = (self.tool("lefence-prepare", *words, *more) for more in ((), ("--place-new",)))
        self.assertEqual((done.returncode, done.stderr), (1, plain.stderr))
        self.assertIn(b"it does not load: 14 NoMacro GONE", done.stderr)

    def test_a_design_without_nets_stays(self) -> None:
        text = design_text(["new INV"], []).replace("NETS 0 ;\nEND NETS\n", "")
        self.design.write_text(text)
        words = (self.design, self.lef, "-o", "new.def", "--program", PROGRAM)
        done = self.tool("lefence-prepare", *words, "--place-new")
        self.assertEqual(((self.folder / "new.def").read_text(), done.returncode), (text, 0), done.stderr)
        self.assertIn(b"0 cells of 1 without a place now near their nets; no net of the other 1 cell", done.stderr)

    def carry(self, *words: str | Path) -> subprocess.CompletedProcess[bytes]:
        done = self.tool(
            *("lefence-carry", "--from", self.design, self.lef, "--state", "v1.state", "--to", "v2.def", self.lef),
            *("-o", "v2.state", "--program", PROGRAM, "--report", "report", *words),
        )
        self.assertEqual(done.returncode, 4, done.stderr)
        return done

    def test_carry_gives_new_cells_working_places(self) -> None:
        self.design.write_text(design_text(["a INV + PLACED ( 0 0 ) N"], []))
        lines = b"open -\nplace - 0 a 6000 8000 N\n"
        self.direct(lines, "--save", str(self.folder / "v1.state"))
        new = design_text(
            ["a INV + PLACED ( 0 0 ) N", "n1 INV", "n2 INV + PLACED ( 200 2000 ) N", "n3 INV"],
            ["p ( a Z ) ( n1 A )", "q ( n2 Z ) ( n3 A )"],
        )
        (self.folder / "v2.def").write_text(new)
        done = self.carry("--place-new")
        with open(self.folder / "v2.state", "rb") as file:
            cells = {cell.name: cell[1:] for _, team in teams_in(file) for cell in team}
        # (a is where the state has it; committed places stay)
        expected = {
            b"a": (b"6000,8000,N", b"0,0,N"),
            b"n1": (b"6200,8000,N", b"-"),
            b"n2": (b"200,2000,N", b"200,2000,N"),
            b"n3": (b"400,2000,N", b"-"),
        }
        self.assertEqual(cells, expected)
        self.assertIn(b"2 cells of 2 without a place now near their nets", done.stderr)
        self.assertIn(b"illegal before  near nets\n", done.stdout)
        [row] = [json.loads(line) for line in (self.folder / "report").read_text().splitlines()]
        self.assertEqual((row["near_nets"], row["unplaced"], row["illegal"]), (2, 0, 4))
        # a repair takes the new cells from there
        words = ("repair", "v2.def", self.lef, "--state", "v2.state", "--save", "v3.state")
        subprocess.run([PROGRAM, *words], cwd=self.folder, capture_output=True, check=True)
        with open(self.folder / "v3.state", "rb") as file:
            places = {cell.name: cell.working.split(b",") for _, team in teams_in(file) for cell in team}
        for name, x, y in ((b"n1", 6200, 8000), (b"n3", 400, 2000)):
            self.assertLessEqual(abs(int(places[name][0]) - x) + abs(int(places[name][1]) - y), 400, places)
        # without the option they have none
        done = self.carry()
        self.assertNotIn(b"near nets", done.stdout)
        with open(self.folder / "v2.state", "rb") as file:
            cells = {cell.name: cell[1:] for _, team in teams_in(file) for cell in team}
        self.assertEqual(cells[b"n1"], (b"-", b"-"))


if __name__ == "__main__":
    main()
