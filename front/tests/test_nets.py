"""The front's reader of nets: its lengths are those of `lefence wirelength`, for any nets, pins and orientations."""

from __future__ import annotations

import random
import unittest

from support import SEED, FrontCase

from lefence.base.design import Design
from lefence.base.nets import Macro, Netlist, turned
from lefence.base.program import Program

ORIENTS = ("N", "S", "FN", "FS", "W", "E", "FW", "FE")
# Pins with shapes of all kinds: a polygon, an ITERATE, masks, two PORTs, none; a second pin with one name; an OBS.
LEF = """VERSION 5.8 ;
SITE core CLASS CORE ; SYMMETRY Y ; SIZE 0.2 BY 2.0 ; END core
MACRO INV CLASS CORE ; ORIGIN 0 0.0005 ; SIZE 0.4 BY 2.0 ; SYMMETRY X Y ;
  PIN A DIRECTION INPUT ; PORT LAYER m1 ; RECT 0 0.5 0.105 1.5 ; WIDTH 0.1 ; PATH 9 9 8 8 ; END END A
  PIN Z
    USE SIGNAL ;
    PORT CLASS CORE ; LAYER m1 ; POLYGON 0.2 0 0.4 0 0.4 0.3 0.2 0.3 ; END
    PORT LAYER m2 ; RECT MASK 1 0.3 1.1 0.4 1.7 ; END
  END Z
  PIN Z PORT LAYER m1 ; RECT 0 0 9 9 ; END END Z
  PIN SIZE PORT LAYER m1 ; RECT ITERATE 0 0 0.1 0.1 DO 2 BY 1 STEP 0.2 0 ; END END SIZE
  PIN NONE DIRECTION OUTPUT ; PORT LAYER m1 ; END END NONE
  OBS LAYER m1 ; RECT 0 0 9 9 ; END
END INV
MACRO RAM CLASS BLOCK ; SIZE 4 BY 5 ; ORIGIN 1.5 -0.5 ; PROPERTY name "PIN A ;" ;
  PIN A PORT LAYER m1 ; RECT -1.5 0.5 -1.4 0.7 ; END END A
  PIN D[0] PORT LAYER m1 ; RECT 2.4 4 2.5 5.001 ; VIA 1 1 V ; END END D[0]
END RAM
END LIBRARY
"""


class Nets(FrontCase):
    def setUp(self) -> None:
        super().setUp()
        self.lef.write_text(LEF)

    def design_of(self, rng: random.Random) -> str:
        """A design with random components, pins and nets."""
        rows = "ROW r core 0 0 N DO 90 BY 1 STEP 200 0 ;\n"
        parts, pins, nets = [], [], []
        for number in range(12):
            macro, kind = rng.choice([("INV", "PLACED"), ("INV", "FIXED"), ("RAM", "FIXED"), ("RAM", "COVER")])
            place = f"+ {kind} ( {rng.randrange(-99, 9999)} {rng.randrange(9999)} ) {rng.choice(ORIENTS)}"
            parts.append(f"- c{number} {macro} {place if number else ''} + SOURCE DIST ;\n")
        for number in range(4):
            ports = [self.port_of(rng, number > 0) for _ in range(rng.choice([1, 1, 2, 3]))]
            pins.append(f"- p{number} + NET n + DIRECTION INPUT {' + PORT '.join(ports)} ;\n")
        names = ["A", "Z", "SIZE", "NONE", "D[0]", "lost"]
        for number in range(20):
            ends = [f"( c{rng.randrange(13)} {rng.choice(names)} )" for _ in range(rng.randrange(5))]
            ends += [f"( PIN p{rng.randrange(5)} )"] * rng.randrange(2) + ["( * A )"] * (number == 3)
            use = rng.choice(["", "", "+ USE SIGNAL", "+ USE CLOCK", "+ USE POWER", "+ USE GROUND"])
            routing = "+ ROUTED m1 ( 0 0 ) ( * 90 ) V NEW m1 ( 5 5 ) ( 9 * )" if number % 3 == 0 else ""
            nets.append(f"- {'MUSTJOIN' if number == 7 else f'n{number}'} {' '.join(ends)} {use} {routing} ;\n")
        texts = (("COMPONENTS", parts), ("PINS", pins), ("NETS", nets))
        sections = "".join(f"{name} {len(found)} ;\n{''.join(found)}END {name}\n" for name, found in texts)
        return f"VERSION 5.8 ;\nDESIGN t ;\nUNITS DISTANCE MICRONS 1000 ;\n{rows}{sections}END DESIGN\n"

    def port_of(self, rng: random.Random, is_placed: bool) -> str:
        """The clauses of a port of a pin, with up to three shapes, in any order."""
        place = f"+ {rng.choice(['PLACED', 'FIXED', 'COVER'])} ( {rng.randrange(9999)} 77 ) {rng.choice(ORIENTS)}"
        clauses = [place] * (is_placed and rng.randrange(4) > 0)
        for _ in range(rng.randrange(4)):
            points = [f"( {rng.randrange(-99, 99)} {rng.randrange(-99, 99)} )" for _ in range(4)]
            layer = f"+ LAYER m1 {rng.choice(['', 'MASK 2', 'SPACING 30'])} {' '.join(points[:2])}"
            clauses.append(rng.choice([layer, f"+ POLYGON m2 {' '.join(points)}", f"+ VIA v {points[0]}"]))
        rng.shuffle(clauses)
        return " ".join(clauses)

    def test_lengths_are_those_of_the_program(self) -> None:
        for turn in range(12):
            self.design.write_text(self.design_of(random.Random(f"{SEED} {turn}")))
            netlist = Netlist(Design(self.design.read_bytes()), [LEF.encode()], 1000)
            total = Program(self.program, [self.design, self.lef]).wire_length()
            self.assertEqual(sum(map(netlist.length, netlist.nets)), total["doubled"])
            self.assertEqual(sum(len(netlist.points(pin)) for net in netlist.nets for pin in net.pins), total["pins"])

    def test_only_the_nets_of_some_cells(self) -> None:
        design = Design(self.design_of(self.rng).encode())
        whole, part = (Netlist(design, [LEF.encode()], 1000, cells) for cells in (None, {b"c3", b"c4"}))
        wanted = [net for net in whole.nets if any(pin.component in (b"c3", b"c4") for pin in net.pins)]
        self.assertEqual(part.nets, wanted)
        self.assertEqual(list(map(part.length, wanted)), list(map(whole.length, wanted)))

    def test_a_turned_point_stays_in_the_box(self) -> None:
        macro = Macro(8, 20, {})
        found = [turned((1, 3), macro, orient.encode()) for orient in ORIENTS]
        self.assertEqual(found, [(1, 3), (7, 17), (7, 3), (1, 17), (17, 1), (3, 7), (3, 1), (17, 7)])

    def test_any_bytes_end_without_a_traceback(self) -> None:
        for _ in range(200):
            texts = [bytearray(self.design_of(self.rng).encode()), bytearray(LEF.encode())]
            for text in texts:
                at = self.rng.randrange(len(text))
                odd = self.rng.choice([b"", b";", b"\xff", b" - ", b" END ", b'"', b"9" * 30, b"#", b" ( "])
                text[at : at + self.rng.randrange(30)] = odd
            netlist = Netlist(Design(bytes(texts[0])), [bytes(texts[1])], 1000)
            for net in netlist.nets:
                netlist.length(net)


if __name__ == "__main__":
    unittest.main()
