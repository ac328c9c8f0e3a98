"""`lefence wirelength`: its lines against a length that is computed here, in a few lines of Python."""

from __future__ import annotations

import json
import random
import re
import tempfile
import unittest
from fractions import Fraction
from pathlib import Path

from program import run

Spot = tuple[Fraction, Fraction]
Line = dict[str, object]

LEF = """VERSION 5.8 ;
SITE core
  CLASS CORE ;
  SIZE 0.2 BY 2.0 ;
END core
MACRO CELL
  CLASS CORE ;
  ORIGIN 0.1 0 ;
  SIZE 0.4 BY 2.0 ;
  SYMMETRY X Y ;
  SITE core ;
  PIN A
    PORT
      LAYER m1 ;
      RECT -0.1 0.5 0.0 0.7 ;
    END
    PORT
      LAYER m1 ;
      RECT 0.0 0.1 0.1 0.6 ;
    END
  END A
  PIN Y
    PORT
      LAYER m1 ;
      RECT 0.2 0.5 0.3 0.9 ;
    END
  END Y
END CELL
END LIBRARY
"""
SIZE = (Fraction(400), Fraction(2000))
# the middles of the pins at 1,000 database units per micron, after ORIGIN is added
MIDDLES = {"A": (Fraction(100), Fraction(400)), "Y": (Fraction(350), Fraction(700))}
ORIENTS = ("N", "S", "FN", "FS")
# how a port of a pin of the design is turned about the origin: the new x and y by the old x and y
TURNS = {
    "N": (1, 0, 0, 1),
    "W": (0, -1, 1, 0),
    "S": (-1, 0, 0, -1),
    "E": (0, 1, -1, 0),
    "FN": (-1, 0, 0, 1),
    "FW": (0, 1, 1, 0),
    "FS": (1, 0, 0, -1),
    "FE": (0, -1, -1, 0),
}
# a cell of the net of a pin of the design, whose point is at ( 2100 400 )
ONE_NET = """DESIGN one ;
UNITS DISTANCE MICRONS 1000 ;
ROW r core 0 0 N DO 60 BY 1 STEP 200 0 ;
COMPONENTS 1 ;
- u CELL + PLACED ( 2000 0 ) N ;
END COMPONENTS
PINS 1 ;
- p + NET n CLAUSES ;
END PINS
NETS 1 ;
- n ( PIN p ) ( u A ) ;
END NETS
END DESIGN
"""


def turned(orient: str, spot: Spot) -> Spot:
    """The point of a pin in its macro, turned by 180 degrees or flipped."""
    x = SIZE[0] - spot[0] if orient in ("S", "FN") else spot[0]
    y = SIZE[1] - spot[1] if orient in ("S", "FS") else spot[1]
    return x, y


class Port:
    """A random port of a pin of the design: where it is placed, and the corners of its rectangles and polygons."""

    def __init__(self, chance: random.Random) -> None:
        self.place = chance.randrange(-500, 9000), chance.randrange(-500, 9000)
        self.orient = chance.choice(list(TURNS))
        corners = [(chance.randrange(-90, 90), chance.randrange(-90, 90)) for _ in range(5)]
        self.corners = corners[: chance.choice([0, 2, 5])]
        self.is_placed = chance.randrange(4) > 0

    def text(self) -> str:
        """The clauses of the port."""
        points = [f"( {x} {y} )" for x, y in self.corners]
        shapes = [f"+ LAYER m1 SPACING 5 {' '.join(points[:2])}"] if points else []
        shapes += [f"+ POLYGON m1 {' '.join(points[2:])}"] if points[2:] else []
        x, y = self.place
        return " ".join(shapes + [f"+ FIXED ( {x} {y} ) {self.orient}"] * self.is_placed)

    def spot(self) -> Spot:
        """The middle of its shapes, turned and placed."""
        a, b, c, d = TURNS[self.orient]
        xs = [a * x + b * y for x, y in self.corners] or [0]
        ys = [c * x + d * y for x, y in self.corners] or [0]
        return self.place[0] + Fraction(min(xs) + max(xs), 2), self.place[1] + Fraction(min(ys) + max(ys), 2)


class Design:
    """A design of cells at random places, and of random nets over them and over three pins."""

    def __init__(self, seed: int) -> None:
        chance = random.Random(seed)
        self.places: dict[str, tuple[int, int, str]] = {}
        for number in range(20):
            place = chance.randrange(50), chance.randrange(4), ORIENTS[chance.randrange(4)]
            self.places[f"{chance.choice('ag')}{number}"] = place
        names = list(self.places)
        self.nets = [
            [(chance.choice(names), chance.choice("AY")) for _ in range(chance.randrange(1, 6))] for _ in range(15)
        ]
        self.nets[0].append(("PIN", "in"))
        self.nets[1].append(("PIN", "nowhere"))
        self.nets[2].append(("unknown", "A"))
        self.ports = [Port(chance) for _ in range(chance.randrange(1, 4))]
        self.ports[0].is_placed = True
        self.nets[3].append(("PIN", "out"))

    def text(self) -> str:
        """The DEF text."""
        rows = [f"ROW r{y} core 0 {2000 * y} {'N' if y % 2 == 0 else 'FS'} DO 60 BY 1 STEP 200 0 ;" for y in range(4)]
        cells = [f"- {name} CELL + PLACED ( {200 * x} {2000 * y} ) {o} ;" for name, (x, y, o) in self.places.items()]
        nets = [
            f"- n{number} {' '.join(f'( {owner} {pin} )' for owner, pin in net)} ;"
            for number, net in enumerate(self.nets)
        ]
        return "\n".join(
            [
                "VERSION 5.8 ;",
                "DESIGN random ;",
                "UNITS DISTANCE MICRONS 1000 ;",
                *rows,
                "REGIONS 1 ;",
                "- A ( 0 0 ) ( 4000 4000 ) + TYPE FENCE ;",
                "END REGIONS",
                f"COMPONENTS {len(cells)} ;",
                *cells,
                "END COMPONENTS",
                "PINS 3 ;",
                f"- out + NET n3 {' + PORT '.join(port.text() for port in self.ports)} ;",
                "- in + NET n0 + PLACED ( -100 7 ) N ;",
                "- nowhere + NET n1 ;",
                "END PINS",
                f"NETS {len(nets) + 1} ;",
                *nets,
                f"- vdd ( {next(iter(self.places))} A ) + USE POWER ;",
                "END NETS",
                "GROUPS 1 ;",
                "- group a* + REGION A ;",
                "END GROUPS",
                "END DESIGN",
                "",
            ]
        )

    def spots(self, owner: str, pin: str) -> list[Spot]:
        """The points of a pin, none if it does not count."""
        if (owner, pin) == ("PIN", "in"):
            return [(Fraction(-100), Fraction(7))]
        if (owner, pin) == ("PIN", "out"):
            return [port.spot() for port in self.ports if port.is_placed]
        if owner not in self.places:
            return []
        x, y, orient = self.places[owner]
        right, up = turned(orient, MIDDLES[pin])
        return [(200 * x + right, 2000 * y + up)]

    def length(self, net: list[tuple[str, str]]) -> Fraction:
        """The width plus the height of the least box around the pins of a net that count."""
        spots = [spot for owner, pin in net for spot in self.spots(owner, pin)]
        if not spots:
            return Fraction(0)
        xs, ys = [x for x, _ in spots], [y for _, y in spots]
        return max(xs) - min(xs) + max(ys) - min(ys)

    def lines(self) -> list[Line]:
        """The lines that are expected."""
        lengths = [(self.length(net), {owner[0] for owner, _ in net if owner in self.places}) for net in self.nets]
        lines: list[Line] = []
        crossing = [length for length, teams in lengths if len(teams) > 1]
        for first, name in (("a", "A"), ("g", "-")):
            own = [length for length, teams in lengths if teams == {first}]
            shared = [length for length, teams in lengths if first in teams and len(teams) > 1]
            lines.append(
                {
                    "crossing": int(sum(shared)),
                    "crossing_nets": len(shared),
                    "nets": len(own),
                    "own": int(sum(own)),
                    "team": name,
                }
            )
        whole = sum(length for length, _ in lengths)
        counts = [sum(len(self.spots(owner, pin)) for owner, pin in net) for net in self.nets]
        lines.append(
            {
                "crossing": int(sum(crossing)),
                "crossing_nets": len(crossing),
                "doubled": int(2 * whole),
                "fixed_nets": len([0 for _, teams in lengths if not teams]),
                "length": int(whole),
                "nets": len(self.nets),
                "one_pin": len([0 for count in counts if count < 2]),
                "pins": sum(counts),
                "supplies": 1,
                "teams": 2,
                "unknown": 1,
                "unplaced": 1,
            }
        )
        return lines


class Wirelength(unittest.TestCase):
    """Lengths of random designs."""

    def test_random_designs(self) -> None:
        """Each line is the one that is computed here."""
        with tempfile.TemporaryDirectory() as folder:
            lef, path = Path(folder, "cells.lef"), Path(folder, "random.def")
            lef.write_text(LEF)
            for seed in range(20):
                design = Design(seed)
                path.write_text(design.text())
                status, written, said = run(["wirelength", str(path), str(lef)])
                self.assertEqual((status, said), (0, ""))
                self.assertEqual([json.loads(line) for line in written.splitlines()], design.lines())

    def test_pins_of_the_design(self) -> None:
        """A pin of the design is at the middle of the shapes of each of its ports that are placed."""
        shape = "+ LAYER m1 ( -70 0 ) ( 70 480 )"
        lengths = {
            "+ PLACED ( 0 0 ) N": 2500,
            f"{shape} + PLACED ( 0 0 ) N": 2260,
            f"+ PLACED ( 0 0 ) N {shape}": 2260,
            f"{shape} + PLACED ( 0 0 ) W": 2740,
            f"+ PORT {shape} + PLACED ( 0 0 ) N + PORT {shape} + PLACED ( 8000 0 ) N": 8160,
            f"+ PORT {shape} + PLACED ( 0 0 ) N + PORT {shape}": 2260,
            "+ POLYGON m1 ( -70 0 ) ( 70 0 ) ( 0 480 ) + COVER ( 0 0 ) N": 2260,
            "+ VIA via1 ( 0 480 ) + FIXED ( 0 0 ) N": 2500,
            shape: 0,
        }
        with tempfile.TemporaryDirectory() as folder:
            lef, path = Path(folder, "cells.lef"), Path(folder, "one.def")
            lef.write_text(LEF)
            for clauses, length in lengths.items():
                path.write_text(ONE_NET.replace("CLAUSES", clauses))
                last = json.loads(run(["wirelength", str(path), str(lef)])[1].splitlines()[-1])
                self.assertEqual((last["length"], last["doubled"]), (length, 2 * length), clauses)
                self.assertEqual(last["pins"], clauses.count(") N") + clauses.count(") W") + 1)

    def test_refusals(self) -> None:
        """A text whose nets are bad is loaded by `check`, and refused here with its line."""
        with tempfile.TemporaryDirectory() as folder:
            lef, path = Path(folder, "cells.lef"), Path(folder, "bad.def")
            lef.write_text(LEF)
            text = re.sub(r"- n0 [^;]*;", "- n0 x ;", Design(0).text())
            path.write_text(text)
            line = text[: text.index("- n0 x")].count("\n") + 1
            self.assertEqual(run(["wirelength", str(path), str(lef)])[0], 1)
            self.assertIn(f"lefence: 3 Unexpected line {line}", run(["wirelength", str(path), str(lef)])[2])


if __name__ == "__main__":
    unittest.main()
