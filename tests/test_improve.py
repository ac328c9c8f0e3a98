"""`lefence improve`: its report against lengths and distances that are computed here, and what it must reach.

No contract says how much shorter the nets become.
"""

from __future__ import annotations

import json
import random
import re
import unittest
from pathlib import Path

from program import DENSITY_KEYS, InFolder, Start, densities, run

Place = tuple[int, int, str]
Line = dict[str, object]

# The keys of the numbers of pins, of the line of a team, and of the line of all teams, in order.
PIN_KEYS = [
    "pins_10", "pins_10_before", "pins_2", "pins_20", "pins_20_before", "pins_2_before", "pins_5", "pins_5_before",
]
TEAM_KEYS = [
    "cells", "crossing", "crossing_before", "largest", "mean", "moved", "own", "own_before", "skipped", "team", "total",
    "turned",
]
ALL_KEYS = [
    "cells", "doubled", "doubled_before", *DENSITY_KEYS, "largest", "legal", "length", "length_before", "mean", "moved",
    *PIN_KEYS, "skipped", "teams", "total", "turned",
]
LEF = """VERSION 5.8 ;
SITE core
  CLASS CORE ;
  SYMMETRY Y ;
  SIZE 0.2 BY 2.0 ;
END core
MACRO INV
  CLASS CORE ;
  SIZE 0.4 BY 2.0 ;
  SYMMETRY X Y ;
  SITE core ;
  PIN A
    PORT
      LAYER m1 ;
      RECT 0.1 0.9 0.3 1.1 ;
    END
  END A
END INV
MACRO NAND
  CLASS CORE ;
  SIZE 0.6 BY 2.0 ;
  SYMMETRY X Y ;
  SITE core ;
  PIN A
    PORT
      LAYER m1 ;
      RECT 0.0 0.3 0.2 0.5 ;
    END
  END A
END NAND
MACRO DBL
  CLASS CORE ;
  SIZE 0.6 BY 4.0 ;
  SYMMETRY X Y ;
  SITE core ;
  PIN A
    PORT
      LAYER m1 ;
      RECT 0.2 1.9 0.4 2.1 ;
    END
  END A
  PIN VSS
    USE GROUND ;
    PORT
      LAYER m1 ;
      RECT 0 -0.1 0.6 0.1 ;
      RECT 0 3.9 0.6 4.1 ;
    END
  END VSS
END DBL
END LIBRARY
"""
SITES = {"INV": 2, "NAND": 3}
# The size of each macro, and the middle of its pin A, in database units.
SIZES = {"INV": (400, 2000), "NAND": (600, 2000), "DBL": (600, 4000)}
MIDDLES = {"INV": (200, 1000), "NAND": (100, 400), "DBL": (300, 2000)}
TEAMS = {"a": "A", "b": "B", "g": "-"}


class Chip:
    """Two fences and the ground next to each other. Each has rows of cells in a random order. In the order of their
    numbers they would have short nets: each joins a cell to the next one and to the one a row higher.
    """

    def __init__(self, seed: int, rows: int, across: int) -> None:
        self.rows = rows
        self.width = 3 * across
        self.macros: dict[str, str] = {}
        self.places: dict[str, Place] = {}
        self.nets: list[list[str]] = []
        chance = random.Random(seed)
        for column, first in enumerate(TEAMS):
            names = [f"{first}{number}" for number in range(rows * across)]
            for name in names:
                self.macros[name] = chance.choice(list(SITES))
            self.nets += [
                [name, *names[number + 1 : number + 2], *names[number + across : number + across + 1]]
                for number, name in enumerate(names)
            ]
            chance.shuffle(names)
            self.macros[f"{first}d"] = "DBL"
            self.places[f"{first}d"] = self.left(column), 0, "N"
            for row in range(rows):
                self.fill(column, row, names[across * row : across * (row + 1)])
        for number in range(rows):
            self.nets.append([f"a{number}", f"b{number}", f"g{number}"])
            self.nets.append([f"{chance.choice('abg')}d", f"g{number}"])

    def left(self, column: int) -> int:
        """The left edge of the ground of a team."""
        return 200 * column * (self.width + 3)

    def fill(self, column: int, row: int, names: list[str]) -> None:
        """Places cells in a row from left to right, to the right of the sites of the highest cell."""
        x = self.left(column) + 600
        for name in names:
            self.places[name] = x, 2000 * row, "FS" if row % 2 else "N"
            x += 200 * SITES[self.macros[name]]

    def text(self) -> str:
        """The DEF text."""
        end, top = 3 * (self.width + 3), 2000 * self.rows
        edges = [self.left(column) for column in range(3)]
        return "\n".join(
            [
                "VERSION 5.8 ;",
                "DESIGN chip ;",
                "UNITS DISTANCE MICRONS 1000 ;",
                *(
                    f"ROW r{row} core 0 {2000 * row} {'FS' if row % 2 else 'N'} DO {end} BY 1 STEP 200 0 ;"
                    for row in range(self.rows)
                ),
                "REGIONS 2 ;",
                f"- A ( {edges[0]} 0 ) ( {edges[1]} {top} ) + TYPE FENCE ;",
                f"- B ( {edges[1]} 0 ) ( {edges[2]} {top} ) + TYPE FENCE ;",
                "END REGIONS",
                f"COMPONENTS {len(self.places)} ;",
                *(
                    f"- {name} {self.macros[name]} + PLACED ( {x} {y} ) {orient} ;"
                    for name, (x, y, orient) in self.places.items()
                ),
                "END COMPONENTS",
                "PINS 1 ;",
                "- in + NET n0 + PLACED ( -100 7 ) N ;",
                "END PINS",
                f"NETS {len(self.nets)} ;",
                *(
                    f"- n{number} {'' if number else '( PIN in ) '}{' '.join(f'( {name} A )' for name in net)} ;"
                    for number, net in enumerate(self.nets)
                ),
                "END NETS",
                "GROUPS 2 ;",
                "- ga a* + REGION A ;",
                "- gb b* + REGION B ;",
                "END GROUPS",
                "END DESIGN",
                "",
            ]
        )


def two_rows(sites: int, cells: dict[str, tuple[int, int]], nets: list[tuple[str, int, int]]) -> str:
    """The DEF text of two rows with INV cells at these sites of them. Each net joins a cell to a point."""
    placed = [
        f"- {name} INV + PLACED ( {200 * site} {2000 * row} ) {'FS' if row else 'N'} ;"
        for name, (site, row) in cells.items()
    ]
    return "\n".join(
        [
            "VERSION 5.8 ;",
            "DESIGN w ;",
            "UNITS DISTANCE MICRONS 1000 ;",
            f"ROW r0 core 0 0 N DO {sites} BY 1 STEP 200 0 ;",
            f"ROW r1 core 0 2000 FS DO {sites} BY 1 STEP 200 0 ;",
            f"COMPONENTS {len(cells)} ;",
            *placed,
            "END COMPONENTS",
            f"PINS {len(nets)} ;",
            *(f"- p{number} + NET n{number} + PLACED ( {x} {y} ) N ;" for number, (_, x, y) in enumerate(nets)),
            "END PINS",
            f"NETS {len(nets)} ;",
            *(f"- n{number} ( {name} A ) ( PIN p{number} ) ;" for number, (name, _, _) in enumerate(nets)),
            "END NETS",
            "END DESIGN",
            "",
        ]
    )


def places_in(text: str) -> dict[str, Place]:
    """The places of the components of a DEF text."""
    found = re.findall(r"^- (\S+) \S+ \+ PLACED \( (\S+) (\S+) \) (\S+) ;$", text, re.MULTILINE)
    return {name: (int(x), int(y), orient) for name, x, y, orient in found}


def way(old: Place, new: Place) -> int:
    """The distance |dx| + |dy| of two places."""
    return abs(new[0] - old[0]) + abs(new[1] - old[1])


def moves_in(old: dict[str, Place], new: dict[str, Place], firsts: str) -> Line:
    """What a report has of the moves of the cells whose names begin with one of these letters."""
    both = [(place, new[name]) for name, place in old.items() if name[0] in firsts]
    ways = [way(*two) for two in both]
    moved = len([0 for distance in ways if distance])
    return {
        "cells": len(both),
        "moved": moved,
        "turned": len([0 for one, other in both if one[2] != other[2]]),
        "total": sum(ways),
        "largest": max(ways),
        "mean": sum(ways) // moved if moved else 0,
    }


def pin_point(macro: str, place: Place) -> tuple[int, int]:
    """The middle of the pin A of a cell at this place."""
    x, y, orient = place
    (width, height), (across, up) = SIZES[macro], MIDDLES[macro]
    return x + (width - across if orient in ("S", "FN") else across), y + (height - up if orient in ("S", "FS") else up)


def pins_of(text: str, places: dict[str, Place], suffix: str) -> Line:
    """What a report has of the pins of a DEF text with these places, by the definition: each pin of a cell that a net
    names is in a bin of five rows' height."""
    rows = re.findall(r"^ROW \S+ core (\S+) (\S+) \S+ DO (\d+) ", text, re.MULTILINE)
    macros = dict(re.findall(r"^- (\S+) (\S+) \+ PLACED ", text, re.MULTILINE))
    side = 10_000
    left, bottom = min(int(x) for x, _, _ in rows), min(int(y) for _, y, _ in rows)
    columns = -((left - max(int(x) + 200 * int(sites) for x, _, sites in rows)) // side)
    lines = -((bottom - max(int(y) + 2000 for _, y, _ in rows)) // side)
    found = [0] * (columns * lines)
    for name in re.findall(r"\( (\w+) A \)", text):
        x, y = pin_point(macros[name], places[name])
        column, line = (x - left) // side, (y - bottom) // side
        if 0 <= column < columns and 0 <= line < lines:
            found[line * columns + column] += 1
    found.sort(reverse=True)
    numbers: Line = {}
    for percent in (2, 5, 10, 20):
        fullest = found[: max(1, len(found) * percent // 100)]
        numbers[f"pins_{percent}{suffix}"] = sum(fullest) // len(fullest)
    return numbers


class Improve(InFolder):
    """Improvements, each in its own folder."""

    def setUp(self) -> None:
        super().setUp()
        self.lef, self.old, self.new = (self.folder / name for name in ("cells.lef", "old.def", "new.def"))
        self.lines = self.folder / "lines.txt"
        self.lef.write_text(LEF)

    def improve(self, text: str, *words: str, status: int = 0) -> list[Line]:
        """Improves a design, and exports it. Returns the lines of the report."""
        self.old.write_text(text)
        command = ["improve", str(self.old), str(self.lef), "--export", str(self.new), *words]
        ended, written, said = run(command, start=Start(patience=300))
        self.assertEqual((ended, [line for line in said.splitlines() if " commands so far" not in line]), (status, []))
        report = [json.loads(line) for line in written.splitlines()]
        self.assertEqual([list(line) for line in report], [TEAM_KEYS] * (len(report) - 1) + [ALL_KEYS])
        return report

    def lengths(self, text: Path) -> list[Line]:
        """The lines of `wirelength`."""
        status, written, said = run(["wirelength", str(text), str(self.lef)])
        self.assertEqual((status, said), (0, ""))
        return [json.loads(line) for line in written.splitlines()]

    def places(self) -> tuple[dict[str, Place], dict[str, Place]]:
        """The places before and after."""
        return places_in(self.old.read_text()), places_in(self.new.read_text())

    def pins(self) -> Line:
        """What the report has of the pins of the texts."""
        old, new = self.places()
        text = self.old.read_text()
        return {**pins_of(text, old, "_before"), **pins_of(text, new, "")}

    def test_the_report_is_what_the_exported_text_has(self) -> None:
        report = self.improve(Chip(1, 6, 10).text())
        self.assertEqual(run(["check", str(self.new), str(self.lef)])[0], 0)
        before, after = self.lengths(self.old), self.lengths(self.new)
        old, new = self.places()
        for number, (first, team) in enumerate(TEAMS.items()):
            lengths = {
                "own": after[number]["own"],
                "own_before": before[number]["own"],
                "crossing": after[number]["crossing"],
                "crossing_before": before[number]["crossing"],
            }
            wanted = {**moves_in(old, new, first), **lengths, "skipped": False, "team": team}
            self.assertEqual(report[number], wanted)
        wanted = {
            **moves_in(old, new, "abg"),
            **densities(self.old, self.new, self.lef),
            **self.pins(),
            "doubled": after[3]["doubled"],
            "doubled_before": before[3]["doubled"],
            "length": after[3]["length"],
            "length_before": before[3]["length"],
            "legal": True,
            "skipped": 0,
            "teams": 3,
        }
        self.assertEqual(report[3], wanted)
        self.assertTrue(report[3]["moved"] and report[3]["turned"])

    def test_the_lines_do_the_improvement_again(self) -> None:
        self.improve(Chip(2, 6, 10).text(), "--lines", str(self.lines))
        again = self.folder / "again.def"
        words = ["replay", str(self.old), str(self.lef), "--export", str(again)]
        status, replies, said = run(words, self.lines.read_text())
        self.assertEqual((status, said), (0, ""))
        self.assertEqual([reply for reply in replies.splitlines() if reply.split()[0] != "ok"], [])
        self.assertEqual(again.read_bytes(), self.new.read_bytes())
        self.assertEqual(self.names(), ["again.def", "cells.lef", "lines.txt", "new.def", "old.def"])

    def test_only_teams_that_are_named_change(self) -> None:
        report = self.improve(Chip(3, 6, 10).text(), "--team", "A", "--team=A")
        self.assertEqual([line.get("team") for line in report], ["A", None])
        old, new = self.places()
        self.assertEqual({name[0] for name in old if new[name] != old[name]}, {"a"})
        self.assertEqual(report[-1]["doubled"], self.lengths(self.new)[-1]["doubled"])

    def test_no_cell_goes_farther_than_is_allowed(self) -> None:
        largest = []
        limits: list[list[str]] = [[], ["--within", "3"], ["--within", "1"]]
        for words in limits:
            report = self.improve(Chip(4, 6, 10).text(), *words)
            old, new = self.places()
            largest.append(max(way(place, new[name]) for name, place in old.items()))
            self.assertTrue(report[-1]["moved"])
        self.assertGreater(largest[0], 6000)
        self.assertLessEqual(largest[1], 6000)
        self.assertLessEqual(largest[2], 2000)

    def test_a_team_that_is_not_legal_is_skipped(self) -> None:
        text = Chip(5, 6, 10).text()
        x, y, orient = places_in(text)["b1"]
        clause = f"+ PLACED ( {x} {y} ) {orient}"
        for other in (f"+ PLACED ( {x + 1} {y} ) {orient}", "+ UNPLACED"):
            report = self.improve(text.replace(clause, other), status=4)
            self.assertEqual([line["skipped"] for line in report], [False, True, False, 1])
            moved = [line["moved"] for line in report]
            self.assertTrue(moved[0] and moved[2])
            self.assertEqual((moved[1], report[1]["turned"], report[1]["total"]), (0, 0, 0))
            self.assertEqual((report[3]["legal"], report[3]["teams"]), (False, 3))
            lines = zip(self.old.read_text().splitlines(), self.new.read_text().splitlines(), strict=True)
            self.assertEqual({one.split()[1][0] for one, two in lines if one != two}, {"a", "g"})

    def test_a_second_one_changes_little(self) -> None:
        first = self.improve(Chip(6, 8, 12).text(), "--rounds", "100")[-1]
        second = self.improve(self.new.read_text())[-1]
        self.assertEqual(second["doubled_before"], first["doubled"])
        self.assertLessEqual(97 * int(str(first["doubled"])), 100 * int(str(second["doubled"])))

    def test_a_design_without_nets_is_as_it_was(self) -> None:
        chip = Chip(7, 4, 6)
        text = re.sub(r"PINS 1(.|\n)*END NETS\n", "", chip.text())
        report = self.improve(text, "--lines", str(self.lines))
        self.assertEqual([line["moved"] for line in report], [0] * 4)
        self.assertEqual((report[-1]["doubled"], report[-1]["turned"]), (0, 0))
        self.assertEqual(self.new.read_text(), text)

    def test_more_rounds_make_the_nets_shorter(self) -> None:
        text = Chip(8, 8, 12).text()
        lengths = [self.improve(text, "--rounds", rounds)[-1]["doubled"] for rounds in ("1", "4", "100")]
        one, four, most = (int(str(length)) for length in lengths)
        self.assertGreater(one, four)
        self.assertGreater(four, most)
        self.assertEqual(self.improve(text)[-1]["doubled"], four)

    def test_effort_and_a_density_never_make_the_nets_longer(self) -> None:
        text = Chip(7, 6, 10).text()
        plain = self.improve(text)[-1]
        self.assertEqual(self.improve(text, "--effort", "0")[-1], plain)
        for words in (["--effort", "50"], ["--density", "60"], ["--effort", "20", "--density", "100"]):
            with self.subTest(words):
                report = self.improve(text, *words)
                before, after = (int(str(report[-1][key])) for key in ("doubled_before", "doubled"))
                self.assertLessEqual(after, before)
                self.assertEqual(report[-1]["doubled"], self.lengths(self.new)[-1]["doubled"])

    def test_shuffled_cells_come_near_their_neighbors(self) -> None:
        report = self.improve(Chip(9, 18, 38).text())
        self.assertEqual(report[-1]["cells"], 3 * (18 * 38 + 1))
        self.assertLess(5 * int(str(report[-1]["doubled"])), 4 * int(str(report[-1]["doubled_before"])))
        self.assertEqual(run(["check", str(self.new), str(self.lef)])[0], 0)

    def test_two_cells_exchange_places(self) -> None:
        # There is no free site. Each cell is joined to the middle of a place, u and x to that of the other.
        text = two_rows(
            4,
            {"u": (0, 0), "w": (2, 0), "x": (0, 1), "z": (2, 1)},
            [("u", 200, 3000), ("w", 600, 1000), ("x", 200, 1000), ("z", 600, 3000)],
        )
        report = self.improve(text)
        self.assertEqual((report[-1]["doubled_before"], report[-1]["doubled"], report[-1]["moved"]), (8000, 0, 2))
        new = self.places()[1]
        self.assertEqual([new[name][:2] for name in "uwxz"], [(0, 2000), (400, 0), (0, 0), (400, 2000)])

    def test_two_tall_cells_exchange_places(self) -> None:
        # u, w and x of two rows fill their sites. u and w are each joined to the middle of the place of the other.
        nets = [("u", 1500, 2000), ("w", 300, 2000), ("x", 900, 2000)]
        text = two_rows(9, {"u": (0, 0), "x": (3, 0), "w": (6, 0)}, nets).replace(" INV ", " DBL ")
        report = self.improve(text)
        self.assertEqual((report[-1]["doubled_before"], report[-1]["doubled"], report[-1]["moved"]), (4800, 0, 2))
        new = self.places()[1]
        self.assertEqual([new[name][:2] for name in "uxw"], [(1200, 0), (600, 0), (0, 0)])

    def test_a_tall_cell_takes_no_place_of_another_height(self) -> None:
        # Each is joined to the place of the other, and both take three sites. But u covers two rows, and w one.
        nets = [("u", 900, 2000), ("w", 300, 1000)]
        text = two_rows(6, {"u": (0, 0), "w": (3, 0)}, nets)
        text = text.replace("- u INV", "- u DBL").replace("- w INV", "- w NAND")
        report = self.improve(text)
        self.assertEqual(report[-1]["moved"], 0)

    def test_a_cell_is_inserted_between_two(self) -> None:
        # c is wanted between p and q, where one site is free: q moves by one site. Each other cell has two nets, so
        # an exchange costs more.
        nets = [(name, 200 * site + 200, 1000) for name, site in (("p", 0), ("q", 3), ("r", 6)) for _ in range(2)]
        text = two_rows(8, {"p": (0, 0), "q": (3, 0), "r": (6, 0), "c": (2, 1)}, [*nets, ("c", 600, 1000)])
        report = self.improve(text)
        self.assertEqual((report[-1]["doubled_before"], report[-1]["doubled"], report[-1]["moved"]), (4000, 800, 2))
        new = self.places()[1]
        self.assertEqual([new[name][:2] for name in "pqrc"], [(0, 0), (800, 0), (1200, 0), (400, 0)])

    def test_cells_in_front_of_a_gap_make_room_too(self) -> None:
        # The same in a mirror: p moves by one site to the left.
        sites = (("p", 3), ("q", 0), ("r", 6))
        nets = [(name, 200 * site + 200, 1000) for name, site in sites for _ in range(2)]
        text = two_rows(8, {**{name: (site, 0) for name, site in sites}, "c": (4, 1)}, [*nets, ("c", 1000, 1000)])
        report = self.improve(text)
        self.assertEqual((report[-1]["doubled_before"], report[-1]["doubled"], report[-1]["moved"]), (4000, 800, 2))
        new = self.places()[1]
        self.assertEqual([new[name][:2] for name in "pqrc"], [(400, 0), (0, 0), (1200, 0), (800, 0)])

    def test_a_cell_goes_to_cells_of_other_teams(self) -> None:
        # u of the fence A is joined to w outside of it, which is not improved.
        text = two_rows(20, {"u": (0, 0), "w": (18, 0)}, [("u", 200, 1000)])
        text = text.replace("- n0 ( u A ) ( PIN p0 ) ;", "- n0 ( u A ) ( w A ) ;").replace("+ NET n0 ", "+ NET n1 ")
        fence = "REGIONS 1 ;\n- A ( 0 0 ) ( 2000 4000 ) + TYPE FENCE ;\nEND REGIONS\nCOMPONENTS "
        text = text.replace("\nCOMPONENTS ", f"\n{fence}", 1)
        text = text.replace("END NETS\n", "END NETS\nGROUPS 1 ;\n- ga u + REGION A ;\nEND GROUPS\n")
        report = self.improve(text, "--team", "A")
        self.assertEqual((report[0]["crossing_before"], report[0]["crossing"]), (3600, 2000))
        self.assertEqual(self.places()[1], {"u": (1600, 0, "N"), "w": (3600, 0, "N")})

    def test_the_pins_of_the_fullest_bins_are_counted(self) -> None:
        report = self.improve(Chip(2, 20, 40).text())
        pins = self.pins()
        self.assertEqual({key: report[-1][key] for key in PIN_KEYS}, pins)
        self.assertEqual(len({pins[f"pins_{percent}_before"] for percent in (5, 10, 20)}), 3)
        self.assertNotEqual(pins["pins_20"], pins["pins_20_before"])

    def test_pins_are_counted_where_the_cells_are(self) -> None:
        nets = [("c0", 11_000, 1000), ("c0", 11_600, 1000), ("c1", 11_100, 0)]
        text = two_rows(100, {"c0": (45, 0), "c1": (55, 0)}, nets)
        report = self.improve(text)
        counts = [report[-1][key] for key in ("pins_2_before", "pins_2")]
        self.assertEqual(counts, [2, 3])

    def test_a_cell_is_flipped(self) -> None:
        # The pin of a NAND is at its left edge, and the point of its net is at the right one.
        text = two_rows(3, {"u": (0, 0)}, [("u", 500, 400)]).replace("- u INV", "- u NAND")
        report = self.improve(text)
        self.assertEqual([(line["moved"], line["turned"], line["total"]) for line in report], [(0, 1, 0)] * 2)
        self.assertEqual((report[-1]["doubled_before"], report[-1]["doubled"]), (800, 0))
        self.assertEqual(self.places()[1], {"u": (0, 0, "FN")})

    def test_a_team_that_is_not_in_the_design(self) -> None:
        self.old.write_text(Chip(1, 4, 6).text())
        words = ["improve", str(self.old), str(self.lef), "--team", "A", "--team", "x\ty", "--export", str(self.new)]
        said = "lefence: NoTeam\nlefence: team x\\x09y is not in the design\n"
        self.assertEqual(run(words), (1, "", said))
        self.assertEqual(self.names(), ["cells.lef", "old.def"])

    def test_files_that_cannot_be_written_are_reported_before_the_work(self) -> None:
        self.old.write_text(Chip(1, 4, 6).text())
        missing = self.folder / "no" / "file"
        for option in ("export", "lines"):
            words = ["improve", str(self.old), str(self.lef), f"--{option}", str(missing)]
            said = f"lefence: File\nlefence: {option} file {missing} cannot be written: there is no such folder\n"
            self.assertEqual(run(words), (3, "", said))
        self.assertEqual(self.names(), ["cells.lef", "old.def"])

    def test_bad_nets_are_refused(self) -> None:
        text = re.sub(r"^- n1 [^;]*;", "- n1 x ;", Chip(1, 4, 6).text(), flags=re.MULTILINE)
        self.old.write_text(text)
        line = text[: text.index("- n1 x")].count("\n") + 1
        words = ["improve", str(self.old), str(self.lef), "--export", str(self.new)]
        said = f"lefence: 3 Unexpected line {line}\nlefence: DEF file {self.old}, line {line}: - n1 x ;\n"
        self.assertEqual(run(words), (1, "", said))
        self.assertEqual(self.names(), ["cells.lef", "old.def"])


if __name__ == "__main__":
    unittest.main()
