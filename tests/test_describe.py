"""`lefence describe`: compares its lines with the DEF text, read here by a few lines of Python, and with `lefence
check`."""

from __future__ import annotations

import json
import re
import unittest

from program import DESIGN, LEF, InFolder, Start, run

Line = dict[str, object]
# The keys of each kind, which must not change.
KEYS: dict[str, list[str]] = {
    "design": ["kind", "name", "site", "site_height", "site_width", "units"],
    "row": ["box", "kind", "name", "orient", "sites"],
    "fence": ["kind", "name", "rects"],
    "obstacle": ["box", "kind", "name"],
    "soft": ["box", "kind"],
    "cell": ["box", "height", "kind", "macro", "name", "orient", "other", "rule", "team", "width"],
    "density": ["bins", "fullest_10", "fullest_2", "fullest_20", "fullest_5", "kind", "side"],
    "total": ["cells", "fences", "illegal", "kind", "obstacles", "rows", "soft", "unplaced"],
}
SITE = (200, 2000)
# The description of the small design, in which no cell is placed.
SMALL = """\
{"kind":"design","name":"w","site":"core","site_height":2000,"site_width":200,"units":1000}
{"box":[0,0,10000,2000],"kind":"row","name":"r0","orient":"N","sites":50}
{"box":[0,2000,10000,4000],"kind":"row","name":"r1","orient":"FS","sites":50}
{"box":[0,4000,10000,6000],"kind":"row","name":"r2","orient":"N","sites":50}
{"box":[0,6000,10000,8000],"kind":"row","name":"r3","orient":"FS","sites":50}
{"kind":"fence","name":"A","rects":[[0,0,4000,4000]]}
{"kind":"fence","name":"B","rects":[[6000,0,10000,8000]]}
{"box":[4000,0,4400,2000],"kind":"obstacle","name":null}
{"box":null,"height":2000,"kind":"cell","macro":"INV","name":"a1","orient":null,"other":null,"rule":null,\
"team":"A","width":400}
{"box":null,"height":2000,"kind":"cell","macro":"INV","name":"a2","orient":null,"other":null,"rule":null,\
"team":"A","width":400}
{"box":null,"height":4000,"kind":"cell","macro":"DBL","name":"a3","orient":null,"other":null,"rule":null,\
"team":"A","width":600}
{"box":null,"height":2000,"kind":"cell","macro":"INV","name":"b1","orient":null,"other":null,"rule":null,\
"team":"B","width":400}
{"box":null,"height":2000,"kind":"cell","macro":"INV","name":"g1","orient":null,"other":null,"rule":null,\
"team":"-","width":400}
{"bins":1,"fullest_10":0,"fullest_2":0,"fullest_20":0,"fullest_5":0,"kind":"density","side":10000}
{"cells":5,"fences":2,"illegal":0,"kind":"total","obstacles":1,"rows":4,"soft":0,"unplaced":5}
"""
# Four rows. The third begins further left.
ROWS = "".join(
    f"ROW r{number} core {left} {2000 * number} {'N' if number % 2 == 0 else 'FS'} DO 50 BY 1 STEP 200 0 ;\n"
    for number, left in enumerate((0, 0, -400, 0))
)
# A design with lines of all kinds, names with characters that JSON escapes, and cells that break rules.
MIXED = f"""\
VERSION 5.8 ;
DESIGN mi"x\\ed ;
UNITS DISTANCE MICRONS 1000 ;
{ROWS}REGIONS 3 ;
- north ( 0 4000 ) ( 4000 8000 ) + TYPE FENCE ;
- hint ( 0 0 ) ( 400 400 ) + TYPE GUIDE ;
- split ( 6000 0 ) ( 8000 2000 ) ( 8000 0 ) ( 10000 4000 ) + TYPE FENCE ;
END REGIONS
COMPONENTS 12 ;
- n1 INV + PLACED ( 0 4000 ) N ;
- n2 INV + PLACED ( 200 4000 ) N ;
- wall DBL + FIXED ( 4400 0 ) N ;
- s\\[0\\] INV + PLACED ( 6000 0 ) FN ;
- s2 INV + PLACED ( 0 0 ) N ;
- g1 INV + PLACED ( 100 0 ) N ;
- g"2 INV ;
- cap INV + COVER ( 2000 0 ) N ;
- g3 DBL + UNPLACED ;
- post DBL + FIXED ( 4600 6000 ) E ;
- g4 DBL + PLACED ( 4200 0 ) N ;
- g5 DBL + PLACED ( -2147483647 0 ) W ;
END COMPONENTS
BLOCKAGES 4 ;
- PLACEMENT RECT ( 2000 6000 ) ( 2400 8000 ) RECT ( 9000 6000 ) ( 9200 8000 ) ;
- PLACEMENT + SOFT RECT ( 5000 4000 ) ( 5400 6000 ) ;
- PLACEMENT + PARTIAL 0.5 RECT ( 7000 4000 ) ( 7400 6000 ) ;
- PLACEMENT RECT ( 0 2000 ) ( 0 2000 ) ;
END BLOCKAGES
GROUPS 2 ;
- gn n* + REGION north ;
- gs s* + REGION split ;
END GROUPS
END DESIGN
"""
# The number of legal cells of the large design. Its lines are several times what is written at once.
MANY = 5_000
# A design of one row in which all cells are placed and legal.
LARGE = (
    "VERSION 5.8 ;\nDESIGN large ;\nUNITS DISTANCE MICRONS 1000 ;\n"
    f"ROW r0 core 0 0 N DO {2 * MANY} BY 1 STEP 200 0 ;\nCOMPONENTS {MANY} ;\n"
    + "".join(f"- u{number} INV + PLACED ( {400 * number} 0 ) N ;\n" for number in range(MANY))
    + "END COMPONENTS\nEND DESIGN\n"
)


def section(text: str, name: str) -> list[str]:
    """The entries of a section of a DEF text that has one line for each."""
    found = re.search(rf"^{name} \d+ ;\n(.*?)^END {name}$", text, re.MULTILINE | re.DOTALL)
    return found.group(1).splitlines() if found else []


def rectangles(text: str) -> list[list[int]]:
    """The rectangles of points ( x y ), two for each."""
    numbers = [int(number) for point in re.findall(r"\( (\S+) (\S+) \)", text) for number in point]
    return [numbers[at : at + 4] for at in range(0, len(numbers), 4)]


def sizes(lef: str) -> dict[str, tuple[int, int]]:
    """Width and height of each macro of a LEF text, with 1000 database units per micron."""
    found = re.findall(r"^MACRO (\S+)$.*?^  SIZE (\S+) BY (\S+) ;$", lef, re.MULTILINE | re.DOTALL)
    return {name: (round(float(width) * 1000), round(float(height) * 1000)) for name, width, height in found}


def cuts(rects: list[list[int]], low: int, high: int, at: int) -> list[tuple[int, int]]:
    """The parts from `low` to `high` between the edges of the rectangles, along x (`at` 0) or y (`at` 1)."""
    edges = sorted({low, high, *(edge for rect in rects for edge in rect[at::2] if low < edge < high)})
    return list(zip(edges, edges[1:]))


def usable_rects(lines: list[Line]) -> list[list[int]]:
    """The parts of rows that a team may use: in no obstacle, and over their whole height in one fence, or in none."""
    found: list[list[int]] = []
    boxes: dict[str, list[list[int]]] = {"row": [], "obstacle": []}
    fences: list[list[list[int]]] = []
    for line in lines:
        if line["kind"] == "fence":
            fences.append(line["rects"])  # type: ignore[arg-type]
        elif line["kind"] in boxes:
            boxes[str(line["kind"])].append(line["box"])  # type: ignore[arg-type]
    edges = boxes["obstacle"] + [rect for rects in fences for rect in rects]
    for left, bottom, right, top in boxes["row"]:
        for x, end in cuts(edges, left, right, 0):
            owners = set()
            for y, _ in cuts(edges, bottom, top, 1):
                if any(x1 <= x < x2 and y1 <= y < y2 for x1, y1, x2, y2 in boxes["obstacle"]):
                    owners |= {-2, -1}
                owners.add(
                    next(
                        (
                            number
                            for number, rects in enumerate(fences)
                            if any(x1 <= x < x2 and y1 <= y < y2 for x1, y1, x2, y2 in rects)
                        ),
                        len(fences),
                    )
                )
            if len(owners) == 1:
                found.append([x, bottom, end, top])
    return found


def area_in(rects: list[list[int]], left: int, bottom: int, side: int) -> int:
    """The area of the rectangles in a bin."""
    return sum(
        max(0, min(x2, left + side) - max(x1, left)) * max(0, min(y2, bottom + side) - max(y1, bottom))
        for x1, y1, x2, y2 in rects
    )


def density_of(lines: list[Line]) -> Line:
    """The line of the density, by its definition: bins of five rows, of which each has a fifth of usable area."""
    rows: list[list[int]] = [line["box"] for line in lines if line["kind"] == "row"]  # type: ignore[misc]
    placed: list[list[int]] = [
        line["box"] for line in lines if line["kind"] == "cell" and line["box"]  # type: ignore[misc]
    ]
    usable = usable_rects(lines)
    side = 5 * SITE[1]
    left, bottom = min(row[0] for row in rows), min(row[1] for row in rows)
    found = []
    for x in range(left, max(row[2] for row in rows), side):
        for y in range(bottom, max(row[3] for row in rows), side):
            room = area_in(usable, x, y, side)
            if 5 * room >= side * side:
                found.append(area_in(placed, x, y, side) * 1000 // room)
    found.sort(reverse=True)
    density: Line = {"kind": "density", "bins": len(found), "side": side}
    for percent in (2, 5, 10, 20):
        fullest = found[: max(1, len(found) * percent // 100)]
        density[f"fullest_{percent}"] = sum(fullest) // len(fullest) if fullest else 0
    return density


def reported_of(text: str, lef: str) -> list[Line]:
    """The lines of a DEF text of the forms above, except the rules that cells break, and the totals."""
    name = re.search(r"^DESIGN (\S+) ;$", text, re.MULTILINE)
    assert name
    width, height = SITE
    site = {"site": "core", "site_height": height, "site_width": width}
    lines: list[Line] = [{"kind": "design", "name": name[1], "units": 1000, **site}]
    for row in re.finditer(r"^ROW (\S+) core (\S+) (\S+) (\S+) DO (\d+) ", text, re.MULTILINE):
        x, y, sites = int(row[2]), int(row[3]), int(row[5])
        box = [x, y, x + sites * width, y + height]
        lines.append({"kind": "row", "name": row[1], "box": box, "orient": row[4], "sites": sites})
    fences = [entry for entry in section(text, "REGIONS") if "+ TYPE FENCE" in entry]
    lines += [{"kind": "fence", "name": entry.split()[1], "rects": rectangles(entry)} for entry in fences]
    groups = [(entry.split()[2:-3], entry.split()[-2]) for entry in section(text, "GROUPS")]
    macros = sizes(lef)
    obstacles: list[Line] = []
    cells: list[Line] = []
    for entry in section(text, "COMPONENTS"):
        component, macro = entry.split()[1:3]
        across, up = macros[macro]
        spot = orient = None
        if place := re.search(r"\+ (PLACED|FIXED|COVER) \( (\S+) (\S+) \) (\S+) ;$", entry):
            x, y, orient = int(place[2]), int(place[3]), place[4]
            turned = (up, across) if orient in ("E", "W", "FE", "FW") else (across, up)
            spot = [x, y, x + turned[0], y + turned[1]]
        if "+ FIXED" in entry:
            obstacles.append({"kind": "obstacle", "name": component, "box": spot})
        elif "+ COVER" not in entry:
            owners = [region for names, region in groups if any(component.startswith(it.rstrip("*")) for it in names)]
            cell = {"kind": "cell", "name": component, "macro": macro, "width": across, "height": up}
            cells.append({**cell, "box": spot, "orient": orient, "team": owners[0] if owners else "-"})
    blockages = section(text, "BLOCKAGES")
    hard = [rect for entry in blockages if "+ " not in entry for rect in rectangles(entry)]
    soft = [rect for entry in blockages if "+ SOFT" in entry for rect in rectangles(entry)]
    lines += obstacles + [{"kind": "obstacle", "name": None, "box": rect} for rect in hard]
    return lines + [{"kind": "soft", "box": rect} for rect in soft] + cells


class Describe(InFolder):
    """Describes designs, each written into its own folder."""

    def design(self, text: str) -> list[str]:
        """The words for a design of this DEF text and the macros of the small design."""
        path = self.folder / "x.def"
        path.write_text(text)
        return [str(path), str(LEF)]

    def described(self, words: list[str], status: int) -> list[Line]:
        """The lines for these files. Each must be compact JSON with the keys of its kind."""
        found, written, said = run(["describe", *words])
        self.assertEqual((found, said), (status, ""))
        self.assertTrue(written.endswith("\n"))
        lines: list[Line] = []
        for text in written.removesuffix("\n").split("\n"):
            line = json.loads(text)
            self.assertEqual(list(line), KEYS[line["kind"]])
            self.assertEqual(json.dumps(line, separators=(",", ":"), ensure_ascii=False), text)
            lines.append(line)
        return lines

    def compared(self, text: str, status: int) -> list[Line]:
        """The lines for this DEF text, after they were compared with the text and with the report of `check`."""
        words = self.design(text)
        lines = self.described(words, status)
        without_rules = [
            {key: value for key, value in line.items() if key not in ("rule", "other")} for line in lines[:-2]
        ]
        self.assertEqual(without_rules, reported_of(text, LEF.read_text()))
        self.assertEqual(lines[-2], density_of(lines))
        checked, report, said = run(["check", *words])
        self.assertEqual((checked, said), (status, ""))
        found = json.loads(report)
        cells = [line for line in lines if line["kind"] == "cell"]
        broken = [{"cell": it["name"], "rule": it["rule"], "other": it["other"]} for it in cells if it["rule"]]
        self.assertEqual(broken, [{"other": None, **violation} for violation in found["violations"]])
        kinds = [line["kind"] for line in lines]
        counts = {"rows": "row", "fences": "fence", "obstacles": "obstacle", "soft": "soft", "cells": "cell"}
        total = {key: kinds.count(kind) for key, kind in counts.items()}
        self.assertEqual(lines[-1], {"kind": "total", **total, "illegal": len(broken), "unplaced": found["unplaced"]})
        self.assertEqual(total["cells"], found["cells"])
        return lines

    def test_the_small_design(self) -> None:
        self.assertEqual(run(["describe", *DESIGN]), (4, SMALL, ""))
        self.described(DESIGN, 4)

    def test_a_design_with_lines_of_all_kinds(self) -> None:
        lines = self.compared(MIXED, 4)
        rules = {line["name"]: (line["rule"], line["other"]) for line in lines if line["kind"] == "cell"}
        self.assertEqual(rules["n1"], (8, "n2"))
        self.assertEqual(rules["n2"], (8, "n1"))
        self.assertEqual(rules["s\\[0\\]"], (None, None))
        self.assertEqual(rules["s2"], (6, None))
        self.assertEqual(rules["g1"], (2, None))
        self.assertEqual(rules['g"2'], (None, None))
        self.assertEqual(rules["g4"], (7, None))
        self.assertEqual({line["kind"] for line in lines}, set(KEYS))

    def test_a_large_legal_design(self) -> None:
        lines = self.compared(LARGE, 0)
        self.assertEqual(lines[-1]["cells"], MANY)

    def test_one_cell_off_its_place(self) -> None:
        lines = self.compared(LARGE.replace("PLACED ( 2800 0 )", "PLACED ( 3000 0 )"), 4)
        meeting = [(it["name"], it["other"]) for it in lines if it.get("rule") == 8]
        self.assertEqual(meeting, [("u7", "u8"), ("u8", "u7")])

    def test_a_design_without_cells(self) -> None:
        text = re.sub(r"COMPONENTS.*END COMPONENTS\n", "", LARGE, flags=re.DOTALL)
        self.assertEqual(self.compared(text, 0)[-1]["cells"], 0)

    def test_how_full_the_fullest_bins_are(self) -> None:
        # Of each bin of 10,000 by 10,000 the row is a fifth. The cells take all of it in the first bin, and 4,800 of
        # 10,000 in the second one.
        entries = "".join(f"- u{number} INV + PLACED ( {400 * number} 0 ) N ;\n" for number in range(37))
        text = LARGE[: LARGE.index("COMPONENTS")] + f"COMPONENTS 37 ;\n{entries}END COMPONENTS\nEND DESIGN\n"
        density = self.compared(text, 0)[-2]
        self.assertEqual((density["bins"], density["fullest_2"], density["fullest_5"]), (200, 370, 148))

    def test_a_description_that_cannot_be_written(self) -> None:
        with open("/dev/full", "wb") as full:
            for words in (DESIGN, self.design(LARGE)):
                found, _, said = run(["describe", *words], start=Start(stdout=full))
                self.assertEqual((found, said), (3, "lefence: Output\n"))


if __name__ == "__main__":
    unittest.main()
