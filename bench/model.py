"""Models of `lefence repair` in C++ (`models/`): builds them, and runs them on a design that the program describes.

- `recreate` is a yardstick: how little displacement ruin and recreate reaches from a legal placement.
- `bound` is a lower bound of the sum of displacements of all legal placements of all cells.

A cell that is an odd number of rows high may be in any row. Any other cell may be in rows of the rail on which the
program has placed it. All rows must be on one grid of sites.
"""

from __future__ import annotations

import itertools
import json
import os
import subprocess
import sys
from collections.abc import Iterator
from pathlib import Path
from typing import Any, NamedTuple

MODELS = Path(__file__).resolve().parent / "models"
FLAGS = ("-std=c++17", "-O2", "-march=native")
GROUND = "-"
Box = tuple[int, int, int, int]


class Described(NamedTuple):
    """A design as `lefence describe` prints it: the objects of each kind."""

    facts: dict[str, Any]
    rows: list[dict[str, Any]]
    fences: list[dict[str, Any]]
    blocked: list[Box]
    cells: list[dict[str, Any]]


def described(program: str, text: Path, libraries: list[Path]) -> Described:
    """Has the program describe a design."""
    words = [program, "describe", str(text), *map(str, libraries)]
    lines = subprocess.run(words, stdout=subprocess.PIPE).stdout.splitlines()
    kinds: dict[str, list[dict[str, Any]]] = {}
    for line in map(json.loads, lines):
        kinds.setdefault(line["kind"], []).append(line)
    if "total" not in kinds:
        sys.exit(f"{text}: the program has not described the design")
    blocked = [each["box"] for kind in ("obstacle", "soft") for each in kinds.get(kind, [])]
    return Described(kinds["design"][0], kinds["row"], kinds.get("fence", []), blocked, kinds.get("cell", []))


def runs_of(design: Described) -> Iterator[tuple[Box, int, int, int]]:
    """Yields the free ground of each row: the box of the row, the number of a team, and the edges of a run."""
    teams = [(number, rect) for number, fence in enumerate(design.fences) for rect in fence["rects"]]
    for row in design.rows:
        left, bottom, right, top = box = row["box"]
        fences = [(number, rect) for number, rect in teams if rect[1] < top and bottom < rect[3]]
        blocked = [rect for rect in design.blocked if rect[1] < top and bottom < rect[3]]
        edges = {edge for rect in [*(rect for _, rect in fences), *blocked] for edge in (rect[0], rect[2])}
        places = [left, *sorted(edge for edge in edges if left < edge < right), right]
        found: list[list[int]] = []
        for low, high in itertools.pairwise(places):
            if any(rect[0] < high and low < rect[2] for rect in blocked):
                continue
            inside = [(number, rect) for number, rect in fences if rect[0] < high and low < rect[2]]
            numbers = {number for number, _ in inside}
            if len(numbers) > 1 or numbers and not covers([rect for _, rect in inside], bottom, top):
                continue
            team = numbers.pop() if numbers else len(design.fences)
            if found and found[-1][0] == team and found[-1][2] == low:
                found[-1][2] = high
            else:
                found.append([team, low, high])
        yield from ((box, team, low, high) for team, low, high in sorted(found))


def covers(rects: list[Box], bottom: int, top: int) -> bool:
    """Whether rectangles that have the same x together reach from one height to another."""
    for rect in sorted(rects, key=lambda rect: rect[1]):
        if rect[1] <= bottom:
            bottom = max(bottom, rect[3])
    return bottom >= top


def model_text(before: Described, placed: Described | None) -> str:
    """Returns the text that the models read: the ground, and the cells with their targets and their legal places."""
    width, height = before.facts["site_width"], before.facts["site_height"]
    rows = {row["box"][1]: row["orient"] for row in before.rows}
    left, right = min(row["box"][0] for row in before.rows), max(row["box"][2] for row in before.rows)
    if any((row["box"][0] - left) % width for row in before.rows):
        sys.exit("the rows are not on one grid of sites")
    numbers = {bottom: number for number, bottom in enumerate(sorted(rows))}
    rails = {bottom: int(orient in ("S", "FS")) for bottom, orient in rows.items()}
    runs = sorted(
        (numbers[box[1]], team, -((left - low) // width), (high - left) // width)
        for box, team, low, high in runs_of(before)
    )
    teams = {fence["name"]: number for number, fence in enumerate(before.fences)} | {GROUND: len(before.fences)}
    lines = [f"{width} {height} {(right - left) // width} {len(rows)} {len(runs)} {len(before.cells)}"]
    lines += [f"{bottom} {rails[bottom]}" for bottom in sorted(rows)]
    lines += ["{} {} {} {}".format(*run) for run in runs]
    places = {cell["name"]: cell["box"] for cell in placed.cells} if placed else {}
    for cell in before.cells:
        x, y, *_ = cell["box"] or sys.exit(f"{cell['name']} has no place")
        place = places.get(cell["name"])
        site, row = ((place[0] - left) // width, numbers[place[1]]) if place else (-1, -1)
        high = cell["height"] // height
        rail = rails[place[1]] if place and high % 2 == 0 else -1
        lines.append(f"{teams[cell['team']]} {cell['width'] // width} {high} {rail} {x - left} {y} {site} {row}")
    return "\n".join(lines) + "\n"


def build(folder: Path) -> None:
    """Builds the models in a folder."""
    for source in MODELS.glob("*.cpp"):
        subprocess.run([os.environ.get("CXX", "g++"), *FLAGS, "-o", folder / source.stem, source], check=True)


def answer(words: list[str], text: str) -> tuple[dict[str, Any], float]:
    """Runs a model on the text of a design. Returns its answer and its processor seconds."""
    with subprocess.Popen(words, stdin=subprocess.PIPE, stdout=subprocess.PIPE) as process:
        assert process.stdin and process.stdout
        process.stdin.write(text.encode())
        process.stdin.close()
        output = process.stdout.read()
        _, status, usage = os.wait4(process.pid, 0)
        process.returncode = os.waitstatus_to_exitcode(status)
    if process.returncode:
        sys.exit(f"{words[0]}: status {process.returncode}")
    found: dict[str, Any] = json.loads(output)
    return found, usage.ru_utime + usage.ru_stime
