#!/usr/bin/env python3
"""Repairs designs with `lefence repair`, with `tidy` alone and with a reference program, and prints costs and
displacements.

usage: bench/repair.py [--program PATH] [--reference COMMAND] [COUNT ...]               (100000)
       bench/repair.py [--program PATH] [--reference COMMAND] --design DEF LEF [--shift N]
       bench/repair.py [--program PATH] --yardsticks NAME [..] [--seed N] [--real DEF LEF] [--tries ..]

The program is that of crates/lefence, which is built first (rt run there). The designs of COUNT cells are `generate.py
packed` with 10 fences, and cells that take 60 or 90 percent of the sites. The cells are displaced as follows:

- `half`: each cell is half a site off its place
- `sites`: up to three sites
- `free`: up to three sites and a part of one, and a third of the cells in another row
- `placer`: by a Gaussian of one row's height in x and in y, in any part of a site, like the result of a global placer

Or the design is that of a DEF text over a LEF text, and with --shift also with each placed cell N database units to the
right.

Seconds are processor seconds, including reading the texts and the export. The peak memory, also printed relative to the
DEF text, is never below that of this script, about 17 MB. Displacements are in database units, over all cells: their
sum, the mean of those that moved, and the largest. For a repair it prints the unrepaired cells, and a lower bound of
the largest displacement in any repair. A team whose `tidy` is refused moves no cell. The reference is a command with
its options; DEF and LEF are inserted after its first word, and --export FILE is appended.

With --yardsticks it prints how good the places are. `yardsticks.py` says which designs the names m77, l92, r80 and the
like stand for. There is a line for the program, for each number of --tries for a cell of the model in
`models/recreate.cpp`, and for the bound of `models/bound.cpp`: no legal placement has a smaller total. The models are
built first, by g++ or $CXX. The percentage is relative to the first line.
"""

from __future__ import annotations

import argparse
import json
import multiprocessing
import os
import random
import re
import shlex
import subprocess
import sys
import tempfile
from collections.abc import Callable, Iterator
from dataclasses import dataclass
from pathlib import Path
from typing import TypeVar

import yardsticks

TOP = Path(__file__).resolve().parents[1]
SITE, ROW = 200, 2000
PLACED = re.compile(r"PLACED \( (-?\d+) (-?\d+) \)")
# A component's name, and its place.
LOCATION = re.compile(r"^\s*- (\S+) [^;]*?\+ (?:PLACED|FIXED) \( (-?\d+) (-?\d+) \)", re.M)
FENCE = re.compile(r"^\s*- (\S+) [^;]*\+ TYPE FENCE", re.M)
GROUP = re.compile(r"^\s*- \S+ [^;]*\+ REGION (\S+)", re.M)
Value = TypeVar("Value")


def moved(kind: str, found: re.Match[str], rng: random.Random) -> str:
    """The clause of a cell that is moved off its place."""
    x, y = int(found[1]), int(found[2])
    if kind == "half":
        return f"PLACED ( {x + SITE // 2} {y} )"
    if kind == "placer":
        return f"PLACED ( {max(0, x + round(rng.gauss(0, ROW)))} {max(0, y + round(rng.gauss(0, ROW)))} )"
    x += rng.choice((-3, -2, -1, 1, 2, 3)) * SITE
    if kind == "free":
        x, y = x + rng.randrange(1, SITE), y + rng.choice((0, 0, 0, 0, ROW, -ROW))
    return f"PLACED ( {x} {y} )"


def places(text: Path) -> dict[str, tuple[int, int]]:
    return {name: (int(x), int(y)) for name, x, y in LOCATION.findall(text.read_text())}


def displacements(before: Path, after: Path) -> str:
    """The sum of all displacements, the mean of the cells that moved, and the largest displacement."""
    old, new = places(before), places(after)
    found = [abs(x - new[name][0]) + abs(y - new[name][1]) for name, (x, y) in old.items() if name in new]
    gone = [one for one in found if one]
    return f"{sum(gone):>14,} {sum(gone) / max(1, len(gone)):8.0f} {max(gone, default=0):8}"


def apart(work: Callable[..., Value], *given: object) -> Value:
    """The result of `work` in a separate process: the peak memory of a program includes that of the process that starts
    it."""
    with multiprocessing.Pool(1) as pool:
        return pool.apply(work, given)


def figures_of(words: list[str], lines: str) -> tuple[float, int, bytes]:
    """Processor seconds and peak memory in bytes of a program over these lines, and its output."""
    with tempfile.TemporaryFile() as requests, tempfile.TemporaryFile() as output, tempfile.TemporaryFile() as said:
        requests.write(lines.encode())
        requests.seek(0)
        child = subprocess.Popen(words, stdin=requests, stdout=output, stderr=said)
        _, ended, usage = os.wait4(child.pid, 0)
        child.returncode = status = os.waitstatus_to_exitcode(ended)
        output.seek(0)
        said.seek(0)
        if status not in (0, 4):
            sys.exit(f"{words[0]}: status {status}: {said.read().decode()}")
        return usage.ru_utime + usage.ru_stime, usage.ru_maxrss * 1024, output.read()


@dataclass(frozen=True)
class Design:
    """A design, and its name in this script."""

    name: str
    text: Path
    lef: Path


def teams_of(design: Path) -> list[str]:
    text = design.read_text()
    return [*(name for name in FENCE.findall(text) if name in set(GROUP.findall(text))), "-"]


def generate(target: Path, *words: str) -> None:
    with target.open("wb") as file:
        subprocess.run([sys.executable, str(TOP / "bench/generate.py"), *words], stdout=file, check=True)


def displace(legal: Path, text: Path, kind: str) -> None:
    """Writes the text with its cells moved off their places."""
    rng = random.Random(1)
    text.write_text(PLACED.sub(lambda found: moved(kind, found, rng), legal.read_text()))


def shift(old: Path, new: Path, by: int) -> None:
    """Writes the text with its placed cells moved `by` database units to the right."""
    new.write_text(PLACED.sub(lambda found: f"PLACED ( {int(found[1]) + by} {found[2]} )", old.read_text()))


def designs(folder: Path, counts: list[int]) -> Iterator[Design]:
    lef, legal, text = folder / "x.lef", folder / "legal.def", folder / "x.def"
    generate(lef, "tall")
    for count in counts:
        for percent in (60, 90):
            generate(legal, "packed", str(count), "10", str(percent))
            for kind in ("half", "sites", "free", "placer"):
                apart(displace, legal, text, kind)
                yield Design(f"{count} {percent} {kind}", text, lef)


def given_designs(folder: Path, given: list[Path], by: int) -> Iterator[Design]:
    text, lef = given
    yield Design(text.stem, text, lef)
    if by:
        shifted = folder / "shifted.def"
        apart(shift, text, shifted, by)
        yield Design(f"{text.stem} + {by}", shifted, lef)


def result(name: str, output: bytes) -> str:
    """What a repair or a tidy of all teams reports."""
    if name == "repair":
        every = json.loads(output.splitlines()[-1])
        return f"  {every['cells']} cells, {every['left_cells']} left, {every['least_largest']} or more in any repair"
    return f"  {output.count(b'no 8 ')} teams refused" if name == "tidy" else ""


def measure(design: Design, folder: Path, program: str, reference: str | None) -> None:
    """Prints a line for each method to repair the design."""
    texts, out, size = [str(design.text), str(design.lef)], folder / "out.def", design.text.stat().st_size
    lines = "".join(f"open {team}\ntidy {team} 0\ncommit {team} 0\n" for team in apart(teams_of, design.text))
    runs = [("tidy", [program, "replay", *texts], lines), ("repair", [program, "repair", *texts], "")]
    if reference is not None:
        command, *options = shlex.split(reference)
        runs.append(("reference", [command, *texts, *options], ""))
    for name, words, requests in runs:
        seconds, peak, output = figures_of([*words, "--export", str(out)], requests)
        memory = f"{peak / 1e6:8.1f} MB {peak / size:5.2f} x"
        moves = apart(displacements, design.text, out)
        print(f"{design.name:>24} {name:>9} | {seconds:8.2f} s {memory} {moves}{result(name, output)}", flush=True)


def main() -> int:
    words = argparse.ArgumentParser()
    words.add_argument("--program", default=os.environ.get("LEFENCE", str(TOP / "crates/lefence/out/lefence")))
    words.add_argument("--reference")
    words.add_argument("--design", type=Path, nargs=2)
    words.add_argument("--shift", type=int, default=0)
    words.add_argument("--yardsticks", nargs="+", metavar="NAME")
    words.add_argument("--seed", type=int, default=1)
    words.add_argument("--real", type=Path, nargs=2)
    words.add_argument("--tries", nargs="*", default=["2", "20"])
    words.add_argument("--no-bound", action="store_true")
    words.add_argument("counts", type=int, nargs="*", default=[100_000])
    given = words.parse_args()
    if given.yardsticks:
        names, has_bound = given.yardsticks, not given.no_bound
        yardsticks.run(given.program, names, given.seed, given.real, given.tries, has_bound)
        return 0
    print(f"{'':>34} | {'time':>10} {'peak':>11} {'by DEF':>7} {'total':>14} {'mean':>8} {'largest':>8}")
    with tempfile.TemporaryDirectory() as name:
        folder = Path(name)
        shown = given_designs(folder, given.design, given.shift) if given.design else designs(folder, given.counts)
        for design in shown:
            measure(design, folder, given.program, given.reference)
    return 0


if __name__ == "__main__":
    sys.exit(main())
