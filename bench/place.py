#!/usr/bin/env python3
"""Sends commands that find places and move cells, and prints microseconds per command, and seconds of whole teams'
commands: the best of three runs of each.

usage: bench/place.py [--padding P] [--room] [COUNT ...]    (0; 10000 100000 1000000; from the top; the program
                                                            crates/lefence is proved and built first: rt run there)

The designs are `generate.py packed`: 10 or 500 fences, cells of one to four rows that take 60 or 95 percent of the
sites. The commands concern cells of the first fence and of the ground team, half of each. They are sent over a pipe, a
hundred at a time. `find` and `legalize` search a place within twenty sites and two rows of the cell's own. `tidy`,
`commit` and `check` are sent to every team of a design in which a tenth of the cells are half a site off their places.

With a padding P every team keeps its cells P core sites apart. With --room the cells take 30 percent of the sites, at
places legal for that padding. Each line is then printed twice: with the padding, and without it.
"""

from __future__ import annotations

import argparse
import os
import random
import subprocess
import sys
import tempfile
import time
from collections.abc import Iterable

from load import LEFENCE, need, write

RUNS = 3
COMMANDS = 500    # commands of a verb
# A cell: its macro, its corner and its orientation.
Cell = tuple[str, int, int, str]
# For each team its cells by name.
Teams = dict[str, dict[str, Cell]]


def cells_of(def_: str) -> Teams:
    """The cells of the first fence and of the ground team, each with its macro and its place."""
    cells: dict[str, Cell] = {}
    fences: set[str] = set()
    first: list[str] = []
    with open(def_) as text:
        for line in text:
            words = line.split()
            if len(words) > 4 and words[0] == "-" and "PLACED" in words:
                cells[words[1]] = words[2], int(words[-5]), int(words[-4]), words[-2]
            elif "REGION" in words and words[0] == "-":
                members = words[2:-4] if words[-4] == "+" else words[2:-3]
                members = [word for word in members if word in cells]
                first = first or members
                fences.update(members)
    return {
        "f0": {name: cells[name] for name in first},
        "-": {name: cell for name, cell in cells.items() if name not in fences},
    }


def verbs(teams: Teams) -> dict[str, list[str]]:
    """For each verb its commands, in the order in which they are sent."""
    rng = random.Random(3)
    commands: dict[str, list[str]] = {
        verb: [] for verb in ("where", "find", "place", "swap", "legalize", "unplace", "undo")
    }
    for team, cells in teams.items():
        names = rng.sample(sorted(cells), min(COMMANDS // 2, len(cells)))
        alike: dict[tuple[str, str], list[str]] = {}
        for name, (mac, x, y, orient) in cells.items():
            alike.setdefault((mac, orient), []).append(name)
        for name in names:
            mac, x, y, orient = cells[name]
            near = f"{x + rng.randrange(-20, 21) * 200} {y + rng.randrange(-2, 3) * 2000}"
            commands["where"].append(f"where {team} 0 {name}\n")
            commands["find"].append(f"find {team} 0 {name} {near}\n")
            commands["place"].append(f"place {team} 0 {name} {x} {y} {'FN' if orient == 'N' else 'S'}\n")
            commands["swap"].append(f"swap {team} 0 {name} {rng.choice(alike[mac, orient])}\n")
            commands["legalize"].append(f"legalize {team} 0 {name} {near}\n")
            commands["unplace"].append(f"unplace {team} 0 {name}\n")
        commands["undo"] += [f"undo {team} 0\n"] * min(60, len(names))
    return commands


class Program:
    """The program over a pipe, with a session for each of these teams, which have this padding."""

    def __init__(self, lef: str, def_: str, teams: Iterable[str], padding: int) -> None:
        self.child = subprocess.Popen(
            [LEFENCE, "replay", def_, lef], stdin=subprocess.PIPE, stdout=subprocess.PIPE, bufsize=0
        )
        assert self.child.stdin and self.child.stdout
        self.requests, self.replies = self.child.stdin, open(self.child.stdout.fileno(), "rb", closefd=False)
        self.ask([f"open {team}\n" for team in teams])
        if padding:
            self.ask([f"pad {team} 0 {padding}\n" for team in teams])

    def ask(self, lines: list[str]) -> float:
        """Seconds of these commands."""
        start = time.perf_counter()
        for number in range(0, len(lines), 100):
            sent = lines[number:number + 100]
            text = "".join(sent).encode()
            while text:
                text = text[self.requests.write(text):]
            for line in sent:
                reply = self.replies.readline()
                if not reply.startswith((b"ok", b"no 7", b"no 8", b"{")):
                    sys.exit(f"{line.strip()}: {reply.decode()}")
        return time.perf_counter() - start

    def end(self) -> None:
        self.requests.close()
        self.child.wait()


def best(lists: list[tuple[list[str], float]], lef: str, def_: str, teams: Iterable[str], padding: int) -> list[float]:
    """The best time of each list of commands over all runs, in seconds times its factor. A run sends the lists one
    after another."""
    found = [float("inf")] * len(lists)
    for _ in range(RUNS):
        program = Program(lef, def_, teams, padding)
        found = [min(time_, program.ask(lines) * factor) for time_, (lines, factor) in zip(found, lists)]
        program.end()
    return found


def settle(lef: str, def_: str, teams: list[str], padding: int) -> None:
    """Moves the cells of all teams to places that are legal for the padding."""
    lines: list[str] = []
    for team in teams:
        lines += [f"open {team}", f"pad {team} 0 {padding}", f"tidy {team} 0", f"commit {team} 0"]
    settled = def_ + ".settled"
    subprocess.run(
        [LEFENCE, "replay", def_, lef, "--export", settled],
        input="\n".join(lines) + "\n",
        text=True,
        stdout=subprocess.PIPE,
        check=True,
    )
    os.replace(settled, def_)


def displace(def_: str) -> None:
    """Moves a tenth of the cells half a site off their places."""
    rng = random.Random(5)
    with open(def_) as text:
        lines = text.read().split("\n")
    for number, line in enumerate(lines):
        words = line.split()
        if len(words) > 4 and words[0] == "-" and "PLACED" in words and rng.randrange(10) == 0:
            words[-5] = str(int(words[-5]) + 100)
            lines[number] = " ".join(words)
    with open(def_, "w") as out:
        out.write("\n".join(lines))


def line_of(lef: str, def_: str, design: tuple[int, int, int], room: int, paddings: list[int]) -> list[str]:
    """The printed lines of a design (cells, fences, percent), one for each padding. Its cells have room for the padding
    `room`."""
    count, fences, percent = design
    all_teams = [f"f{fence}" for fence in range(fences)] + ["-"]
    write(def_, "packed", count, fences, percent)
    if room:
        settle(lef, def_, all_teams, room)
    teams = cells_of(def_)
    commands = verbs(teams)
    timed = [(lines, 1e6 / len(lines)) for lines in commands.values()]
    single = [best(timed, lef, def_, teams, padding) for padding in paddings]
    if room:
        displace(def_)
    else:
        write(def_, "packed", count, fences, percent, 10)
    lists = [([f"{verb} {team} 0\n" for team in all_teams], 1.0) for verb in ("tidy", "commit", "check")]
    whole = [best(lists, lef, def_, all_teams, padding) for padding in paddings]
    return [
        "".join(f" {t:{w}.1f}" for t, w in zip(times, (7, 7, 7, 7, 8, 7, 7)))
        + "    " + "".join(f" {t:7.3f}" for t in seconds)
        for times, seconds in zip(single, whole)
    ]


def main() -> None:
    words = argparse.ArgumentParser()
    words.add_argument("--padding", type=int, default=0)
    words.add_argument("--room", action="store_true")
    words.add_argument("counts", type=int, nargs="*")
    given = words.parse_args()
    counts = given.counts or [10_000, 100_000, 1_000_000]
    need(LEFENCE)
    print(f"{'cells':>8} {'fences':>6} {'%':>3} {'where':>7} {'find':>7} {'place':>7} {'swap':>7} {'legalize':>8}"
          f" {'unplace':>7} {'undo':>7} us {'tidy':>7} {'commit':>7} {'check':>7} s")
    paddings = [given.padding, 0] if given.room else [given.padding]
    with tempfile.TemporaryDirectory() as folder:
        lef, def_ = os.path.join(folder, "x.lef"), os.path.join(folder, "x.def")
        write(lef, "tall")
        for percent in [30] if given.room else [60, 95]:
            for fences in (10, 500):
                for count in counts:
                    rows = line_of(lef, def_, (count, fences, percent), given.padding if given.room else 0, paddings)
                    for row in rows:
                        print(f"{count:>8} {fences:>6} {percent:>3}" + row, flush=True)


if __name__ == "__main__":
    main()
