#!/usr/bin/env python3
"""Shortens the wires of a design with `lefence improve` and with a reference program, and prints costs and gains.

usage: bench/improve.py [--program PATH] [--reference COMMAND] [--rounds N ...] DEF LEF      (2 4)

The program is that of crates/lefence, which is built first (rt run there). Seconds are processor seconds, including
reading the texts and the export. The peak memory is also printed relative to the DEF text. `off` is how much of the
wire length is taken off, in percent, by `lefence wirelength` of both texts. `lines` are the commands by the cells that
have another place or orientation than before. The exported design is checked, and its lines are replayed: both texts
must be the same.

The reference is a command with its options, in which ROUNDS is replaced by the number of rounds; DEF and LEF are
inserted after its first word, and --export FILE is appended.
"""

from __future__ import annotations

import argparse
import json
import os
import re
import shlex
import subprocess
import sys
import tempfile
from pathlib import Path

from repair import TOP, apart, figures_of

# A component's name, its place and its orientation.
LOCATION = re.compile(r"^\s*- (\S+) [^;]*?\+ PLACED \( (-?\d+) (-?\d+) \) (\w+)", re.M)


def length_of(program: str, design: Path, lef: str) -> int:
    """The wire length, in half database units."""
    said = subprocess.run([program, "wirelength", str(design), lef], stdout=subprocess.PIPE, check=True).stdout
    doubled = json.loads(said.splitlines()[-1])["doubled"]
    return int(doubled)


def changed(before: Path, after: Path) -> int:
    """The number of components with another place or orientation."""
    old, new = ({name: at for name, *at in LOCATION.findall(text.read_text())} for text in (before, after))
    return sum(at != new.get(name) for name, at in old.items())


def replayed(program: str, texts: list[str], lines: Path, export: Path) -> bool:
    """Whether a replay of these lines exports the same text, and the exported design is legal."""
    with tempfile.TemporaryDirectory() as folder, lines.open("rb") as commands:
        again = Path(folder, "again.def")
        words = [program, "replay", *texts, "--lines", "4000000000", "--export", str(again)]
        subprocess.run(words, stdin=commands, stdout=subprocess.DEVNULL, check=True)
        check = subprocess.run([program, "check", str(export), *texts[1:]], stdout=subprocess.DEVNULL)
        return again.read_bytes() == export.read_bytes() and check.returncode == 0


def measure(texts: list[str], program: str, reference: str | None, rounds: int) -> None:
    """Prints a line for each program."""
    design, size = Path(texts[0]), Path(texts[0]).stat().st_size
    before = length_of(program, design, texts[1])
    with tempfile.TemporaryDirectory() as name:
        export, lines = Path(name, "out.def"), Path(name, "lines")
        runs = [("improve", [program, "improve", *texts, "--rounds", str(rounds), "--lines", str(lines)])]
        if reference is not None:
            command, *options = shlex.split(reference.replace("ROUNDS", str(rounds)))
            runs.append(("reference", [command, *texts, *options]))
        for what, words in runs:
            seconds, peak, _ = figures_of([*words, "--export", str(export)], "")
            off = 100 * (1 - length_of(program, export, texts[1]) / before)
            said = f"{design.stem:>16} {what:>9} {rounds:2} rounds | {seconds:8.2f} s {peak / 1e6:8.1f} MB"
            said += f" {peak / size:5.2f} x {off:6.2f} % off"
            if what == "improve":
                count = lines.read_bytes().count(b"\n") / max(1, apart(changed, design, export))
                same = "same" if replayed(program, texts, lines, export) else "OTHER"
                said += f" {count:5.2f} lines, replayed the {same}"
            print(said, flush=True)


def main() -> int:
    words = argparse.ArgumentParser()
    words.add_argument("--program", default=os.environ.get("LEFENCE", str(TOP / "crates/lefence/out/lefence")))
    words.add_argument("--reference")
    words.add_argument("--rounds", type=int, nargs="*", default=[2, 4])
    words.add_argument("texts", nargs=2)
    given = words.parse_args()
    for rounds in given.rounds:
        measure(given.texts, given.program, given.reference, rounds)
    return 0


if __name__ == "__main__":
    sys.exit(main())
