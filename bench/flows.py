#!/usr/bin/env python3
"""Prints the time and memory of lefence-prepare, lefence-fill and lefence-carry over designs of many cells.

usage: bench/flows.py [CELLS [PROGRAM]]    (1,000,000; the proved program)

The design is that of `generate.py placed`: CELLS legal cells in 10 fences, 60 percent of the sites taken. Prepared is
the same without rows, with words of the LEF text in lower case. The state is that after a commit of every team. In the
next netlist one cell of a hundred has another name, and one another macro. In brackets is what a million cells should
take at most.
"""

from __future__ import annotations

import multiprocessing
import os
import re
import subprocess
import sys
import tempfile
from pathlib import Path

from memory import TOP, teams_of
from tools import measure

PROGRAM = TOP / "crates/lefence/out/lefence"
FILLERS = (8, 4, 2, 1)
ROW = re.compile(rb"^ROW .*\n", re.M)
RUNS = {
    "prepare --look": "prepare x.def x.lef --look",
    "prepare, with rows and a LEF file": "prepare flow.def flow.lef --lef-output lef -o ready.def",
    "fill (a million: 60 s)": "fill x.def x.lef --masters F8,F4,F2,F1 -o filled.def",
    "fill --remove": "fill filled.def x.lef --masters F8,F4,F2,F1 --remove -o back.def",
    "carry (a million: 25 s)": "carry --from x.def x.lef --state x.state --to next.def x.lef -o next.state",
}


def generated(kind: str, *numbers: int) -> bytes:
    """A text of generate.py."""
    words = [sys.executable, str(TOP / "bench/generate.py"), kind, *map(str, numbers)]
    return subprocess.run(words, stdout=subprocess.PIPE, check=True).stdout


def with_fillers(library: bytes) -> bytes:
    """The LEF text with filler macros."""
    macros = "".join(
        f"MACRO F{sites}\n  CLASS CORE ;\n  SIZE {sites * 0.2:.1f} BY 2.0 ;\n  SYMMETRY X Y ;\nEND F{sites}\n"
        for sites in FILLERS
    )
    return library.replace(b"END LIBRARY", macros.encode() + b"END LIBRARY")


def next_netlist(design: bytes) -> bytes:
    """The DEF text in which cells have other names and other macros."""
    renamed = re.sub(rb"\bu(\d*99)\b", rb"n\1", design)
    return re.sub(rb"^(- u\d*00) M\d+ ", rb"\1 M0 ", renamed, flags=re.M)


def in_lower_case(library: bytes) -> bytes:
    """The LEF text with words in lower case, as some libraries have them."""
    words = re.compile(rb"(CLASS|USE|SYMMETRY) ([A-Z ]+)")
    return words.sub(lambda found: b"%b %b" % (found[1], found[2].lower()), library)


def write_texts(folder: Path, cells: int) -> None:
    """Writes the texts of all measurements."""
    design, library = generated("placed", cells, 10), with_fillers(generated("lef", 200, 1))
    for name, text in (
        ("x.def", design),
        ("x.lef", library),
        ("next.def", next_netlist(design)),
        ("flow.def", ROW.sub(b"", design)),
        ("flow.lef", in_lower_case(library)),
    ):
        (folder / name).write_bytes(text)


def save_state(folder: Path, program: str) -> None:
    """Saves the state of the design after a commit of every team."""
    lines = "".join(f"open {team}\ncommit {team} 0\n" for team in teams_of(folder / "x.def"))
    words = [program, "replay", "x.def", "x.lef", "--save", "x.state"]
    subprocess.run(words, cwd=folder, input=lines.encode(), stdout=subprocess.DEVNULL, check=True)


def main() -> None:
    cells = int(sys.argv[1]) if len(sys.argv) > 1 else 1_000_000
    program = os.path.abspath(sys.argv[2]) if len(sys.argv) > 2 else str(PROGRAM)
    with tempfile.TemporaryDirectory(prefix="bench") as name:
        folder = Path(name)
        # (a process of its own: the peak memory of a tool includes that of the process that starts it)
        writing = multiprocessing.Process(target=write_texts, args=(folder, cells))
        writing.start()
        writing.join()
        save_state(folder, program)
        for what, words in RUNS.items():
            tool, *rest = words.split()
            measure(folder, what, f"lefence-{tool}", *rest, "--program", program)


if __name__ == "__main__":
    main()
