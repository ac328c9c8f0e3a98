#!/usr/bin/env python3
"""Checks designs in which one thing occurs very often, and prints seconds next to those of the design without it.

usage: bench/many.py    (from the top; the program crates/lefence is proved and built first: rt run there)

The design is `generate.py packed` with 100,000 cells. Added to it are 20,000 equal blockages over all cells; or the
rectangle of one fence, 20,000 times; or 2,000 patterns of one group that begin with a star and match no name.
"""

from __future__ import annotations

import os
import re
import subprocess
import sys
import tempfile
import time

from load import LEFENCE, need, write

RUNS = 3
EVERYWHERE = "- PLACEMENT RECT ( 0 0 ) ( 2000000 2000000 ) ;\n"


def blocked(text: str) -> str:
    """The design with equal blockages over all cells."""
    section = f"BLOCKAGES 20000 ;\n{EVERYWHERE * 20_000}END BLOCKAGES\n"
    return text.replace("END COMPONENTS\n", "END COMPONENTS\n" + section, 1)


def fenced(text: str) -> str:
    """The design in which the first fence has its rectangle many times."""
    return re.sub(r"(- f0 )((?:\( -?\d+ -?\d+ \) ){2})", lambda found: found[1] + found[2] * 20_000, text, count=1)


def starred(text: str) -> str:
    """The design in which the first group has many more patterns."""
    return text.replace("- g0 ", "- g0 " + "".join(f"*zz{number} " for number in range(2_000)), 1)


def seconds(lef: str, def_: str) -> float:
    """Seconds of `check`, with or without violations."""
    start = time.perf_counter()
    child = subprocess.run([LEFENCE, "check", def_, lef], stdout=subprocess.DEVNULL)
    if child.returncode not in (0, 4):
        sys.exit(f"check: {child.returncode}")
    return time.perf_counter() - start


def main() -> None:
    need(LEFENCE)
    with tempfile.TemporaryDirectory() as folder:
        lef, plain = os.path.join(folder, "x.lef"), os.path.join(folder, "plain.def")
        write(lef, "tall")
        write(plain, "packed", 100_000, 10, 60)
        with open(plain) as text:
            design = text.read()
        designs = {"as it is": plain}
        for name, changed in (
            ("20,000 blockages", blocked), ("20,000 rectangles", fenced), ("2,000 star patterns", starred)
        ):
            designs[name] = os.path.join(folder, changed.__name__ + ".def")
            with open(designs[name], "w") as text:
                text.write(changed(design))
        best = {name: min(seconds(lef, def_) for _ in range(RUNS)) for name, def_ in designs.items()}
        for name, time_ in best.items():
            print(f"{name:>20} {time_:7.2f} s")


if __name__ == "__main__":
    main()
