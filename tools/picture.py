#!/usr/bin/env python3
"""Draws the two pictures of README: examples/soc.def as docs/picture.svg, and docs/picture_repaired.svg after a repair,
with an arrow for each cell that moved.

usage: tools/picture.py [--program PATH]
"""

from __future__ import annotations

import argparse
import os
import subprocess
import sys
import tempfile
from pathlib import Path

TOP = Path(__file__).resolve().parent.parent
DESIGN, LIBRARY = TOP / "examples/soc.def", TOP / "examples/soc.lef"
PICTURE, REPAIRED = TOP / "docs/picture.svg", TOP / "docs/picture_repaired.svg"


def main() -> int:
    parser = argparse.ArgumentParser(description="Draws the two pictures of README.")
    parser.add_argument("--program", metavar="PATH", help="the lefence program (default: as the tools find it)")
    options = parser.parse_args()
    environment = {**os.environ, "LEFENCE": os.path.abspath(options.program)} if options.program else {**os.environ}

    def run(tool: str, *words: str | Path) -> None:
        subprocess.run([TOP / "front/bin" / tool, *words], env=environment, check=True)

    with tempfile.TemporaryDirectory() as folder:
        repaired = Path(folder) / "soc.def"
        run("lefence-picture", DESIGN, LIBRARY, "-o", PICTURE)
        run("lefence-repair", DESIGN, LIBRARY, "-o", repaired)
        run("lefence-picture", repaired, LIBRARY, "--before", DESIGN, "-o", REPAIRED)
    return 0


if __name__ == "__main__":
    sys.exit(main())
