#!/usr/bin/env python3
"""Prints how long a placer's result takes into a running hub, and how long a colleague sees a cell without a place.

usage: bench/push.py [CELLS [PROGRAM]]      (20,000 cells, half of them in the fence; the proved program)

The design is that of `generate.py packed` with one fence. The placer's result is the same design with each cell of the
fence a Gaussian of one row's height off its place, repaired. It is sent by `lefence-push` while a client of the fence's
query socket asks where 200 of its cells are, again and again.
"""

from __future__ import annotations

import random
import re
import socket
import subprocess
import sys
import tempfile
import time
from pathlib import Path

from front import TOP, Hub
from hub import generated
from repair import PLACED, moved

TEAM, WATCHED = "f0", 200


def fenced_cells(text: str) -> list[str]:
    """The cells of the fence."""
    found = re.search(rf"^- \S+ ([^;]*) \+ REGION {TEAM} ;", text, re.M)
    return found[1].split() if found else []


def disturb(text: str, cells: set[str]) -> str:
    """The text with these cells off their places."""
    rng = random.Random(1)

    def line_of(found: re.Match[str]) -> str:
        if found[1] not in cells:
            return found[0]
        return PLACED.sub(lambda place: moved("placer", place, rng), found[0])

    return re.sub(r"^- (\S+) .*$", line_of, text, flags=re.M)


def watch(folder: Path, cells: list[str], push: subprocess.Popen[bytes]) -> tuple[int, int, float]:
    """Asks where the cells are until the push ends. Returns the queries, those whose cell had no place, and the most
    seconds from one query of a cell with a place to the next.
    """
    queries = unplaced = 0
    longest, last = 0.0, dict.fromkeys(cells, time.monotonic())
    with socket.socket(socket.AF_UNIX) as end:
        end.connect(str(folder / f"s/{TEAM}.query.sock"))
        replies = end.makefile("rb")
        end.sendall(b"open %b\n" % TEAM.encode())
        number = replies.readline().split()[1]
        while push.poll() is None:
            for cell in cells:
                end.sendall(b"where %b %b %b\n" % (TEAM.encode(), number, cell.encode()))
                has_place = len(replies.readline().split()) == 4
                now = time.monotonic()
                queries, unplaced = queries + 1, unplaced + (not has_place)
                if has_place:
                    longest, last[cell] = max(longest, now - last[cell]), now
    return queries, unplaced, longest


def main(words: list[str]) -> int:
    count = words[0] if words else "20000"
    program = words[1] if len(words) > 1 else str(TOP / "crates/lefence/out/lefence")
    with tempfile.TemporaryDirectory(dir=".") as name:
        folder = Path(name).resolve()
        design, library, wanted = (folder / each for each in ("t.def", "t.lef", "placed.def"))
        text = generated("packed", count, "1", "60", "0").decode()
        cells = fenced_cells(text)
        design.write_text(text)
        library.write_bytes(generated("tall"))
        (folder / "off.def").write_text(disturb(text, {*cells}))
        subprocess.run(
            [program, "repair", folder / "off.def", library, "--export", wanted], stdout=subprocess.DEVNULL, check=True
        )
        hub = Hub(folder, program, fences=1)
        begin = time.monotonic()
        push = subprocess.Popen(
            [TOP / "front/bin/lefence-push", wanted, folder / f"s/{TEAM}.sock", library, "--program", program]
        )
        queries, unplaced, longest = watch(folder, random.Random(1).sample(cells, WATCHED), push)
        print(
            f"{len(cells):,} cells: {time.monotonic() - begin:.1f} s; in {unplaced} of {queries:,} queries a cell had "
            f"no place; between two with a place {longest * 1000:.0f} ms at most",
            flush=True,
        )
        hub.end()
    return push.returncode


if __name__ == "__main__":
    sys.exit(main(sys.argv[1:]))
