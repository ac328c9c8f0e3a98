#!/usr/bin/env python3
"""Prints the processor seconds and peak memory of saving a floor and of starting from a saved state.

usage: bench/state.py [--program PATH] [--runs N] [COUNT]    (that of crates/lefence, which is built first: rt run
                                                             there; 3; 1000000)

The design is `generate.py packed`, COUNT cells in 10 fences that take 60 percent of the sites, each half a site off its
place. In the session all teams are opened and tidied, and all except the last are committed, so the state has an undo
entry of every cell. Each line is a separate `lefence replay`. The runs take turns, and the least of each figure is
printed; memory also relative to the DEF text.
"""

from __future__ import annotations

import argparse
import os
import subprocess
import sys
import tempfile
from pathlib import Path

from memory import TOP, teams_of

# Peak memory in bytes, and processor seconds.
Figures = tuple[float, float]


def replay(program: str, words: list[Path | str], lines: str) -> Figures:
    """The figures of one replay of these lines. Each line must be accepted."""
    with tempfile.TemporaryFile() as source, tempfile.TemporaryFile() as replies:
        source.write(lines.encode())
        source.seek(0)
        child = subprocess.Popen([program, "replay", *words], stdin=source, stdout=replies)
        _, status, usage = os.wait4(child.pid, 0)
        replies.seek(0)
        refused = [reply for reply in replies if not reply.startswith(b"ok")]
        if status != 0 or refused:
            sys.exit(f"replay: status {os.waitstatus_to_exitcode(status)}: {refused[:1]}")
    return usage.ru_maxrss * 1024, usage.ru_utime + usage.ru_stime


def stages(program: str, folder: Path, design: Path, lef: Path) -> dict[str, Figures]:
    """The figures of each stage."""
    teams = teams_of(design)
    lines = "".join(f"open {team}\ntidy {team} 0\n" for team in teams)
    lines += "".join(f"commit {team} 0\n" for team in teams[:-1])
    texts: list[Path | str] = [design, lef]
    state, again = folder / "x.state", folder / "again.state"
    found = {"start": replay(program, texts, ""), "session": replay(program, texts, lines)}
    found["session, saved"] = replay(program, [*texts, "--save", state], lines)
    found["start with the state"] = replay(program, [*texts, "--state", state], "")
    found["the same, saved again"] = replay(program, [*texts, "--state", state, "--save", again], "")
    if state.read_bytes() != again.read_bytes():
        sys.exit("what was restored is not what was saved")
    return found


def main() -> None:
    words = argparse.ArgumentParser()
    words.add_argument("--program", default=str(TOP / "crates/lefence/out/lefence"))
    words.add_argument("--runs", type=int, default=3)
    words.add_argument("count", type=int, nargs="?", default=1_000_000)
    given = words.parse_args()
    with tempfile.TemporaryDirectory(prefix="bench") as name:
        folder = Path(name)
        design, lef = folder / "x.def", folder / "x.lef"
        generate = [sys.executable, str(TOP / "bench/generate.py")]
        lef.write_bytes(subprocess.run([*generate, "tall"], stdout=subprocess.PIPE, check=True).stdout)
        with design.open("wb") as out:
            subprocess.run([*generate, "packed", str(given.count), "10", "60", "100"], stdout=out, check=True)
        runs = [stages(given.program, folder, design, lef) for _ in range(given.runs)]
        size = design.stat().st_size
        print(f"a DEF text of {size / 1e6:.1f} MB, a state text of {(folder / 'x.state').stat().st_size / 1e6:.1f} MB")
        for stage in runs[0]:
            peak, seconds = (min(run[stage][at] for run in runs) for at in (0, 1))
            print(f"{stage:>22} {peak / 1e6:8.1f} MB {peak / size:5.2f} x {seconds:6.2f} s")


if __name__ == "__main__":
    main()
