#!/usr/bin/env python3
"""Checks fully legal designs of growing size with the proved program, and prints seconds, peak memory and how they
grow.

usage: bench/check.py [RUNS]    (5; from the top; the program crates/lefence is proved and built first: rt run there)

`check` is everything that `lefence check` does: reading both texts, loading, and the report. `replay` is `lefence
replay` without lines, which omits the report and includes the start of the floor. Every cell is placed within its
fence, so the report of a design has no violation. The designs take turns, run after run, and the best of each design's
runs is printed. The peak is never below that of this Python, about 15 MB.
"""

from __future__ import annotations

import os
import subprocess
import sys
import tempfile
import time
from functools import partial

from load import LEFENCE, Figures, best, grown, need, write

COUNTS = 10_000, 100_000, 1_000_000
DESIGNS = ((10, 0), (500, 10_000))


def run(task: str, lef: str, def_: str) -> tuple[float, int, str]:
    """Seconds of the subcommand, its peak memory in bytes, and what it wrote."""
    start = time.perf_counter()
    child = subprocess.Popen([LEFENCE, task, def_, lef], stdin=subprocess.DEVNULL, stdout=subprocess.PIPE)
    assert child.stdout
    out = child.stdout.read()
    _, status, usage = os.wait4(child.pid, 0)
    if status != 0:
        sys.exit(f"{task}: status {os.waitstatus_to_exitcode(status)}: {out[:200].decode()}")
    return time.perf_counter() - start, usage.ru_maxrss * 1024, out.decode()


def figures(lef: str, def_: str, count: int) -> Figures:
    seconds, peak, output = run("check", lef, def_)
    if output != f'{{"cells":{count},"unplaced":0,"violations":[]}}\n':
        sys.exit(f"check: {output[:200]}")
    return seconds, peak, run("replay", lef, def_)[0]


def main() -> None:
    runs = int(sys.argv[1]) if len(sys.argv) > 1 else 5
    need(LEFENCE)
    print(
        f"{'fences':>7} {'obstacles':>10} {'components':>11} {'check s':>9} {'times':>6} {'peak MB':>8} {'times':>6}"
        f" {'replay s':>9} {'times':>6}"
    )
    with tempfile.TemporaryDirectory() as folder:
        lef = os.path.join(folder, "x.lef")
        write(lef, "lef", 200)
        for fences, obstacles in DESIGNS:
            texts = [(os.path.join(folder, f"{fences}_{count}.def"), count) for count in COUNTS]
            for text, count in texts:
                write(text, "placed", count, fences, obstacles)
            before: Figures | None = None
            for count, now in zip(COUNTS, best([partial(figures, lef, text, cells) for text, cells in texts], runs)):
                seconds, peak, replayed = now
                times = grown(before, now)
                print(
                    f"{fences:>7} {obstacles:>10} {count:>11} {seconds:9.3f} {times[0]:>6} {peak / 1e6:8.1f}"
                    f" {times[1]:>6} {replayed:9.3f} {times[2]:>6}",
                    flush=True,
                )
                before = now


if __name__ == "__main__":
    main()
