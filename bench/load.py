#!/usr/bin/env python3
"""Loads designs of growing size with the proved programs, and prints seconds, peak memory and how they grow.

usage: bench/load.py [FENCES] [ROWS] [RUNS]    (500, 10000 and 5; from the top; the programs crates/lefence_bench and
                                                crates/lefence are proved and built first: rt run in each)

The groups of `def` and `placed` name their cells one by one, at even steps and in no particular order. Those of
`starred` have one pattern each, which ends with a star. `load` is loading alone, from texts in memory. `replay` is
everything that `lefence replay` does before the first reply: reading both texts, loading, and the start of the floor.
The designs take turns, run after run, and the best of each design's runs is printed: other work on a machine makes a
run slower, and nothing makes it faster.
"""

from __future__ import annotations

import os
import subprocess
import sys
import tempfile
import time
from collections.abc import Callable, Sequence
from functools import partial

from read import PROGRAM, TOP

LEFENCE = os.path.join(TOP, "crates", "lefence", "out", "lefence")
# The figures of a run: seconds, and bytes of memory.
Figures = tuple[float, ...]


def need(program: str) -> None:
    """Ends the script if the program is not built."""
    if not os.access(program, os.X_OK):
        sys.exit(f"build it first: (cd {os.path.dirname(os.path.dirname(program))} && rt run)")


def write(path: str, *words: str | int) -> None:
    with open(path, "wb") as out:
        subprocess.run(
            [sys.executable, os.path.join(TOP, "bench", "generate.py"), *map(str, words)], stdout=out, check=True
        )


def load(lef: str, def_: str) -> tuple[float, int, str]:
    """Seconds of loading, the peak memory in bytes, and what was loaded."""
    child = subprocess.Popen([PROGRAM, "load", lef, def_], stdout=subprocess.PIPE, stderr=subprocess.PIPE)
    assert child.stdout and child.stderr
    out, err = child.stdout.read(), child.stderr.read()
    _, status, usage = os.wait4(child.pid, 0)
    if status != 0:
        sys.exit(f"load: {out.decode()}{err.decode()}")
    return int(err.split()[0]) / 1e9, usage.ru_maxrss * 1024, out.decode().strip()


def replay(lef: str, def_: str) -> tuple[float, int]:
    """Seconds of `lefence replay` without a line, and its peak memory in bytes."""
    start = time.perf_counter()
    child = subprocess.Popen([LEFENCE, "replay", def_, lef], stdin=subprocess.DEVNULL)
    _, status, usage = os.wait4(child.pid, 0)
    if status != 0:
        sys.exit("replay")
    return time.perf_counter() - start, usage.ru_maxrss * 1024


def best(tasks: Sequence[Callable[[], Figures]], runs: int) -> list[Figures]:
    """The best figures of each task over `runs` runs, in which the tasks take turns."""
    found = [task() for task in tasks]
    for _ in range(runs - 1):
        found = [tuple(map(min, zip(old, task()))) for old, task in zip(found, tasks)]
    return found


def grown(before: Sequence[float] | None, now: Sequence[float]) -> list[str]:
    """The ratio of each figure to the one before; empty if there is no earlier figure."""
    return [f"{new / old:.1f}" for new, old in zip(now, before)] if before else [""] * len(now)


def figures(lef: str, def_: str) -> Figures:
    seconds, _, _ = load(lef, def_)
    return seconds, *replay(lef, def_)


def main() -> None:
    words = [int(word) for word in sys.argv[1:]]
    fences, rows, runs = words + [500, 10_000, 5][len(words):]
    for program in (PROGRAM, LEFENCE):
        need(program)
    print(
        f"{'design':>7} {'components':>10} {'DEF MB':>7} {'load s':>8} {'times':>6} {'replay s':>9} {'times':>6}"
        f" {'peak MB':>8} {'times':>6}"
    )
    with tempfile.TemporaryDirectory() as folder:
        lef = os.path.join(folder, "x.lef")
        write(lef, "lef", 200)
        for design, more in (("def", rows), ("placed", 0), ("starred", rows)):
            counts = 10_000, 100_000, 1_000_000
            texts = [os.path.join(folder, f"{design}{count}.def") for count in counts]
            for count, text in zip(counts, texts):
                write(text, design, count, fences, more)
            before: Figures | None = None
            for count, text, now in zip(counts, texts, best([partial(figures, lef, text) for text in texts], runs)):
                seconds, whole, peak = now
                times = grown(before, now)
                print(
                    f"{design:>7} {count:>10} {os.path.getsize(text) / 1e6:7.1f} {seconds:8.3f} {times[0]:>6}"
                    f" {whole:9.3f} {times[1]:>6} {peak / 1e6:8.1f} {times[2]:>6}",
                    flush=True,
                )
                before = now


if __name__ == "__main__":
    main()
