#!/usr/bin/env python3
"""Exports fully legal designs of growing size after a tenth of the cells changed, and prints seconds and peak memory.

usage: bench/export.py [RUNS]    (5; from the top; the program crates/lefence is proved and built first: rt run there)

In the designs of `generate.py placed` every fifth cell of each fence is flipped in place: N and FN, FS and S are
exchanged. That is a tenth of all cells or a little less. Each fence is then committed. `export` is the additional time
of `lefence replay --export` over the same replay without the option. `cp` is a copy of the exported file. The runs take
turns, and the best of each is printed. The exported text is compared with the one that this script makes.
"""

from __future__ import annotations

import os
import subprocess
import sys
import tempfile
import time

from load import LEFENCE, Figures, best, grown, need, write

COUNTS = 10_000, 100_000, 1_000_000
TURNED = {"N": "FN", "FN": "N", "FS": "S", "S": "FS"}


def session(def_: str) -> tuple[str, str]:
    """The lines that flip every fifth cell of each fence and commit it, and the expected exported text."""
    with open(def_) as text:
        entries = text.read().split("\n")
    at = {entry.split()[1]: i for i, entry in enumerate(entries) if " + PLACED " in entry}
    lines = []
    for entry in entries:
        words = entry.split()
        if "REGION" not in words or words[0] != "-":
            continue
        fence, members = words[-2], [word for word in words[2:] if word in at]
        lines.append(f"open {fence}")
        for name in members[::5]:
            before = entries[at[name]].split()
            x, y, turned = before[-5], before[-4], TURNED[before[-2]]
            lines.append(f"place {fence} 0 {name} {x} {y} {turned}")
            entries[at[name]] = entries[at[name]][: -len(before[-2]) - 2] + f"{turned} ;"
        lines.append(f"commit {fence} 0")
    return "\n".join(lines) + "\n", "\n".join(entries)


def replay(lef: str, def_: str, lines: str, *words: str) -> tuple[float, int]:
    """Seconds of the replay, and its peak memory in bytes."""
    with open(lines) as source:
        start = time.perf_counter()
        child = subprocess.Popen([LEFENCE, "replay", def_, lef, *words], stdin=source, stdout=subprocess.PIPE)
        assert child.stdout
        out = child.stdout.read()
        _, status, usage = os.wait4(child.pid, 0)
    if status != 0 or b"no" in out:
        sys.exit(f"replay: status {os.waitstatus_to_exitcode(status)}: {out[:200].decode()}")
    return time.perf_counter() - start, usage.ru_maxrss * 1024


def copied(source: str, target: str) -> float:
    start = time.perf_counter()
    subprocess.run(["cp", source, target], check=True)
    return time.perf_counter() - start


def figures(lef: str, def_: str, lines: str, new: str, wanted: str) -> Figures:
    plain, _ = replay(lef, def_, lines)
    whole, peak = replay(lef, def_, lines, "--export", new)
    with open(new) as text:
        if text.read() != wanted:
            sys.exit("export: another text than expected")
    return plain, whole, copied(new, new + ".copy"), peak


def main() -> None:
    runs = int(sys.argv[1]) if len(sys.argv) > 1 else 5
    need(LEFENCE)
    print(f"{'components':>11} {'DEF MB':>7} {'replay s':>9} {'export s':>9} {'times':>6} {'cp s':>7} {'peak MB':>8}")
    with tempfile.TemporaryDirectory() as folder:
        lef = os.path.join(folder, "x.lef")
        write(lef, "lef", 200)
        before: list[float] | None = None
        for count in COUNTS:
            def_, lines, new = (os.path.join(folder, name) for name in ("x.def", "lines", "new.def"))
            write(def_, "placed", count, max(10, count // 2_000))
            commands, wanted = session(def_)
            with open(lines, "w") as out:
                out.write(commands)
            plain, whole, copy, peak = best([lambda: figures(lef, def_, lines, new, wanted)], runs)[0]
            now = [max(whole - plain, 1e-6)]
            times = grown(before, now)
            size = os.path.getsize(def_) / 1e6
            cost = f"{plain:9.3f} {now[0]:9.3f} {times[0]:>6} {copy:7.3f} {peak / 1e6:8.1f}"
            print(f"{count:>11} {size:7.1f} {cost}", flush=True)
            before = now


if __name__ == "__main__":
    main()
