#!/usr/bin/env python3
"""Reads LEF and DEF texts of growing size with the proved program, and prints bytes per second and peak memory.

usage: bench/read.py      (from the top; the program crates/lefence_bench is proved and built first: rt run there)

For comparison, the same run measures `bytes.split` of this Python over the same bytes, and KLayout's reader if it is
installed.
"""

from __future__ import annotations

import os
import subprocess
import sys
import tempfile

TOP = os.path.dirname(os.path.dirname(os.path.abspath(__file__)))
PROGRAM = os.path.join(TOP, "crates", "lefence_bench", "out", "lefence_bench")


def write(path: str, kind: str, count: int) -> None:
    with open(path, "wb") as out:
        subprocess.run(
            [sys.executable, os.path.join(TOP, "bench", "generate.py"), kind, str(count)], stdout=out, check=True
        )


def generated(folder: str, kind: str, count: int) -> str:
    # a folder for each text, since KLayout also reads the LEF files next to a DEF file
    own = os.path.join(folder, f"{kind}{count}")
    os.makedirs(own)
    path = os.path.join(own, f"text.{kind}")
    write(path, kind, count)
    if kind == "def":
        write(os.path.join(own, "macros.lef"), "lef", 200)
    return path


def run(task: str, path: str) -> tuple[float, int]:
    """Seconds that the program measured for the task, and its peak memory in bytes."""
    child = subprocess.Popen([PROGRAM, task, path], stdout=subprocess.PIPE, stderr=subprocess.PIPE)
    assert child.stdout and child.stderr
    out, err = child.stdout.read(), child.stderr.read()
    _, status, usage = os.wait4(child.pid, 0)
    if status != 0:
        sys.exit(f"{task} {path}: {out.decode()}{err.decode()}")
    return int(err.split()[0]) / 1e9, usage.ru_maxrss * 1024


def split_seconds(path: str) -> float:
    # in a separate process: a child's peak memory begins with its parent's
    script = "import sys,time;data=open(sys.argv[1],'rb').read();t=time.perf_counter();data.split();"
    script += "print(time.perf_counter()-t)"
    return float(subprocess.run([sys.executable, "-c", script, path], capture_output=True, check=True).stdout)


def klayout_seconds(path: str) -> float | None:
    script = "import pya,time;o=pya.LoadLayoutOptions();t=time.perf_counter();pya.Layout().read('%s',o);" % path
    script += "print(time.perf_counter()-t)"
    with tempfile.NamedTemporaryFile("w", suffix=".py") as file:
        file.write(script)
        file.flush()
        try:
            done = subprocess.run(["klayout", "-b", "-r", file.name], capture_output=True, check=True)
            return float(done.stdout.split()[-1])
        except (OSError, subprocess.CalledProcessError, ValueError, IndexError):
            return None


def main() -> None:
    if not os.access(PROGRAM, os.X_OK):
        sys.exit("build it first: (cd crates/lefence_bench && rt run)")
    print(
        f"{'text':>14} {'MB':>7} {'lex MB/s':>9} {'read MB/s':>10} {'split MB/s':>11} {'klayout MB/s':>13}"
        f" {'peak / text':>12}"
    )
    with tempfile.TemporaryDirectory() as folder:
        for kind, counts in (("lef", (1_000, 10_000, 100_000)), ("def", (10_000, 100_000, 1_000_000))):
            for count in counts:
                path = generated(folder, kind, count)
                size = os.path.getsize(path)
                lex, _ = run("lex", path)
                read, peak = run(kind, path)
                klayout = klayout_seconds(path)
                taken = (lex, read, split_seconds(path), klayout)
                row = [f"{size / 1e6 / seconds:.0f}" if seconds else "none" for seconds in taken]
                rates = f"{row[0]:>9} {row[1]:>10} {row[2]:>11} {row[3]:>13}"
                print(f"{count:>10} {kind} {size / 1e6:7.1f} {rates} {peak / size:12.1f}")


if __name__ == "__main__":
    main()
