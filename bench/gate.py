#!/usr/bin/env python3
"""Prints the processor minutes of a command, crate by crate: the table of tools/minutes.txt.

usage: bench/gate.py ./test        (from the top; any command that runs rattle will do)

Each second it reads the times of all running checks from /proc. A check with --test proves a crate's tests. One in a
folder rt-edit-* tries an edit, and one that keeps its work in a folder rt-edits-* prepares the edits. Any other check
proves the crate.
"""

from __future__ import annotations

import os
import subprocess
import sys
import time
from collections import defaultdict
from pathlib import Path

TICKS = os.sysconf("SC_CLK_TCK")
KINDS = ("proof", "tests", "edits")


def kind_of(process: Path, words: list[str]) -> str:
    if "--test" in words:
        return "tests"
    is_edit = "rt-edit" in os.readlink(process / "cwd") or any("rt-edits-" in it for it in words)
    return "edits" if is_edit else "proof"


def below(root: int) -> list[tuple[Path, list[str]]]:
    """The processes that process `root` started, directly or indirectly, each with the fields of its state."""
    fields: dict[int, list[str]] = {}
    for process in Path("/proc").glob("[0-9]*"):
        try:
            fields[int(process.name)] = (process / "stat").read_text().rpartition(")")[2].split()
        except OSError:
            continue
    found, seen = [root], [root]
    while found:
        found = [number for number, it in fields.items() if int(it[1]) in found]
        seen += found
    return [(Path(f"/proc/{it}"), fields[it]) for it in seen[1:]]


def running(root: int) -> dict[tuple[Path, str], tuple[str, str, float]]:
    """Each running check of the command: its crate, its kind, and the seconds of it and its ended children."""
    found = {}
    for process, fields in below(root):
        try:
            words = (process / "cmdline").read_bytes().decode(errors="replace").split("\0")
            if words[0].endswith("/rattle") and "--crate-name" in words:
                seconds = sum(map(int, fields[11:15])) / TICKS
                crate = words[words.index("--crate-name") + 1]
                found[process, fields[19]] = (crate, kind_of(process, words), seconds)
        except (OSError, IndexError, ValueError):
            continue
    return found


def main(words: list[str]) -> int:
    if not words:
        print(__doc__, file=sys.stderr)
        return 2
    start = time.monotonic()
    checks: dict[tuple[Path, str], tuple[str, str, float]] = {}
    command = subprocess.Popen(words)
    while command.poll() is None:
        checks |= running(command.pid)
        time.sleep(1)
    taken: dict[str, dict[str, float]] = defaultdict(lambda: dict.fromkeys(KINDS, 0.0))
    for crate, kind, seconds in checks.values():
        taken[crate][kind] += seconds / 60
    print("| crate | proof | tests | edits |\n|---|---|---|---|")
    for crate, kinds in taken.items():
        print(f"| {crate} |", " | ".join(f"{kinds[it]:.1f}" for it in KINDS), "|")
    whole = [sum(it[kind] for it in taken.values()) for kind in KINDS]
    print(
        f"{time.monotonic() - start:.0f} s; processor minutes:",
        ", ".join(f"{it} {sum_of:.1f}" for it, sum_of in zip(KINDS, whole)),
    )
    return command.returncode


if __name__ == "__main__":
    sys.exit(main(sys.argv[1:]))
