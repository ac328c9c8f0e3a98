#!/usr/bin/env python3
"""Proves and builds the program crates/lefence/out/lefence. As each crate ends, prints a line on standard error that
says how much remains.

usage: tools/build.py

It runs the gate's own command, `rt ci`, on a copy of the program's crates without their must-fail edits. Crates that do
not depend on each other are proved in parallel. A kit from rattle-kit-13f on keeps proofs on the machine, by checksums,
for the next build and for ./test. An interrupted build then continues where it stopped; with an older kit it starts
again. The log is crates/lefence/out/build.log. The status is 0 if the program was built.
"""

from __future__ import annotations

import os
import re
import shutil
import subprocess
import sys
import tempfile
import time
from collections.abc import Iterator
from pathlib import Path

from jobs import parallel_checks
from libraries import below, lines_of

TOP = Path(__file__).resolve().parent.parent
PROGRAM = Path("crates/lefence/out/lefence")
LOG = TOP / "crates/lefence/out/build.log"
# Folders that are not copied.
UNREAD = shutil.ignore_patterns("out", "must-fail", "mutants")
# A crate's row in tools/minutes.txt: its name and the processor minutes of its proof.
ROW = re.compile(r"^(l(?:f_|efence)\w*) +(\d+\.\d+)\b", re.MULTILINE)
# The line of rt at the end of a crate's proof, in this run or an earlier one.
ENDED = re.compile(r"^rt: ([a-z_]+) (proved$|is kept)")


def lay_out(copy: Path, crates: list[str], listed: dict[str, list[str]]) -> None:
    """Makes a repository of these crates alone."""
    copy.mkdir()
    for crate in crates:
        shutil.copytree(TOP / "crates" / crate, copy / "crates" / crate, ignore=UNREAD)
    (copy / "crates.txt").write_text(
        "".join(f"{crate}: {' '.join(listed[crate])}\n" for crate in crates), encoding="utf-8"
    )
    shutil.copy(TOP / "HANDLES", copy)


def lines_of_build(copy: Path, files: Path) -> Iterator[str]:
    """Yields the lines that rt prints, and writes each to the log too. The last line is its status. `files` is the
    folder for temporary files."""
    with open(LOG, "w", encoding="utf-8") as log:
        build = subprocess.Popen(
            ["rt", "ci"],
            cwd=copy,
            env={"RT_JOBS": str(parallel_checks()), **os.environ, "TMPDIR": str(files)},
            stdin=subprocess.DEVNULL,
            stdout=subprocess.PIPE,
            stderr=subprocess.STDOUT,
            text=True,
            errors="replace",
        )
        try:
            for line in build.stdout or ():
                log.write(line)
                log.flush()
                yield line
            yield f"status {build.wait()}"
        finally:
            build.terminate()
            build.wait()


def is_proved(copy: Path, files: Path, crates: list[str]) -> bool:
    """Proves the crates in the copy, and prints what remains as each ends. Returns whether all are proved and the
    program ran."""
    table = (TOP / "tools/minutes.txt").read_text(encoding="utf-8")
    minutes = {name: float(number) for name, number in ROW.findall(table)}
    left, done, since, status = list(crates), 0.0, time.monotonic(), ""
    for status in lines_of_build(copy, files):
        ended = ENDED.match(status)
        if ended and ended[1] in left:
            left.remove(ended[1])
            done += minutes.get(ended[1], 1.0) if ended[2] == "proved" else 0.0
            # (in proportion to the time so far, by the table)
            rate = (time.monotonic() - since) / 60 / done if done else 1.0
            some = rate * sum(minutes.get(it, 1.0) for it in left)
            print(
                f"lefence: {ended[1]} is proved; {len(left)} crates are left, some {some:.0f} minutes", file=sys.stderr
            )
    return status == "status 0"


def main() -> int:
    listing = (TOP / "crates.txt").read_text(encoding="utf-8")
    crates = below(["lefence"], listing)
    LOG.parent.mkdir(parents=True, exist_ok=True)
    print(f"lefence: proving and building {len(crates)} crates, the log is {LOG}", file=sys.stderr)
    with tempfile.TemporaryDirectory(prefix="lefence-build-") as folder:
        # (files of killed provers are removed with the folder; rt runs programs as nobody, who needs access to it)
        copy, files = Path(folder) / "tree", Path(folder) / "files"
        Path(folder).chmod(0o711)
        files.mkdir(mode=0o711)
        lay_out(copy, crates, lines_of(listing))
        if is_proved(copy, files, crates) and (copy / PROGRAM).is_file():
            # (complete or not at all, even if the build is interrupted here)
            made = TOP / f"{PROGRAM}.made"
            shutil.copy(copy / PROGRAM, made)
            made.replace(TOP / PROGRAM)
            return 0
    print(LOG.read_text(encoding="utf-8", errors="replace")[-4000:], file=sys.stderr)
    print("lefence: the program is not proved, so it is not built", file=sys.stderr)
    return 1


if __name__ == "__main__":
    try:
        sys.exit(main())
    except KeyboardInterrupt:
        print("lefence: interrupted; what the kit keeps of what is proved the next build takes over", file=sys.stderr)
        sys.exit(130)
