#!/usr/bin/env python3
"""Prints the peak memory and the processor seconds of each stage of a session, and of `lefence check`.

usage: bench/memory.py [--program PATH ...] [--runs N] [--design DEF LEF] [COUNT]
       (that of crates/lefence, which is built first: rt run there; 1; the designs below; 1000000)

Without --design the designs are those of `generate.py packed`, COUNT cells in 10 fences that take 60 percent of the
sites: `legal`, and `illegal`, whose cells are all half a site off their places. The session is one of `lefence serve
--export`. It opens all teams. Then it checks each, writes it as a DEF text, tidies and commits it, verb after verb. The
export comes last.

A stage's peak is the greatest resident memory during it (Linux, VmHWM, which is reset at its start). It is printed in
MB of 10^6 bytes and relative to the DEF text. The peak of `check` is that of its whole run. Over several runs, in which
the programs take turns, the least is printed.
"""

from __future__ import annotations

import argparse
import os
import re
import socket
import subprocess
import sys
import tempfile
from collections.abc import Iterator
from pathlib import Path
from typing import BinaryIO

TOP = Path(__file__).resolve().parents[1]
TICK = 1 / os.sysconf("SC_CLK_TCK")
VERBS = "check", "def", "tidy", "commit"
# For each stage the peak in bytes, and the seconds.
Figures = dict[str, tuple[float, float]]


class Watch:
    """The memory and time of a running program, stage by stage."""

    def __init__(self, pid: int) -> None:
        self.folder = Path("/proc", str(pid))
        self.used = 0.0
        self.figures: Figures = {}

    def end(self, stage: str) -> None:
        """Records the figures of the stage that ends here, and begins the next."""
        status = (self.folder / "status").read_text()
        peak = re.search(r"VmHWM:\s+(\d+) kB", status)
        fields = (self.folder / "stat").read_text().rpartition(")")[2].split()
        used = (int(fields[11]) + int(fields[12])) * TICK
        if peak is None:
            sys.exit(f"the program ended in {stage}")
        self.figures[stage] = int(peak[1]) * 1024, used - self.used
        self.used = used
        (self.folder / "clear_refs").write_text("5")


def free_port() -> int:
    with socket.socket() as free:
        free.bind(("127.0.0.1", 0))
        return int(free.getsockname()[1])


def ask(send: socket.socket, replies: BinaryIO, line: str) -> None:
    """Sends a line and reads its reply, with the bytes of a DEF text after it."""
    send.sendall(line.encode() + b"\n")
    head = replies.readline()
    if not head.startswith(b"ok"):
        sys.exit(f"{line}: {head[:100].decode()}")
    if line.startswith("def "):
        replies.read(int(head.split()[1]))


def session(program: str, design: Path, lef: Path, folder: Path, teams: list[str]) -> Figures:
    """The figures of one session."""
    port = free_port()
    words = [
        program, "serve", str(design), str(lef), "--port", str(port), "--connections", "1", "--export",
        str(folder / "new.def"),
    ]
    child = subprocess.Popen(words, stdout=subprocess.PIPE)
    assert child.stdout is not None
    if child.stdout.readline() != b"listening\n":
        sys.exit("serve: not listening")
    watch = Watch(child.pid)
    watch.end("start")
    with socket.create_connection(("127.0.0.1", port)) as client, client.makefile("rb") as replies:
        for team in teams:
            ask(client, replies, f"open {team}")
        watch.end("open")
        for verb in VERBS:
            for team in teams:
                ask(client, replies, f"{verb} {team} 0")
            watch.end(verb)
    _, status, usage = os.wait4(child.pid, 0)
    if status != 0:
        sys.exit(f"serve: status {os.waitstatus_to_exitcode(status)}")
    watch.figures["export"] = usage.ru_maxrss * 1024, usage.ru_utime + usage.ru_stime - watch.used
    return watch.figures


def checked(program: str, design: Path, lef: Path) -> Figures:
    """The figures of `lefence check`."""
    child = subprocess.Popen([program, "check", design, lef], stdout=subprocess.DEVNULL)
    _, status, usage = os.wait4(child.pid, 0)
    if os.waitstatus_to_exitcode(status) not in (0, 4):
        sys.exit(f"check: status {os.waitstatus_to_exitcode(status)}")
    return {"lefence check": (usage.ru_maxrss * 1024, usage.ru_utime + usage.ru_stime)}


def teams_of(design: Path) -> list[str]:
    """The names of the fences, and the ground team."""
    with design.open() as text:
        return [*(line.split()[1] for line in text if line.startswith("- ") and " TYPE FENCE" in line), "-"]


def designs(folder: Path, count: int) -> Iterator[tuple[str, Path, Path]]:
    generate = [sys.executable, str(TOP / "bench/generate.py")]
    lef = folder / "x.lef"
    lef.write_bytes(subprocess.run([*generate, "tall"], stdout=subprocess.PIPE, check=True).stdout)
    for kind, illegal in (("legal", 0), ("illegal", 100)):
        design = folder / f"{kind}.def"
        with design.open("wb") as out:
            subprocess.run([*generate, "packed", str(count), "10", "60", str(illegal)], stdout=out, check=True)
        yield kind, design, lef


def least(found: list[Figures]) -> Figures:
    return {stage: (min(f[stage][0] for f in found), min(f[stage][1] for f in found)) for stage in found[0]}


def show(kind: str, design: Path, programs: list[str], figures: list[Figures]) -> None:
    size = design.stat().st_size
    print(f"{kind}: a DEF text of {size / 1e6:.1f} MB, {', '.join(programs)}")
    for stage in figures[0]:
        print(f"  {stage:>13}", end="")
        for found in figures:
            peak, seconds = found[stage]
            print(f" {peak / 1e6:8.1f} MB {peak / size:5.2f} x {seconds:6.2f} s", end="")
        print(flush=True)


def main() -> int:
    words = argparse.ArgumentParser()
    words.add_argument("--program", action="append")
    words.add_argument("--runs", type=int, default=1)
    words.add_argument("--design", type=Path, nargs=2)
    words.add_argument("count", type=int, nargs="?", default=1_000_000)
    given = words.parse_args()
    programs = given.program or [os.environ.get("LEFENCE", str(TOP / "crates/lefence/out/lefence"))]
    with tempfile.TemporaryDirectory() as name:
        folder = Path(name)
        named = [(given.design[0].name, *given.design)] if given.design else designs(folder, given.count)
        for kind, design, lef in named:
            found: list[list[Figures]] = [[] for _ in programs]
            for _ in range(given.runs):
                for program, runs in zip(programs, found):
                    runs.append(session(program, design, lef, folder, teams_of(design)) | checked(program, design, lef))
            show(kind, design, programs, [least(runs) for runs in found])
    return 0


if __name__ == "__main__":
    sys.exit(main())
