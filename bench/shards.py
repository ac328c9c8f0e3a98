#!/usr/bin/env python3
"""Prints what several programs of a hub are worth: how long a durable `place` of one team takes while others send
whole-team commands without pause, and how long four teams' whole-team commands take at once.

usage: bench/shards.py [SECONDS [CELLS [PROGRAM]]]    (5 seconds for each figure, 200,000 cells; the proved program)

The designs are those of `generate.py packed`. In the first, half of CELLS cells are in 16 fences and half in the
ground team. One client of a fence flips its cells, one `place` at a time, as in `fairness.py`: alone, and then while
clients of the ground team send `tidy`, `check`, `def` and `commit`. In the second, with the cells of four fences alone,
CELLS / 8 each, four clients send these commands one after the other, and then at once, as often with one program as
with four. Then each program has a team.
The processor seconds show what the wall time is spent on: those of a program grow if the processors share a cache or a
core, and side programs, which make states meanwhile, take a processor from the others.
"""

from __future__ import annotations

import os
import sys
import tempfile
import threading
import time
from collections.abc import Callable
from pathlib import Path

from fairness import VERBS, flood, ground_client, options_of, places
from front import FENCES, Hub, clear, quantiles
from hub import Turns, children, generated

# The numbers of programs that are compared.
COUNTS = ("1", "4")


def write_design(folder: Path, cells: str, fences: int) -> str:
    """Writes a design with this number of fences; returns its DEF text."""
    text = generated("packed", cells, str(fences), "60", "0")
    (folder / "t.def").write_bytes(text)
    (folder / "t.lef").write_bytes(generated("tall"))
    return text.decode()


def without_ground_cells(text: str) -> str:
    """A design without the cells of the ground team, so that its teams with cells are those of the fences."""
    lines = text.splitlines(keepends=True)
    names = {name for line in lines if line.startswith("- g") for name in line.split()[2:]}
    return "".join(line for line in lines if not line.startswith("- u") or line.split()[1] in names)


def measure_waits(folder: Path, program: str, turns: Turns, seconds: float) -> None:
    """Prints the waits of one client alone and while others flood."""
    for count in COUNTS:
        clear(folder)
        hub = Hub(folder, program, "--programs", count)
        print(f"{count} programs: start {hub.seconds:.1f} s", flush=True)
        owner = ground_client(hub)
        owner.sendall(b"open -\n")
        owner.recv(100)
        stopped, floods = threading.Event(), list[threading.Thread]()
        for wanted in (0, 1, 8):
            for at in range(len(floods), wanted):
                words = (ground_client(hub), VERBS[at % 4 :] + VERBS[: at % 4], stopped)
                floods.append(threading.Thread(target=flood, args=words, daemon=True))
                floods[-1].start()
            time.sleep(1)
            waits = places(hub, turns, seconds)
            most = f"most {max(waits) * 1000:.0f} ms"
            print(f"  {wanted} clients of another team: {quantiles(waits)}, {most}", flush=True)
        stopped.set()
        for each in floods:
            each.join()
        hub.end()
        owner.close()


def send_rounds(hub: Hub, team: int, rounds: int) -> None:
    """Sends whole-team commands of a team, each when it has the reply to the one before."""
    with hub.client(team) as end:
        replies = end.makefile("rb")
        for verb in VERBS * rounds:
            end.sendall(b"%b f%d 0\n" % (verb, team))
            words = replies.readline().split()
            if words[0] != b"ok":
                sys.exit(f"{verb.decode()} was refused")
            if verb == b"def":
                replies.read(int(words[1]))


def processor_seconds(pid: int) -> tuple[float, float]:
    """The processor seconds of a process, and of its children that have ended."""
    fields = Path(f"/proc/{pid}/stat").read_text().rpartition(")")[2].split()
    own, ended = (sum(map(int, fields[at : at + 2])) / os.sysconf("SC_CLK_TCK") for at in (11, 13))
    return own, ended


def measured(hub: Hub, programs: list[int], step: Callable[[], None]) -> tuple[float, str]:
    """The seconds that a step takes, and the processor seconds of the hub, its programs, and side programs in it."""

    def used() -> list[float]:
        own, ended = processor_seconds(hub.process.pid)
        return [own, sum(processor_seconds(pid)[0] for pid in programs), ended]

    before, begin = used(), time.monotonic()
    step()
    seconds = time.monotonic() - begin
    own, served, ended = (last - first for first, last in zip(before, used()))
    return seconds, f"processor seconds: hub {own:.1f}, programs {served:.1f}, ended side programs {ended:.1f}"


def send_at_once(hub: Hub, rounds: int) -> None:
    """Sends the commands of four teams at once."""
    threads = [threading.Thread(target=send_rounds, args=(hub, team, rounds)) for team in range(4)]
    for thread in threads:
        thread.start()
    for thread in threads:
        thread.join()


def send_one_by_one(hub: Hub, rounds: int) -> None:
    """Sends the commands of four teams, one team after the other."""
    for team in range(4):
        send_rounds(hub, team, rounds)


def measure_at_once(folder: Path, program: str, seconds: float) -> None:
    """Prints how long the commands of four teams take one after the other and at once."""
    rounds = 0
    for count in COUNTS:
        clear(folder)
        hub = Hub(folder, program, "--programs", count, fences=4)
        programs = children(hub.process.pid)
        begin = time.monotonic()
        send_one_by_one(hub, 1)
        # (the same number for each count of programs)
        rounds = rounds or max(1, int(4 * seconds / (time.monotonic() - begin)))
        one_by_one, one_by_one_text = measured(hub, programs, lambda: send_one_by_one(hub, rounds))
        at_once, at_once_text = measured(hub, programs, lambda: send_at_once(hub, rounds))
        print(f"{count} programs, {rounds} rounds: {at_once / one_by_one:.2f} of the time one by one", flush=True)
        print(f"  one by one {one_by_one:.1f} s; {one_by_one_text}", flush=True)
        print(f"  at once {at_once:.1f} s; {at_once_text}", flush=True)
        hub.end()


def main(words: list[str]) -> int:
    seconds, cells, program = options_of(words)
    with tempfile.TemporaryDirectory(dir=".") as name:
        folder = Path(name).resolve()
        measure_waits(folder, program, Turns(write_design(folder, cells, FENCES)), seconds)
        (folder / "t.def").write_text(without_ground_cells(write_design(folder, cells, 4)))
        measure_at_once(folder, program, seconds)
    return 0


if __name__ == "__main__":
    sys.exit(main(sys.argv[1:]))
