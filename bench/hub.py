#!/usr/bin/env python3
"""Prints how long a hub takes to start, to restore a program that dies, and to export, after many changes, without and
with checkpoints.

usage: bench/hub.py [CHANGES [CELLS [PROGRAM]]]     (20,000 changes of 10,000 cells; the proved program)

The design is that of `generate.py packed`: CELLS cells, half of them in 16 fences, with 60 percent of the sites taken.
One client of each fence flips its cells one by one, with 64 changes in flight, until all have replies. It then prints
the hub's times, the bytes after its last state, and the peak memory of hub and program. Changes are not synced, so the
disk does not matter. A million changes of 100,000 cells take about five minutes on an idle machine.
"""

from __future__ import annotations

import os
import re
import selectors
import signal
import socket
import subprocess
import sys
import tempfile
import time
from collections.abc import Callable
from pathlib import Path

from front import FENCES, TOP, Hub, clear

FLIGHT = 64
CELL = re.compile(r"^- (\S+) \S+ \+ PLACED \( (\d+) (\d+) \) (N|FS) ;", re.M)
GROUP = re.compile(r"^- g\d+ (.*) \+ REGION f(\d+) ;", re.M)
TURNED = {"N": ("FN", "N"), "FS": ("S", "FS")}


class Turns:
    """The changes of each fence: its cells are flipped, one after the other, and then flipped back."""

    def __init__(self, text: str) -> None:
        cells = {name: (f"{name} {x} {y}", TURNED[orient]) for name, x, y, orient in CELL.findall(text)}
        self.fences = {int(fence): [cells[name] for name in names.split()] for names, fence in GROUP.findall(text)}

    def line(self, fence: int, turn: int) -> bytes:
        cells = self.fences[fence]
        spot, orients = cells[turn % len(cells)]
        return f"place f{fence} 0 {spot} {orients[turn // len(cells) % 2]}\n".encode()

    def look(self) -> bytes:
        """A line that queries a cell of the first fence."""
        return f"where f0 0 {self.fences[0][0][0].split()[0]}\n".encode()


def fill(hub: Hub, turns: Turns, count: int) -> float:
    """Sends this number of changes, the same for each team, and waits for the replies. Returns the seconds."""
    selector, each, begin = selectors.DefaultSelector(), count // FENCES, time.monotonic()
    sent, answered, ends = [0] * FENCES, 0, [hub.client(team) for team in range(FENCES)]

    def send(team: int, more: int) -> None:
        last = min(each, sent[team] + more)
        ends[team].sendall(b"".join(turns.line(team, turn) for turn in range(sent[team], last)))
        sent[team] = last

    for team, end in enumerate(ends):
        selector.register(end, selectors.EVENT_READ, team)
        send(team, FLIGHT)
    while answered < each * FENCES:
        for key, _ in selector.select():
            replies = ends[key.data].recv(1 << 16)
            if b"no " in replies:
                sys.exit(f"answered {replies!r}")
            got = replies.count(b"\n")
            answered += got
            send(key.data, got)
    for end in ends:
        end.close()
    return time.monotonic() - begin


def ask(hub: Hub, name: str, line: bytes) -> float:
    """The seconds until the reply to a line, which must be accepted."""
    begin = time.monotonic()
    with socket.socket(socket.AF_UNIX) as end:
        end.connect(str(hub.folder / "s" / f"{name}.sock"))
        end.sendall(line)
        reply = end.recv(1000)
    if not reply.startswith(b"ok"):
        sys.exit(f"answered {reply!r}")
    return time.monotonic() - begin


def seconds_of(step: Callable[[], object]) -> float:
    begin = time.monotonic()
    step()
    return time.monotonic() - begin


def children(pid: int) -> list[int]:
    return [int(word) for word in Path(f"/proc/{pid}/task/{pid}/children").read_text().split()]


def peaks(hub: Hub) -> str:
    """The peak memory of the hub and its program so far."""
    texts = [Path(f"/proc/{pid}/status").read_text() for pid in (hub.process.pid, children(hub.process.pid)[0])]
    own, program = (int(text.partition("VmHWM:")[2].split()[0]) * 1024 / 1e6 for text in texts)
    return f"hub {own:.0f} MB, program {program:.0f} MB"


def measure(folder: Path, program: str, turns: Turns, count: int, words: list[str]) -> None:
    """Prints the costs after this number of changes, for a hub with these options."""
    clear(folder)
    hub = Hub(folder, program, "--no-sync", *words)
    print(f"  start of a new journal {hub.seconds:.2f} s, {peaks(hub)}", flush=True)
    filled = fill(hub, turns, count)
    # (waits for a running checkpoint)
    last = time.monotonic() + 120
    while len(children(hub.process.pid)) > 1 and time.monotonic() < last:
        time.sleep(0.1)
    tail = (folder / "j").stat().st_size / 1e6
    print(f"  filled in {filled:.1f} s, {peaks(hub)}; the last segment has {tail:.1f} MB", flush=True)
    os.kill(children(hub.process.pid)[0], signal.SIGKILL)
    print(f"  program restored in {ask(hub, 'f0', turns.look()):.2f} s, {peaks(hub)}", flush=True)
    exported = ask(hub, "operator", b"export %b\n" % bytes(folder / "new.def"))
    print(f"  export {exported:.2f} s, {peaks(hub)}", flush=True)
    hub.process.kill()
    hub.process.wait()
    for name in ("start", "start after its end"):
        hub = Hub(folder, program, *words)
        print(f"  {name} {hub.seconds:.2f} s, {peaks(hub)}; end {seconds_of(hub.end):.2f} s", flush=True)


def generated(*words: str) -> bytes:
    return subprocess.run(
        [sys.executable, str(TOP / "bench/generate.py"), *words], stdout=subprocess.PIPE, check=True
    ).stdout


def main(words: list[str]) -> int:
    changes, cells = (int(word) for word in [*words[:2], *("20000", "10000")[len(words[:2]) :]])
    program = words[2] if len(words) > 2 else str(TOP / "crates/lefence/out/lefence")
    with tempfile.TemporaryDirectory(dir=".") as name:
        folder = Path(name).resolve()
        text = generated("packed", str(cells), str(FENCES), "60", "0")
        (folder / "t.def").write_bytes(text)
        (folder / "t.lef").write_bytes(generated("tall"))
        turns = Turns(text.decode())
        for label, options in (("no checkpoints", "--tail-bytes 0"), ("with checkpoints", "")):
            print(f"{changes:,} changes of {cells:,} cells, {label}:", flush=True)
            measure(folder, program, turns, changes, options.split())
    return 0


if __name__ == "__main__":
    sys.exit(main(sys.argv[1:]))
