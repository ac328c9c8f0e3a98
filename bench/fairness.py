#!/usr/bin/env python3
"""Prints how long a durable `place` of one team takes while another team sends whole-team commands without pause.

usage: bench/fairness.py [SECONDS [CELLS [PROGRAM]]]   (5 seconds for each figure, 200,000 cells; the proved program)

The design is that of `generate.py packed`: CELLS cells, half of them in 16 fences and half in the ground team. One
client of a fence flips its cells, one `place` at a time, at most 100 a second, alone and then while clients of the
ground team send `tidy`, `check`, `def` and `commit`, the next one as soon as they have a reply.
"""

from __future__ import annotations

import socket
import sys
import tempfile
import threading
import time
from pathlib import Path

from front import FENCES, TOP, Hub, clear, quantiles
from hub import Turns, generated

VERBS = (b"tidy", b"check", b"def", b"commit")


def ground_client(hub: Hub) -> socket.socket:
    """A client of the ground team."""
    end = socket.socket(socket.AF_UNIX)
    end.connect(str(hub.folder / "s/-.sock"))
    return end


def flood(end: socket.socket, verbs: tuple[bytes, ...], stopped: threading.Event) -> None:
    """Sends these commands in turn, each when it has the reply to the one before; reads replies of any length."""
    replies = end.makefile("rb")
    while not stopped.is_set():
        for verb in verbs:
            end.sendall(b"%b - 0\n" % verb)
            words = replies.readline().split()
            if verb == b"def" and words:
                replies.read(int(words[1]))


def places(hub: Hub, turns: Turns, seconds: float) -> list[float]:
    """Seconds of each `place` of one client."""
    end, waits, last = hub.client(0), [], time.monotonic() + seconds
    with end:
        for turn in range(1_000_000):
            begin = time.monotonic()
            if begin > last:
                break
            end.sendall(turns.line(0, turn))
            if not end.recv(100).startswith(b"ok"):
                sys.exit("a place was refused")
            waits.append(time.monotonic() - begin)
            time.sleep(0.01)
    return waits


def measure(folder: Path, program: str, turns: Turns, count: int, seconds: float) -> None:
    """Prints the waits of one client while `count` others flood."""
    clear(folder)
    hub, stopped = Hub(folder, program), threading.Event()
    owner = ground_client(hub)
    owner.sendall(b"open -\n")
    owner.recv(100)
    for at in range(count):
        words = (ground_client(hub), VERBS[at % 4 :] + VERBS[: at % 4], stopped)
        threading.Thread(target=flood, args=words, daemon=True).start()
    time.sleep(1)
    waits = places(hub, turns, seconds)
    stopped.set()
    print(f"{count} clients of another team: {quantiles(waits)}, most {max(waits) * 1000:.0f} ms", flush=True)
    hub.process.kill()
    hub.process.wait()
    owner.close()


def options_of(words: list[str]) -> tuple[float, str, str]:
    """The seconds of each figure, the number of cells and the program, as the command line has them."""
    seconds = float(words[0]) if words else 5.0
    cells = words[1] if len(words) > 1 else "200000"
    program = words[2] if len(words) > 2 else str(TOP / "crates/lefence/out/lefence")
    return seconds, cells, program


def main(words: list[str]) -> int:
    seconds, cells, program = options_of(words)
    with tempfile.TemporaryDirectory(dir=".") as name:
        folder = Path(name).resolve()
        text = generated("packed", cells, str(FENCES), "60", "0")
        (folder / "t.def").write_bytes(text)
        (folder / "t.lef").write_bytes(generated("tall"))
        turns = Turns(text.decode())
        for count in (0, 1, 8, 64):
            measure(folder, program, turns, count, seconds)
    return 0


if __name__ == "__main__":
    sys.exit(main(sys.argv[1:]))
