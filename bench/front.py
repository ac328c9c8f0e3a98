#!/usr/bin/env python3
"""Prints the cost of the hub: lines per second with 1, 16 and 100 clients, compared with the program alone; how long a
durable `place` takes with 50 other clients at work; and how long restoring 100,000 changes takes.

usage: bench/front.py [SECONDS [PROGRAM]]     (3 seconds for each figure; the proved program)
"""

from __future__ import annotations

import multiprocessing
import os
import selectors
import shutil
import socket
import subprocess
import sys
import tempfile
import time
from collections.abc import Callable
from pathlib import Path

TOP = Path(__file__).resolve().parents[1]
FENCES, SITES = 16, 400
LEF = """SITE core CLASS CORE ; SYMMETRY Y ; SIZE 0.2 BY 2.0 ; END core
MACRO INV CLASS CORE ; SIZE 0.4 BY 2.0 ; SYMMETRY X Y ; END INV
END LIBRARY
"""
Line = Callable[[int, int], bytes]
# A hub on a disk whose sync takes five milliseconds longer.
SLOW = """import os, sys, time
sys.path.insert(0, sys.argv.pop(1))
real = os.fdatasync
os.fdatasync = lambda descriptor: (real(descriptor), time.sleep(0.005))
from lefence.hub.main import main
sys.exit(main())"""


def design() -> str:
    """Fences f0.. next to each other over eight rows, each with a hundred cells."""
    rows = "".join(
        f"ROW r{at} core 0 {at * 2000} {('N', 'FS')[at % 2]} DO {SITES * FENCES} BY 1 STEP 200 0 ;\n" for at in range(8)
    )
    width = SITES * 200
    fences = "".join(
        f"- f{at} ( {at * width} 0 ) ( {(at + 1) * width} 16000 ) + TYPE FENCE ;\n" for at in range(FENCES)
    )
    cells = "".join(f"- f{team}c{at} INV ;\n" for team in range(FENCES) for at in range(100))
    groups = "".join(f"- g{at} f{at}c* + REGION f{at} ;\n" for at in range(FENCES))
    return (
        f"DESIGN t ;\nUNITS DISTANCE MICRONS 1000 ;\n{rows}REGIONS {FENCES} ;\n{fences}END REGIONS\n"
        f"COMPONENTS {FENCES * 100} ;\n{cells}END COMPONENTS\nGROUPS {FENCES} ;\n{groups}END GROUPS\nEND DESIGN\n"
    )


def place(client: int, turn: int) -> bytes:
    """An accepted change of a client. Each client has its own row and part of its team's fence."""
    team, part = client % FENCES, client // FENCES
    x, y = team * SITES * 200 + turn % 2 * 400, part * 2000
    return b"place f%d 0 f%dc%d %d %d %s\n" % (team, team, part, x, y, (b"N", b"FS")[part % 2])


def where(client: int, turn: int) -> bytes:
    """A query."""
    return b"where f%d 0 f%dc%d\n" % (client % FENCES, client % FENCES, client // FENCES)


class Hub:
    """A hub over the design, with a session 0 for each fence's team that all its clients share."""

    def __init__(
        self, folder: Path, program: str, *extra: str, is_slow: bool = False, fences: int = FENCES
    ) -> None:
        self.folder, self.fences = folder, fences
        tool = [sys.executable, "-c", SLOW, str(TOP / "front")] if is_slow else [str(TOP / "front/bin/lefence-hub")]
        words = [
            str(folder / "t.def"), str(folder / "t.lef"), "--sockets", str(folder / "s"), "--journal", str(folder / "j")
        ]
        begin = time.monotonic()
        self.process = subprocess.Popen([*tool, *words, "--program", program, *extra], stderr=subprocess.PIPE)
        assert self.process.stderr
        while b"ready" not in self.process.stderr.readline():
            pass
        self.seconds = time.monotonic() - begin
        self.owners = [self.client(team) for team in range(fences)]
        for team, owner in enumerate(self.owners):
            owner.sendall(b"open f%d\n" % team)
            owner.recv(100)

    def client(self, number: int) -> socket.socket:
        end = socket.socket(socket.AF_UNIX)
        end.connect(str(self.folder / f"s/f{number % self.fences}.sock"))
        return end

    def end(self) -> None:
        self.process.terminate()
        self.process.wait()


def clear(folder: Path) -> None:
    """Removes the journal, with everything that is kept with it."""
    for path in folder.glob("j*"):
        shutil.rmtree(path) if path.is_dir() else path.unlink()


def drive(clients: list[socket.socket], line: Line, flight: int, seconds: float) -> float:
    """Lines per second of these clients, each with `flight` lines in flight."""
    selector, turns, last = selectors.DefaultSelector(), [0] * len(clients), time.monotonic() + seconds
    for number, end in enumerate(clients):
        selector.register(end, selectors.EVENT_READ, number)
        end.sendall(b"".join(line(number, turn) for turn in range(flight)))
        turns[number] = flight
    count, begin = 0, time.monotonic()
    while (now := time.monotonic()) < last:
        for key, _ in selector.select(0.1):
            got, number = clients[key.data].recv(1 << 16).count(b"\n"), key.data
            count += got
            clients[number].sendall(b"".join(line(number, turns[number] + at) for at in range(got)))
            turns[number] += got
    return count / (now - begin)


def bare(folder: Path, program: str, line: Line, flight: int, seconds: float) -> float:
    """Lines per second of the program itself."""
    near, far = socket.socketpair()
    words = [program, "replay", str(folder / "t.def"), str(folder / "t.lef")]
    with near, subprocess.Popen(words, stdin=far.fileno(), stdout=far.fileno()) as process:
        far.close()
        near.sendall(b"open f0\n")
        near.recv(100)
        found = drive([near], line, flight, seconds)
        process.kill()
    return found


def probe(folder: Path, seconds: float, answers: multiprocessing.Queue[list[float]]) -> None:
    """Measures how long each `place` of one client takes, one at a time, for its own team."""
    end = socket.socket(socket.AF_UNIX)
    end.connect(str(folder / f"s/f{FENCES - 1}.sock"))
    waits, turn, last = [], 0, time.monotonic() + seconds
    while time.monotonic() < last:
        begin = time.monotonic()
        end.sendall(place(FENCES - 1, turn))
        assert end.recv(100).startswith(b"ok")
        waits.append(time.monotonic() - begin)
        turn += 1
    answers.put(waits)


def quantiles(waits: list[float]) -> str:
    waits.sort()
    return f"p50 {waits[len(waits) // 2] * 1000:.2f} ms, p99 {waits[int(len(waits) * 0.99)] * 1000:.2f} ms"


def measure_lines(folder: Path, program: str, seconds: float) -> None:
    for name, flight in (("one line at a time", 1), ("64 in flight", 64)):
        row = [f"{bare(folder, program, line, flight, seconds):,.0f}" for line in (place, where)]
        print(f"the program itself, {name}: place {row[0]}, where {row[1]} lines/s", flush=True)
    for count in (1, 16, 100):
        for name, flight in (("one line at a time", 1), ("64 in flight", 64)):
            row = []
            for line, extra in ((place, ()), (place, ("--no-sync",)), (where, ())):
                clear(folder)
                hub = Hub(folder, program, *extra)
                row.append(f"{drive([hub.client(number) for number in range(count)], line, flight, seconds):,.0f}")
                hub.end()
            print(
                f"{count} clients, {name} each: durable place {row[0]}, without sync {row[1]}, where {row[2]} lines/s",
                flush=True,
            )


def measure_waits(folder: Path, program: str, seconds: float) -> None:
    for flight, is_slow in ((1, False), (1, True), (16, False)):
        clear(folder)
        hub = Hub(folder, program, is_slow=is_slow)
        answers: multiprocessing.Queue[list[float]] = multiprocessing.Queue()
        prober = multiprocessing.Process(target=probe, args=(folder, seconds, answers))
        prober.start()
        numbers = [number for number in range(54) if number % FENCES != FENCES - 1][:50]
        drive(
            [hub.client(number) for number in numbers], lambda at, turn: place(numbers[at], turn), flight, seconds + 0.5
        )
        disk = ", a sync 5 ms longer" if is_slow else ""
        print(
            f"a durable place next to 50 clients with {flight} in flight each{disk}: {quantiles(answers.get())}",
            flush=True,
        )
        prober.join()
        hub.end()


def measure_restore(folder: Path, program: str) -> None:
    for flight, name in ((64, "as a busy hub wrote them"), (1, "one a frame")):
        clear(folder)
        hub = Hub(folder, program, "--no-sync", "--tail-bytes", "0")
        end = hub.client(0)
        for begin in range(0, 100_000, flight):
            end.sendall(b"".join(place(0, turn) for turn in range(begin, min(begin + flight, 100_000))))
            for _ in range(begin, min(begin + flight, 100_000)):
                while end.recv(1) != b"\n":
                    pass
        hub.end()
        size = (folder / "j").stat().st_size
        hub = Hub(folder, program)
        print(f"start with 100,000 changes, {name} ({size / 100_000:.0f} bytes each): {hub.seconds:.2f} s", flush=True)
        hub.end()


def measure_disk(folder: Path) -> None:
    waits = []
    with open(folder / "disk", "wb") as file:
        os.posix_fallocate(file.fileno(), 0, 1 << 20)
        for at in range(500):
            begin = time.monotonic()
            os.pwrite(file.fileno(), b"x" * 100, at * 100)
            os.fdatasync(file.fileno())
            waits.append(time.monotonic() - begin)
    print(f"a sync of this disk: {quantiles(waits)}", flush=True)


def main(words: list[str]) -> int:
    seconds = float(words[0]) if words else 3.0
    program = words[1] if len(words) > 1 else str(TOP / "crates/lefence/out/lefence")
    with tempfile.TemporaryDirectory(dir=".") as name:
        folder = Path(name)
        (folder / "t.def").write_text(design())
        (folder / "t.lef").write_text(LEF)
        measure_disk(folder)
        measure_lines(folder, program, seconds)
        measure_waits(folder, program, seconds)
        measure_restore(folder, program)
    return 0


if __name__ == "__main__":
    sys.exit(main(sys.argv[1:]))
