"""Shared parts of the front's tests: a design, random lines of its teams, a clock, and hubs on the proved program.

LEFENCE names another program, SEED another seed, and TURNS the number of crashes of each kind.
"""

from __future__ import annotations

import asyncio
import contextlib
import fcntl
import heapq
import itertools
import os
import random
import re
import select
import shutil
import signal
import socket
import struct
import subprocess
import sys
import tempfile
import termios
import threading
import time
import unittest
from collections.abc import Callable, Iterator
from pathlib import Path
from typing import Any

FRONT = Path(__file__).resolve().parents[1]
sys.path.insert(0, str(FRONT))

from lefence.base.clock import Clock

PROGRAM = os.environ.get("LEFENCE", str(FRONT.parent / "crates/lefence/out/lefence"))
SEED = int(os.environ.get("SEED", "1"))
TURNS = int(os.environ.get("TURNS", "3"))
# Seconds after which a test gives up.
PATIENCE = 180
# The number of fences, of sites in a fence's row, and of cells in a team.
TEAMS, SITES, CELLS = 8, 40, 10
WIDTH = SITES * 200

LEF = """VERSION 5.8 ;
SITE core CLASS CORE ; SYMMETRY Y ; SIZE 0.2 BY 2.0 ; END core
MACRO INV CLASS CORE ; ORIGIN 0 0 ; SIZE 0.4 BY 2.0 ; SYMMETRY X Y ; SITE core ; END INV
MACRO BUF CLASS CORE ; ORIGIN 0 0 ; SIZE 0.6 BY 2.0 ; SYMMETRY X Y ; SITE core ; END BUF
END LIBRARY
"""

# A line of progress, which a tool prints on a slow machine.
PROGRESS = re.compile(rb"^lefence-[a-z]+: .*, \d+ s\n", re.M)
KLAYOUT = shutil.which("klayout")
with_klayout = unittest.skipIf(KLAYOUT is None, "klayout is not here; Debian has it as the package klayout")


def page_blocks(page: str, language: str = "") -> list[str]:
    """The fenced blocks of a page of docs that have this language, or none."""
    text = (FRONT.parent / "docs" / page).read_text()
    return [block for kind, block in re.findall(r"^```(\w*)\n(.*?)^```$", text, re.M | re.S) if kind == language]


def tool_words(name: str) -> list[str]:
    """The start of a tool's command line, with the interpreter of the tests."""
    return [sys.executable, str(FRONT / "bin" / name)]


def design_text(sections: str = "") -> str:
    """A design with fences f0.. over four rows, with cells f0c0.. in each, and as many cells outside.

    `sections` come before its last line.
    """
    names = [f"f{team}" for team in range(TEAMS)] + ["g"]
    rows = "".join(
        f"ROW r{row} core 0 {row * 2000} {('N', 'FS')[row % 2]} DO {SITES * (TEAMS + 1)} BY 1 STEP 200 0 ;\n"
        for row in range(4)
    )
    fences = "".join(
        f"- f{team} ( {team * WIDTH} 0 ) ( {(team + 1) * WIDTH} 8000 ) + TYPE FENCE ;\n" for team in range(TEAMS)
    )
    parts = "".join(
        f"- {name}c{number} {'BUF' if number % 3 == 0 else 'INV'} ;\n" for name in names for number in range(CELLS)
    )
    groups = "".join(f"- g{team} f{team}c* + REGION f{team} ;\n" for team in range(TEAMS))
    return (
        f"VERSION 5.8 ;\nDESIGN t ;\nUNITS DISTANCE MICRONS 1000 ;\n{rows}REGIONS {TEAMS} ;\n{fences}END REGIONS\n"
        f"COMPONENTS {len(names) * CELLS} ;\n{parts}END COMPONENTS\n"
        f"GROUPS {TEAMS} ;\n{groups}END GROUPS\n{sections}END DESIGN\n"
    )


class Script:
    """Random lines of one team, mostly valid ones, of one or two sessions."""

    def __init__(self, rng: random.Random, team: int, hostile: bool = False) -> None:
        self.rng = rng
        self.hostile = hostile
        self.left = team * WIDTH
        self.team, self.letter = (f"f{team}", f"f{team}") if team < TEAMS else ("-", "g")

    def line(self) -> bytes:
        rng, cell = self.rng, f"{self.letter}c{self.rng.randrange(CELLS + 1)}"
        session = f"{self.team} {rng.choices([0, 1, 7], [8, 2, 0.2])[0]}"
        spot = f"{self.left + 200 * rng.randrange(-1, SITES) + (rng.random() < 0.05)} {2000 * rng.randrange(4)}"
        verbs = {
            f"open {self.team}": 3,
            f"close {session}": 0.5,
            f"sync {session}": 4,
            f"legalize {session} {cell} {spot}": 6,
            f"place {session} {cell} {spot} {rng.choice(['N', 'FN', 'FS', 'S', 'E'])}": 8,
            f"find {session} {cell} {spot}": 3,
            f"where {session} {cell}": 8,
            f"unplace {session} {cell}": 2,
            f"undo {session}": 2,
            f"commit {session}": 1,
            f"swap {session} {cell} {self.letter}c{rng.randrange(CELLS)}": 2,
            f"tidy {session}": 0.7,
            f"revert {session}": 0.5,
            f"pad {session} {rng.choice([0, 0, 1, 2, 17])}": 0.7,
            f"check {session}": 0.7,
            f"def {session}": 0.7,
        }
        text = rng.choices(list(verbs), list(verbs.values()))[0].encode()
        return self.corrupted(text) if self.hostile and rng.random() < 0.25 else text

    def lines(self, count: int) -> bytes:
        return b"".join(self.line() + b"\n" for _ in range(count))

    def corrupted(self, line: bytes) -> bytes:
        rng, at = self.rng, self.rng.randrange(len(line))
        odd = bytes([rng.choice([byte for byte in range(256) if byte != 10])])
        return rng.choice(
            [
                *(b"", b" ", b"\t", b"\r", b"\r\r", b"bye bye", b"bye\x0b", b"bye\r\r", b"\x00bye"),
                *(b"open", b"open Z", b"export", b"export a b"),
                *(
                    line + b"\r",
                    line + b"\r\r",
                    line[:at] + b"\r" + line[at:],
                    line.replace(b" ", b"\x0c"),
                    line + b" ;",
                    line[:at],
                ),
                b" \t" + line.replace(b" ", b"\t  ") + b" ",
                line.ljust(4096),
                line.ljust(4097),
                line.ljust(4095) + b"\r",
                line.ljust(4096) + b"\r",
                b"x" * 9000,
                line[:at] + odd + line[at:],
            ]
        )


def spot(team: int, change: int) -> str:
    """The place of the cell in this change of a team, if all its cells move in turn."""
    cell, turn = change % CELLS, change // CELLS
    return f"{team * WIDTH + cell % 4 * 2000 + turn % 3 * 600} {cell // 4 * 2000} {('N', 'FS')[cell // 4 % 2]}"


class Talker:
    """A client of a socket, which reads replies line by line."""

    def __init__(self, path: Path) -> None:
        self.socket = socket.socket(socket.AF_UNIX)
        self.socket.settimeout(PATIENCE)
        try:
            self.socket.connect(str(path))
        except OSError:
            self.socket.close()
            raise
        self.replies = self.socket.makefile("rb")

    def ask(self, *lines: str) -> list[str]:
        self.socket.sendall("".join(f"{line}\n" for line in lines).encode())
        return [self.replies.readline().decode().rstrip("\n") for _ in lines]

    def wait_read(self) -> None:
        """Waits until the hub has read all that was sent. A signal that is sent then comes after these lines."""

        def unread() -> int:
            return int(struct.unpack("i", fcntl.ioctl(self.socket.fileno(), termios.TIOCOUTQ, bytes(4)))[0])

        wait_until(lambda: unread() == 0)

    def has_reply(self) -> bool:
        """Whether bytes have come that were not read."""
        return bool(select.select([self.socket], [], [], 0)[0])

    def all_replies(self) -> bytes:
        """All replies until the hub closes the connection or is gone."""
        found = b""
        with contextlib.suppress(ConnectionResetError):
            while piece := self.socket.recv(1 << 16):
                found += piece
        return found[: found.rfind(b"\n") + 1]

    def converse(self, text: bytes, *sizes: int) -> bytes:
        """All replies to the text, which is sent in pieces of these sizes."""

        def send() -> None:
            at, turns = 0, itertools.cycle(sizes)
            while at < len(text):
                at += self.socket.send(text[at : at + next(turns)])
            self.socket.shutdown(socket.SHUT_WR)

        sender = threading.Thread(target=send)
        sender.start()
        found = self.all_replies()
        sender.join()
        return found

    def close(self) -> None:
        self.replies.close()
        self.socket.close()


class _Call:
    """A call in the future, unless it is cancelled."""

    def __init__(self, callback: Callable[..., object], words: tuple[Any, ...]) -> None:
        self._callback = callback
        self._words = words
        self._is_cancelled = False

    def make(self) -> None:
        if not self._is_cancelled:
            self._callback(*self._words)

    def cancel(self) -> None:
        self._is_cancelled = True


class SettableClock(Clock):
    """A clock that stands still until a test lets seconds pass, for a hub in the test's own process."""

    def __init__(self) -> None:
        # (no moment is 0, so that a missing time is noticed)
        self._now = 1000.0
        self._calls: list[tuple[float, int, _Call]] = []
        self._numbers = itertools.count()

    def now(self) -> float:
        return self._now

    def date(self) -> float:
        return 1_800_000_000 + self._now

    def call_later(self, seconds: float, callback: Callable[..., object], *words: Any) -> _Call:
        call = _Call(callback, words)
        heapq.heappush(self._calls, (self._now + seconds, next(self._numbers), call))
        return call

    async def sleep(self, seconds: float) -> None:
        woken = asyncio.Event()
        call = self.call_later(seconds, woken.set)
        try:
            await woken.wait()
        finally:
            call.cancel()

    def advance(self, seconds: float) -> None:
        """Lets seconds pass, and makes the calls that are due, each at its time. Tasks that they wake run later."""
        end = self._now + seconds
        while self._calls and self._calls[0][0] <= end:
            self._now, _, call = heapq.heappop(self._calls)
            call.make()
        self._now = end


def wait_until(condition: Callable[[], object], what: Callable[[], object] = str) -> None:
    """Waits until the condition holds. If it does not within PATIENCE, the failure shows `what`."""
    last = time.monotonic() + PATIENCE
    while not condition():
        if time.monotonic() > last:
            raise AssertionError(f"the condition does not hold after {PATIENCE} seconds: {what()}")
        time.sleep(0.01)


async def run_until(condition: Callable[[], object]) -> None:
    """Lets the other tasks of the event loop run until the condition holds."""
    last = time.monotonic() + PATIENCE
    while not condition():
        if time.monotonic() > last:
            raise AssertionError(f"the condition does not hold after {PATIENCE} seconds")
        await asyncio.sleep(0.001)


def slow_program(folder: Path, program: str, start: bytes, wait: str) -> str:
    """The path of a program like this one, which runs this Python before each line of `replay` that starts so."""
    script = folder / "slow"
    script.write_text(
        "#!/usr/bin/env python3\nimport os, subprocess, sys, time\n"
        f"words, parent = [{program!r}, *sys.argv[1:]], os.getppid()\n"
        "if sys.argv[1] != 'replay':\n    sys.exit(subprocess.run(words).returncode)\n"
        "with subprocess.Popen(words, stdin=subprocess.PIPE) as process:\n"
        "    for line in sys.stdin.buffer:\n"
        f"        if line.startswith({start!r}):\n            {wait}\n"
        "        process.stdin.write(line)\n        process.stdin.flush()\n"
    )
    script.chmod(0o755)
    return str(script)


def waiting_program(folder: Path, program: str, start: bytes, is_gate_closed: bool = False) -> tuple[str, Path]:
    """A slow program whose lines that start so wait until there is a file, and the path of that file.

    If the gate is closed, each line removes the file, so that the next line waits for another one.
    """
    gate = folder / "gate"
    # (it ends with the hub)
    wait = f"while os.getppid() == parent and not os.path.exists({str(gate)!r}): time.sleep(0.01)"
    if is_gate_closed:
        wait += f"\n            if os.path.exists({str(gate)!r}): os.unlink({str(gate)!r})"
    return slow_program(folder, program, start, wait), gate


def converse(talker: Talker, text: bytes) -> bytes:
    """All replies of a client to the text, which is sent in pieces of odd sizes."""
    return talker.converse(text, 1, 7, 60, 1000)


def without_table(output: str) -> str:
    """What lefence-prepare prints, without the table of teams at its end."""
    return re.sub(r"^team +cells  utilization .*\Z", "", output, flags=re.M | re.S)


def free_port() -> int:
    """A port on which nobody listens. The system gives it to no connection: those have ports from 32768 on."""
    while True:
        port = random.randrange(10_000, 32_768)
        with socket.socket() as free, contextlib.suppress(OSError):
            free.bind(("127.0.0.1", port))
            return port


class FrontCase(unittest.TestCase):
    """A folder with a design, for tools that run in it."""

    def setUp(self) -> None:
        self.rng = random.Random(f"{SEED} {self.id()}")
        self.folder = Path(self.enterContext(tempfile.TemporaryDirectory(prefix="hub")))
        self.design, self.lef, self.journal = (self.folder / name for name in ("t.def", "t.lef", "journal"))
        self.lef.write_text(LEF)
        self.design.write_text(design_text())
        self.program = PROGRAM

    def direct(self, text: bytes, *words: str, design: Path | None = None) -> bytes:
        """The replies of the program itself."""
        command = (PROGRAM, "replay", str(design or self.design), str(self.lef), *words)
        return subprocess.run(command, input=text, stdout=subprocess.PIPE, check=True, timeout=PATIENCE).stdout

    def describing(self, script: str) -> str:
        """A program that runs this script for `describe`, and else the proved program."""
        made = self.folder / "describing"
        made.write_text(f'#!/bin/sh\nif [ "$1" = describe ]; then\n{script}\nelse exec \'{PROGRAM}\' "$@"\nfi\n')
        made.chmod(0o755)
        return str(made)

    def tool(self, name: str, *words: str | Path | bytes, lines: bytes = b"") -> subprocess.CompletedProcess[bytes]:
        """Runs a tool to its end. Its progress, which a slow machine has more of, is left out."""
        done = self.tool_with_progress(name, *words, lines=lines)
        done.stderr = PROGRESS.sub(b"", done.stderr)
        return done

    def tool_with_progress(
        self, name: str, *words: str | Path | bytes, lines: bytes = b""
    ) -> subprocess.CompletedProcess[bytes]:
        """Runs a tool to its end."""
        command = [*tool_words(name), *words]
        return subprocess.run(command, input=lines, capture_output=True, timeout=PATIENCE, cwd=self.folder)

    @contextlib.contextmanager
    def service(self, connections: int) -> Iterator[int]:
        """Runs `lefence serve` on the design for this many connections; yields its port."""
        port = free_port()
        words = [
            PROGRAM,
            "serve",
            str(self.design),
            str(self.lef),
            "--port",
            str(port),
            "--connections",
            str(connections),
        ]
        with subprocess.Popen(words, stdout=subprocess.PIPE) as process:
            assert process.stdout
            process.stdout.readline()
            try:
                yield port
            finally:
                process.kill()


def klayout(folder: Path, script: str, *words: str | Path) -> list[str]:
    """Runs a script in KLayout with these arguments; returns its output."""
    path = folder / "script.py"
    path.write_text(script)
    command = [KLAYOUT or "", *map(str, words), "-r", str(path)]
    environment = {**os.environ, "QT_QPA_PLATFORM": "offscreen"}
    # KLayout takes seconds to start, and far longer while proofs run.
    patience = 10 * PATIENCE
    done = subprocess.run(command, stdout=subprocess.PIPE, cwd=folder, env=environment, timeout=patience, check=True)
    return done.stdout.decode().splitlines()


# The number of cells that KLayout reads, the sum of their areas, and the area of their union.
AREAS = """
import pya
options = pya.LoadLayoutOptions()
config = options.lefdef_config
config.lef_files, config.read_lef_with_def, config.macro_resolution_mode = [lef], False, 1
config.produce_cell_outlines, config.cell_outline_layer = True, "outline (99/0)"
layout = pya.Layout()
layout.read(design, options)
outline = layout.find_layer(99, 0)
boxes = [each.bbox_per_layer(outline) for each in layout.top_cell().each_inst()]
print(len(boxes), sum(box.area() for box in boxes), pya.Region(boxes).merged().area())
"""
# The names of the cells that KLayout reads, and their places.
PLACES = """
import pya
options = pya.LoadLayoutOptions()
config = options.lefdef_config
config.lef_files, config.read_lef_with_def, config.macro_resolution_mode = lefs.split(","), False, 1
config.instance_property_name = "name"
layout = pya.Layout()
layout.read(design, options)
for each in layout.top_cell().each_inst():
    print(each.property("name"), each.cell.name, each.dtrans)
"""


def wait_gone(processes: list[int]) -> None:
    """Waits until none of these processes runs."""
    last = time.monotonic() + PATIENCE
    for process in processes:
        with contextlib.suppress(FileNotFoundError, ProcessLookupError):
            # (a zombie has no command line)
            while Path(f"/proc/{process}/cmdline").read_bytes():
                if time.monotonic() > last:
                    raise AssertionError(f"process {process} outlives its hub")
                time.sleep(0.01)


class Hub:
    """A running hub; its standard error goes to a file."""

    def __init__(self, folder: Path, words: list[str], log: str = "log") -> None:
        self.log = folder / log
        with open(self.log, "wb") as errors:
            self.process = subprocess.Popen([*tool_words("lefence-hub"), *words], stderr=errors)

    def log_text(self) -> str:
        return self.log.read_text()

    def wait_ready(self) -> str:
        """Its line when it is ready, or all its output if it has ended."""
        last = time.monotonic() + PATIENCE
        while self.process.poll() is None and time.monotonic() < last:
            for line in self.log_text().splitlines():
                if ": ready:" in line:
                    return line
            time.sleep(0.01)
        return self.log_text()

    def wait_for(self, text: str) -> None:
        """Waits until the hub has printed this."""
        wait_until(lambda: text in self.log_text(), lambda: f"not printed: {text}; but: {self.log_text()}")

    def kill(self) -> None:
        """Kills it, and waits for its programs, which may write until they end."""
        wait_gone(self.kill_alone())

    def kill_alone(self) -> list[int]:
        """Kills only the hub; returns its programs, which will end by themselves."""
        if self.process.poll() is None:
            # (a hub that stands still starts no other program)
            self.process.send_signal(signal.SIGSTOP)
            os.waitid(os.P_PID, self.process.pid, os.WSTOPPED | os.WEXITED | os.WNOWAIT)
        programs = self.children()
        self.process.kill()
        self.process.wait()
        return programs

    def end(self) -> int:
        self.process.terminate()
        return self.process.wait(PATIENCE)

    def children(self) -> list[int]:
        """Its programs, in the order of their starts."""
        if self.process.poll() is not None:
            return []
        return [
            int(word) for word in Path(f"/proc/{self.process.pid}/task/{self.process.pid}/children").read_text().split()
        ]

    def replay_pid(self) -> int:
        """The process id of its program that serves, which neither saves a state nor exports."""
        for pid in self.children():
            words = Path(f"/proc/{pid}/cmdline").read_bytes().split(b"\0")
            if not {b"--save", b"--export"}.intersection(words):
                return pid
        raise AssertionError(f"no program serves: {self.log_text()}")


class HubCase(FrontCase):
    """A hub over the design in the folder."""

    hub: Hub

    def words(self, *extra: str, sockets: str = "s", journal: str = "journal", design: Path | None = None) -> list[str]:
        places = ["--sockets", str(self.folder / sockets), "--journal", str(self.folder / journal)]
        # (no state is saved only because the machine is slow)
        options = ["--program", self.program, "--programs", "1", "--tail-seconds", "1000000", *places]
        return [str(design or self.design), str(self.lef), *options, *extra]

    def start(self, *extra: str) -> str:
        """Starts a hub; returns its line when it is ready, or all its output if it has ended."""
        self.hub = Hub(self.folder, self.words(*extra))
        self.addCleanup(self.hub.kill)
        return self.hub.wait_ready()

    def wait_stopping(self) -> None:
        """Waits until the hub, which has got a signal, reads no more lines."""

        def listens() -> bool:
            with contextlib.suppress(ConnectionRefusedError):
                Talker(self.folder / "s/operator.sock").close()
                return True
            return False

        wait_until(lambda: not listens(), self.hub.log_text)

    def talk(self, name: str, sockets: str = "s") -> Talker:
        talker = Talker(self.folder / sockets / f"{name}.sock")
        self.addCleanup(talker.close)
        return talker
