"""Helpers that run the proved program in tests."""

from __future__ import annotations

import contextlib
import json
import os
import random
import resource
import signal
import socket
import struct
import subprocess
import tempfile
import threading
import unittest
from collections.abc import Callable
from dataclasses import dataclass
from pathlib import Path
from typing import IO

TESTS = Path(__file__).resolve().parent
PROGRAM = Path(os.environ.get("LEFENCE") or TESTS.parent / "crates/lefence/out/lefence")
DEF = TESTS / "data/w.def"
LEF = TESTS / "data/w.lef"
# The paths of the small design, as words of a command line.
DESIGN = [str(DEF), str(LEF)]
# Seconds after which a test stops waiting.
PATIENCE = 300
# The keys of the densities in the report of a repair or an improvement.
DENSITY_KEYS = [
    "fullest_10", "fullest_10_before", "fullest_2", "fullest_20", "fullest_20_before", "fullest_2_before", "fullest_5",
    "fullest_5_before",
]


@dataclass(frozen=True)
class Start:
    """How to start the program: its standard input instead of lines, its standard output instead of a pipe, its folder
    and environment, the umask of new files (-1: that of the tests), further open files, what its process does first,
    and the seconds that it may take."""

    stdin: int | None = None
    stdout: int | IO[bytes] = subprocess.PIPE
    folder: str | Path | None = None
    environment: dict[str, str] | None = None
    umask: int = -1
    files: tuple[int, ...] = ()
    first: Callable[[], None] | None = None
    patience: int = PATIENCE


def run(words: list[str], lines: str | bytes = "", start: Start = Start()) -> tuple[int, str, str]:
    """Runs the program with these words over these lines to its end. Returns its status and what it wrote on both
    streams."""
    text = lines if isinstance(lines, bytes) else lines.encode()
    ran = subprocess.run(
        [str(PROGRAM), *words],
        input=text if start.stdin is None else None,
        stdin=start.stdin,
        stdout=start.stdout,
        stderr=subprocess.PIPE,
        cwd=start.folder,
        env=start.environment,
        umask=start.umask,
        pass_fds=start.files,
        preexec_fn=start.first,
        timeout=start.patience,
    )
    return ran.returncode, (ran.stdout or b"").decode(), ran.stderr.decode()


def densities(before: Path, after: Path, lef: Path) -> dict[str, int]:
    """Returns what a report has under the density keys, by `describe` of the texts before and after."""
    found: dict[str, int] = {}
    for path, suffix in (before, "_before"), (after, ""):
        _, written, _ = run(["describe", str(path), str(lef)])
        density = json.loads(next(line for line in written.splitlines() if '"kind":"density"' in line))
        found |= {f"{key}{suffix}": density[key] for key in ("fullest_2", "fullest_5", "fullest_10", "fullest_20")}
    return found


def small_files() -> None:
    """Runs before the program: no file may grow beyond 100 bytes, and a write beyond fails."""
    signal.signal(signal.SIGXFSZ, signal.SIG_IGN)
    resource.setrlimit(resource.RLIMIT_FSIZE, (100, 100))


class InFolder(unittest.TestCase):
    """Tests in their own folder."""

    def setUp(self) -> None:
        folder = tempfile.TemporaryDirectory(prefix="lefence-tests-")
        self.addCleanup(folder.cleanup)
        self.folder = Path(folder.name).resolve()

    def names(self) -> list[str]:
        """The names in the folder."""
        return sorted(path.name for path in self.folder.iterdir())


def preloading(source: str, folder: Path) -> dict[str, str]:
    """An environment in which a program loads the library made from this C file of tests/. The library is built in the
    folder."""
    library = folder / source.replace(".c", ".so")
    subprocess.run(["cc", "-O2", "-fPIC", "-shared", "-o", str(library), str(TESTS / source), "-ldl"], check=True)
    return {**os.environ, "LD_PRELOAD": str(library)}


class Talk:
    """Lines that are sent to a running program, and its replies."""

    def __init__(self, lines: IO[bytes], replies: IO[bytes]) -> None:
        self.lines = lines
        self.replies = replies

    def send(self, text: bytes) -> None:
        self.lines.write(text)
        self.lines.flush()

    def reply(self, line: str) -> str:
        """The next reply, which answers this line; for `def`, with the text after it."""
        reply = self.replies.readline().decode()
        verb = line.split()[0] if line.split() else ""
        if verb == "def" and reply.startswith("ok "):
            reply += self.replies.read(int(reply.split()[1])).decode()
        return reply.removesuffix("\n")

    def ask(self, line: str) -> str:
        """The reply to a line."""
        self.send(line.encode() + b"\n")
        return self.reply(line)

    def ask_all(self, lines: list[str]) -> list[str]:
        """The replies to many lines, which are sent without waiting for replies."""
        text = "".join(f"{line}\n" for line in lines).encode()
        sender = threading.Thread(target=self.send, args=(text,))
        sender.start()
        replies = [self.reply(line) for line in lines]
        sender.join()
        return replies


class Session(Talk):
    """A running program that receives lines over a pipe and replies."""

    def __init__(self, words: list[str], environment: dict[str, str] | None = None) -> None:
        self.process = subprocess.Popen(
            [str(PROGRAM), *words],
            env=environment,
            stdin=subprocess.PIPE,
            stdout=subprocess.PIPE,
            stderr=subprocess.PIPE,
        )
        assert self.process.stdin and self.process.stdout
        super().__init__(self.process.stdin, self.process.stdout)

    def end(self) -> tuple[int, str]:
        """Ends the input. Returns the exit status and what was written on standard error."""
        assert self.process.stderr
        self.lines.close()
        self.replies.read()
        said = self.process.stderr.read().decode()
        status = self.process.wait()
        self.replies.close()
        self.process.stderr.close()
        return status, said


class Client(Talk):
    """A connection to a service."""

    def __init__(self, port: int) -> None:
        self.socket = socket.create_connection(("127.0.0.1", port), timeout=PATIENCE)
        self.socket.setsockopt(socket.IPPROTO_TCP, socket.TCP_NODELAY, 1)
        super().__init__(self.socket.makefile("wb"), self.socket.makefile("rb"))

    def __enter__(self) -> Client:
        return self

    def __exit__(self, *_: object) -> None:
        self.close()

    def rest(self) -> str:
        """Ends the sending side, and returns all remaining replies."""
        self.socket.shutdown(socket.SHUT_WR)
        return self.replies.read().decode()

    def close(self) -> None:
        self.lines.close()
        self.replies.close()
        self.socket.close()

    def reset(self) -> None:
        """Resets the connection: data in transit is lost in both directions."""
        self.socket.setsockopt(socket.SOL_SOCKET, socket.SO_LINGER, struct.pack("ii", 1, 0))
        self.close()


def free_port() -> int:
    """A port on which nobody listens. The system gives it to no connection: those have ports from 32768 on."""
    while True:
        port = random.randrange(10_000, 32_768)
        with socket.socket() as free, contextlib.suppress(OSError):
            free.bind(("127.0.0.1", port))
            return port


class Service:
    """A running program that serves connections to a port. At the end of the block it is stopped if it still runs."""

    def __init__(
        self,
        connections: int,
        words: list[str] | None = None,
        environment: dict[str, str] | None = None,
        files: int | None = None,
    ) -> None:
        """A service with at most `files` open files, if a number is given."""
        self.port = free_port()
        bounds = ["--port", str(self.port), "--connections", str(connections)]
        self.process = subprocess.Popen(
            [str(PROGRAM), "serve", *(words or DESIGN), *bounds],
            env=environment,
            stdout=subprocess.PIPE,
            stderr=subprocess.PIPE,
            preexec_fn=None if files is None else lambda: resource.setrlimit(resource.RLIMIT_NOFILE, (files, files)),
        )
        assert self.process.stdout
        self.first = self.process.stdout.readline().decode()

    def __enter__(self) -> Service:
        return self

    def __exit__(self, *_: object) -> None:
        if self.process.poll() is None:
            self.process.kill()
        self.process.communicate()

    def client(self) -> Client:
        return Client(self.port)

    def end(self) -> tuple[int, str, str]:
        """Waits for the end. Returns the exit status, and what was written on both streams."""
        written, said = self.process.communicate(timeout=PATIENCE)
        return self.process.returncode, self.first + written.decode(), said.decode()
