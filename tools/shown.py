#!/usr/bin/env python3
"""Runs the commands that README and the documents show, and compares what they print.

usage: tools/shown.py [--write] [--list] [PAGE ..]    these pages, else README.md, docs/*.md and examples/README.md

A fenced block whose lines begin with `$ ` has commands and what they print, on standard output or on both streams. A
line `..` stands for any lines. Nothing is compared if nothing is shown, or if only `..` is. In other blocks the lines
that begin with a command of ours are run, and must end with status 0 or 4.

Each page has a folder of its own, in which its commands run from top to bottom:
- `./lefence`, `examples` and `front` are there as in the repository.
- chip.def, tech.lef and cells.lef are the design of examples/, with teams A and B; fp.def has its floorplan. next.def,
  v2.def and eco.def have its next netlist, placed.def a placer's result, after.def and A.lines a repair.
- /run/lefence is a folder there. Its hub, with the journal chip.journal, is started if a command needs one.
- A hub or service runs until the end of its page, or until another one with its sockets, journal or port starts.

The program is the one that LEFENCE names, else that of the repository. `--list` prints the commands that are not run,
each with the reason. `--write` writes what the commands print into the pages, where they show something else.
"""

from __future__ import annotations

import argparse
import os
import re
import signal
import subprocess
import sys
import tempfile
import time
from collections.abc import Iterator
from contextlib import contextmanager, suppress
from dataclasses import dataclass, field
from pathlib import Path

TOP = Path(__file__).resolve().parent.parent
# The most seconds of a command, and of the start of a hub or service.
PATIENCE = 600
# Blocks of these kinds may have commands.
KINDS = ("", "sh", "bash", "shell", "console")
# The beginning of a line that is a command of ours.
TOOLS = "|".join(sorted(path.name for path in (TOP / "front/bin").glob("lefence-*")))
OURS = re.compile(rf"(\./|front/bin/)?(lefence|{TOOLS}) |printf .*\| *\S*lefence ")
# A command that goes on until it is ended, and what it prints when it is ready.
SERVES = re.compile(
    r"\blefence-(hub|view)\b(?!.*--(status|metrics|snapshot|help|version))|\blefence (--unproved )?serve\b"
)
READY = re.compile(rb"ready|listening|http://")
# A line of progress, which a tool prints on a slow machine.
PROGRESS = re.compile(r"^lefence-[a-z]+: .*, \d+ s\n", re.M)
# A command that needs the hub of /run/lefence, that hub, and what its operator has done.
NEEDS_HUB = re.compile(r"/run/lefence|\bchip\.journal\b")
HUB = "lefence-hub chip.def tech.lef cells.lef --sockets /run/lefence --journal chip.journal --keep-segments"
HUB_LINES = "echo savepoint A before-eco | lefence-shell --raw /run/lefence/operator.sock"
# What a hub or service has for itself alone.
OWN = re.compile(r"--(?:sockets|journal|port) (\S+)")
# Commands that do not run here, each with the reason.
NOT_RUN = {
    r"\bssh\b": "it needs another machine",
    r"\b(apt|apt-get|dpkg|pip|venv|install)\b": "it installs packages",
    r"\bsystemctl\b|\bjournalctl\b": "it needs systemd",
    r"\bsbatch\b|\bsrun\b": "it needs Slurm",
    r"\btools/package\.py\b|\btools/build\.py\b|^\./lefence$|^\./test\b|\brt\b": "it proves or builds the program",
    r"\bklayout\b|\bxdg-open\b": "it needs a screen",
    r"\bold/lefence\b|\bnew/lefence\b": "it needs two programs",
    r"\.\.\s*$|\[.*\]|\bNAME\b|\bTEAM\b|\bFILE\b|\bDEF\b|\bLEF\b|\bDIR\b|\bPATH\b|…": "it is a form, not a command",
    r"--port \d+ --connections \d{2,}": "it waits for that many connections",
    r"--at \d{4}-": "it names a time of another day",
    r"^lefence hub ": "it serves until the operator stops it; tests/test_hub.py runs it",
    r"--journal journal/segment": "the journal is that of `lefence hub`, which does not run here",
    r"^lefence-hub journal \d": "it is a line of a journal",
    r"\brestore saved\b|--takeover": "it needs another machine",
    r"--engine slurm": "it needs Slurm",
    r"\blocalhost:\d": "it needs a service",
    r"&\s*$": "it is a part of a script",
}


@dataclass
class Command:
    """A command of a page: its line, its text, and the lines that it prints; None if the page does not show them."""

    line: int
    text: str
    shown: list[str] | None
    # Where the shown lines are in the page.
    start: int = 0
    stop: int = 0


def blocks_of(lines: list[str]) -> Iterator[tuple[int, int]]:
    """Yields where the fenced blocks start and stop that may have commands."""
    start: int | None = None
    for at, line in enumerate(lines):
        if not line.lstrip().startswith("```"):
            continue
        if start is None:
            start = at + 1 if line.strip()[3:] in KINDS else -1
        else:
            if start >= 0:
                yield start, at
            start = None


def commands_of(lines: list[str]) -> Iterator[Command]:
    """Yields the commands of a page in their order."""
    for start, stop in blocks_of(lines):
        has_prompts = any(line.startswith("$ ") for line in lines[start:stop])
        at = start
        while at < stop:
            line = lines[at]
            is_command = line.startswith("$ ") if has_prompts else bool(OURS.match(line))
            if not is_command:
                at += 1
                continue
            command = Command(at + 1, line.removeprefix("$ "), None)
            while command.text.endswith("\\") and at + 1 < stop:
                at += 1
                command.text += f"\n{lines[at]}"
            at += 1
            if has_prompts:
                command.start = at
                while at < stop and not lines[at].startswith("$ "):
                    at += 1
                command.stop = at
                command.shown = lines[command.start : at]
            yield command


def reason_not_to_run(text: str) -> str | None:
    """Why a command is not run, or None."""
    plain = re.sub(r"\s+#.*$", "", text, flags=re.M)
    return next((reason for pattern, reason in NOT_RUN.items() if re.search(pattern, plain)), None)


@dataclass
class Room:
    """The folder in which the commands of a page run, and the hubs and services that run there."""

    folder: Path
    environment: dict[str, str]
    running: list[tuple[set[str], subprocess.Popen[bytes]]] = field(default_factory=list)

    def run(self, text: str) -> tuple[int, str, str]:
        """Runs a command; returns its status and what it prints on both streams. One that serves goes on."""
        serves = SERVES.search(text)
        needs_hub = NEEDS_HUB.search(text) and not (serves and "lefence-view" not in text)
        text = text.replace("/run/lefence", "run")
        if needs_hub and not any({"run", "chip.journal"} & own for own, _ in self.running):
            self.run(HUB)
        if serves:
            result = self._serve(text)
            if "run" in self.running[-1][0]:
                self.run(HUB_LINES)
            return result
        done = subprocess.run(
            ["bash", "-c", text],
            cwd=self.folder,
            env=self.environment,
            stdin=subprocess.DEVNULL,
            capture_output=True,
            timeout=PATIENCE,
        )
        errors = PROGRESS.sub("", done.stderr.decode(errors="replace"))
        return done.returncode, done.stdout.decode(errors="replace"), errors

    def _serve(self, text: str) -> tuple[int, str, str]:
        """Starts a hub or a service, and waits until it is ready or has ended. Those with its sockets, journal or port
        are ended before.
        """
        own = {*OWN.findall(text)}
        self.end(own)
        with tempfile.TemporaryFile() as output:
            process = subprocess.Popen(
                ["bash", "-c", f"exec {text}"],
                cwd=self.folder,
                env=self.environment,
                stdin=subprocess.DEVNULL,
                stdout=output,
                stderr=output,
                start_new_session=True,
            )
            self.running.append((own, process))
            last = time.monotonic() + PATIENCE
            while True:
                status = process.poll()
                printed = os.pread(output.fileno(), 1 << 20, 0)
                if status is not None or READY.search(printed) or time.monotonic() > last:
                    return status or 0, printed.decode(errors="replace"), ""
                time.sleep(0.05)

    def end(self, own: set[str] | None = None) -> None:
        """Ends the hubs and services that have one of these names for themselves, or all."""
        for names, process in [*self.running]:
            if own is None or own & names:
                with suppress(ProcessLookupError):
                    os.killpg(process.pid, signal.SIGTERM)
                process.wait(PATIENCE)
                self.running.remove((names, process))


@contextmanager
def room(program: Path) -> Iterator[Room]:
    """Makes the folder of a page."""
    with tempfile.TemporaryDirectory(prefix="lefence-shown-") as name:
        folder = Path(name)
        for link in ("examples", "front", "docs", "tests", "tools"):
            (folder / link).symlink_to(TOP / link)
        script = folder / "lefence"
        script.write_text(f'#!/bin/sh\n[ "$1" != --unproved ] || shift\nexec "{program}" "$@"\n')
        script.chmod(0o755)
        tools = folder / "bin"
        tools.mkdir()
        (tools / "lefence").symlink_to(program)
        (folder / "run").mkdir()
        write_design(folder)
        path = f"{tools}:{TOP / 'front/bin'}:{os.environ['PATH']}"
        made = Room(folder, {**os.environ, "PATH": path, "LEFENCE": str(program), "COLUMNS": "100"})
        made.run("lefence repair chip.def tech.lef cells.lef --export after.def")
        made.run("lefence repair placed.def tech.lef cells.lef --export placed.def")
        made.run("lefence repair chip.def tech.lef cells.lef --team A --lines A.lines")
        try:
            yield made
        finally:
            made.end()


def write_design(folder: Path) -> None:
    """Writes the designs that the pages name: those of examples/, with teams A and B for two of the four."""
    sources = {"chip": "soc", "fp": "soc", "placed": "soc_placed", "next": "soc_v2", "v2": "soc_v2", "eco": "soc_v2"}
    for name, source in sources.items():
        text = (TOP / f"examples/{source}.def").read_text(encoding="utf-8")
        for old, new in (("cpu", "A"), ("cache", "B")):
            text = text.replace(f"\n- {old} (", f"\n- {new} (").replace(f"+ REGION {old} ;", f"+ REGION {new} ;")
        (folder / f"{name}.def").write_text(text, encoding="utf-8")
    (folder / "before.def").write_bytes((folder / "chip.def").read_bytes())
    library = (TOP / "examples/soc.lef").read_text(encoding="utf-8")
    site, macros = library.split("MACRO ", 1)
    (folder / "tech.lef").write_text(f"{site}END LIBRARY\n", encoding="utf-8")
    form = "MACRO FILL{0}\n  CLASS CORE SPACER ;\n  SIZE {1:.1f} BY 2.0 ;\n  SYMMETRY X Y ;\nEND FILL{0}\n"
    fillers = "".join(form.format(width, width * 0.2) for width in (1, 4, 8))
    (folder / "cells.lef").write_text(f"VERSION 5.8 ;\n{fillers}MACRO {macros}", encoding="utf-8")
    (folder / "session.txt").write_bytes((TOP / "examples/session.txt").read_bytes())


def agree(shown: list[str], printed: str) -> bool:
    """Whether the shown lines are those that were printed. A line `..` stands for any lines."""
    pattern = "".join("(?:.*\n)*" if line.strip() == ".." else f"{re.escape(line.rstrip())} *\n" for line in shown)
    return re.fullmatch(pattern, printed if printed.endswith("\n") or not printed else f"{printed}\n") is not None


def shortened(printed: list[str], shown: list[str]) -> list[str]:
    """The printed lines; if the page leaves lines out, as many of them before and after those as it shows."""
    left_out = [at for at, line in enumerate(shown) if line.strip() == ".."]
    if not left_out:
        return printed
    after = len(shown) - left_out[-1] - 1
    return [*printed[: left_out[0]], "..", *printed[len(printed) - after :]]


def check_page(path: Path, program: Path, writes: bool, lists: bool) -> list[str]:
    """Runs the commands of a page; returns what is wrong. With `writes` it writes what they print in place of that."""
    lines = path.read_text(encoding="utf-8").splitlines()
    wrong: list[str] = []
    printed: list[tuple[Command, list[str]]] = []
    with room(program) as made:
        for command in commands_of(lines):
            where = f"{path}:{command.line}: {command.text}"
            if reason := reason_not_to_run(command.text):
                if lists:
                    print(f"{where}\n    {reason}")
                continue
            try:
                status, output, errors = made.run(command.text)
            except subprocess.TimeoutExpired:
                wrong.append(f"{where}\n    does not end")
                continue
            if command.shown is None:
                if status not in (0, 4):
                    wrong.append(f"{where}\n    status {status}: {errors}{output}")
                continue
            is_shown = any(line.strip() not in ("", "..") for line in command.shown)
            if is_shown and not (agree(command.shown, output) or agree(command.shown, errors + output)):
                wrong.append(f"{where}\n    status {status}, prints:\n{output}{errors}")
                printed.append((command, shortened(output.splitlines(), command.shown)))
    if writes:
        for command, new in reversed(printed):
            lines[command.start : command.stop] = new
        path.write_text("\n".join([*lines, ""]), encoding="utf-8")
        return []
    return wrong


def program_of_repository() -> Path | None:
    """Returns the program that LEFENCE names, else the proved or the unproved one of the repository."""
    built = TOP / "crates/lefence/out"
    paths = [Path(os.environ.get("LEFENCE") or built / "lefence"), built / "unproved/lefence"]
    return next((path.resolve() for path in paths if path.is_file()), None)


def main() -> int:
    parser = argparse.ArgumentParser(description="Runs the commands that the documents show.")
    parser.add_argument("--write", action="store_true", help="write what the commands print into the pages")
    parser.add_argument("--list", action="store_true", help="print the commands that are not run")
    parser.add_argument("pages", metavar="PAGE", type=Path, nargs="*", help="the pages (default: all)")
    options = parser.parse_args()
    program = program_of_repository()
    if program is None:
        print("tools/shown.py: there is no program: LEFENCE=PATH names one", file=sys.stderr)
        return 2
    # (so that hubs are ended and folders removed)
    signal.signal(signal.SIGTERM, lambda number, _: sys.exit(128 + number))
    pages = options.pages or [TOP / "README.md", *sorted((TOP / "docs").glob("*.md")), TOP / "examples/README.md"]
    wrong = [text for page in pages for text in check_page(page, program, options.write, options.list)]
    for text in wrong:
        print(text)
    return 1 if wrong else 0


if __name__ == "__main__":
    sys.exit(main())
