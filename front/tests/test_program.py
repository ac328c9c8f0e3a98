"""How the tools find the program, and how often they say what they do."""

from __future__ import annotations

import contextlib
import io
import os
import subprocess
import unittest
from pathlib import Path
from unittest import mock

from support import FRONT, PROGRAM, PROGRESS, FrontCase, tool_words

from lefence.base import program
from lefence.base.faults import Fault
from lefence.base.program import find_program
from lefence.base.progress import Progress


class Found(FrontCase):
    def setUp(self) -> None:
        super().setUp()
        self.proved, self.unproved = self.folder / "out/lefence", self.folder / "out/unproved/lefence"
        self.path = self.folder / "bin"
        self.path.mkdir()
        self.enterContext(mock.patch.multiple(program, _BUILT=self.proved, _UNPROVED=self.unproved))
        environment = {"PATH": f"{self.folder / 'scripts'}:{self.path}"}
        self.enterContext(mock.patch.dict(os.environ, environment))
        os.environ.pop("LEFENCE", None)
        self.put(self.folder / "scripts/lefence", b"#!/bin/sh\n")
        program._say_unproved.cache_clear()

    def put(self, path: Path, data: bytes = b"\x7fELF") -> str:
        path.parent.mkdir(parents=True, exist_ok=True)
        path.write_bytes(data)
        path.chmod(0o755)
        return str(path)

    def find(self, given: str | None = None) -> tuple[str, str]:
        """The path of the program, and what is printed on standard error."""
        with contextlib.redirect_stderr(io.StringIO()) as errors:
            return find_program(given), errors.getvalue()

    def test_each_place_comes_before_the_next(self) -> None:
        with self.assertRaisesRegex(Fault, "./lefence of the repository builds it, ./lefence --unproved without"):
            find_program(None)
        said = "lefence: this program is not proved; ./lefence proves and builds the one that is\n"
        unproved = self.put(self.unproved)
        self.assertEqual(self.find(), (unproved, said))
        # (said once in a run)
        self.assertEqual(self.find(), (unproved, ""))
        # a script on the path does not count: that of the repository would build the program
        for place in (self.proved, self.path / "lefence"):
            found = self.put(place)
            self.assertEqual(self.find(), (found, ""))
        os.environ["LEFENCE"] = self.put(self.folder / "named", b"#!/bin/sh\n")
        self.assertEqual(self.find(), (os.environ["LEFENCE"], ""))
        given = self.put(self.folder / "given", b"#!/bin/sh\n")
        self.assertEqual(self.find(given), (given, ""))

    def test_a_name_that_is_not_there(self) -> None:
        self.put(self.proved)
        with self.assertRaisesRegex(Fault, "^nothing: no such program; --program PATH names another one$"):
            find_program("nothing")
        os.environ["LEFENCE"] = "nowhere"
        with self.assertRaisesRegex(Fault, "^nowhere: no such program; LEFENCE of the environment names it; --program"):
            find_program(None)
        os.environ["LEFENCE"] = ""
        self.assertEqual(self.find(), (str(self.proved), ""))

    def test_a_tool_takes_the_program_of_the_environment(self) -> None:
        environment = {**os.environ, "LEFENCE": PROGRAM, "PATH": os.defpath}
        words = [*tool_words("lefence-check"), str(self.design), str(self.lef)]
        done = subprocess.run(words, capture_output=True, env=environment, cwd=self.folder)
        self.assertEqual((done.returncode, PROGRESS.sub(b"", done.stderr)), (4, b""))
        self.assertIn(b"NOT LEGAL", done.stdout)


class Progresses(unittest.TestCase):
    def lines(self, is_terminal: bool) -> list[str]:
        """The lines of 200 seconds of work, half a second for each cell."""
        clock = iter(range(1000))
        with (
            mock.patch("time.monotonic", lambda: next(clock) / 2),
            mock.patch("os.isatty", lambda descriptor: is_terminal),
            contextlib.redirect_stderr(io.StringIO()) as errors,
        ):
            for _ in Progress("tool", "cells").over(range(250)):
                pass
        return errors.getvalue().splitlines()

    def test_a_log_has_few_lines_and_a_terminal_many(self) -> None:
        self.assertLess(len(self.lines(is_terminal=False)), 9)
        self.assertGreater(len(self.lines(is_terminal=True)), 20)


class Script(FrontCase):
    def test_the_script_says_that_the_program_is_not_proved(self) -> None:
        room = self.folder / "repository"
        target = room / "crates/lefence/out/unproved/lefence"
        target.parent.mkdir(parents=True)
        target.symlink_to(PROGRAM)
        for name in ("crates.txt", "lefence"):
            (room / name).write_bytes((FRONT.parent / name).read_bytes())
            os.utime(room / name, (0, 0))
        (room / "lefence").chmod(0o755)
        unproved = b"lefence: this program is not proved; ./lefence without --unproved proves and builds the one that "
        unproved += b"is\n"
        words: list[str | Path] = [room / "lefence", "--unproved"]
        done = subprocess.run(words, input=b"open A\n", capture_output=True)
        self.assertEqual((done.returncode, done.stdout, done.stderr), (0, b"ok 0 0\n", unproved))


if __name__ == "__main__":
    unittest.main()
