"""The commands that README and the documents show run, and print what is shown. `tools/shown.py` runs them."""

from __future__ import annotations

import os
import subprocess
import sys
import unittest
from pathlib import Path

from support import FRONT, PROGRAM, FrontCase

TOP = FRONT.parent
SHOWN = TOP / "tools/shown.py"
PAGES = [TOP / "README.md", *sorted((TOP / "docs").glob("*.md")), TOP / "examples/README.md"]


class Pages(FrontCase):
    def shown(self, page: Path, *words: str) -> tuple[int, str]:
        """Runs the commands of a page; returns the status and what is printed."""
        done = subprocess.run(
            [sys.executable, SHOWN, *words, page],
            stdout=subprocess.PIPE,
            stderr=subprocess.STDOUT,
            text=True,
            env={**os.environ, "LEFENCE": PROGRAM},
        )
        return done.returncode, done.stdout

    def test_each_command_of_each_page_runs_and_prints_what_is_shown(self) -> None:
        for page in PAGES:
            with self.subTest(page.name):
                status, output = self.shown(page)
                self.assertEqual(status, 0, output)

    def test_the_examples_are_what_the_tool_makes(self) -> None:
        subprocess.run([sys.executable, TOP / "tools/examples.py", self.folder], check=True)
        for name in ("soc.lef", "soc.def", "soc_placed.def", "soc_v2.def"):
            self.assertEqual((TOP / "examples" / name).read_bytes(), (self.folder / name).read_bytes(), name)

    def test_what_is_wrong_is_found_and_may_be_written(self) -> None:
        right = "# Page\n\n```\n$ printf 'open A\\n' | ./lefence --unproved demo\nok 0 0\n```\n"
        form = "```\n./lefence check DEF LEF..\nlefence check chip.def tech.lef \\\n    cells.lef\n```\n"
        form += "\n```json\nlefence x\n```\n"
        page = self.folder / "page.md"
        page.write_text(right + form)
        self.assertEqual(self.shown(page), (0, ""))
        page.write_text(right.replace("ok 0 0", "..") + form)
        self.assertEqual(self.shown(page), (0, ""))
        for wrong, expected in (
            (right.replace("ok 0 0", "ok 0 1"), "status 0, prints:\nok 0 0\n"),
            (form.replace("check chip", "chek chip"), "status 2"),
            (form.replace("tech.lef", "none.lef"), "status 3"),
        ):
            page.write_text(wrong)
            status, output = self.shown(page)
            self.assertEqual((status, expected in output), (1, True), output)
        page.write_text(right.replace("ok 0 0", "x\ny"))
        self.assertEqual(self.shown(page, "--write"), (0, ""))
        self.assertEqual(page.read_text(), right)
        page.write_text(form)
        listed = f"{page}:2: ./lefence check DEF LEF..\n    it is a form, not a command\n"
        self.assertEqual(self.shown(page, "--list"), (0, listed))


if __name__ == "__main__":
    unittest.main()
