"""The wrong bodies of mutants/, must-fail/ and tests/planted/: what each replaces is in its file exactly once, and the
tests that must fail on those of tests/planted/ exist."""

from __future__ import annotations

import re
import unittest
from collections.abc import Iterator
from pathlib import Path

TOP = Path(__file__).resolve().parent.parent


def replaced_in(edit: Path) -> Iterator[tuple[str, str]]:
    """Yields the file and the replaced text of each change. Successive lines `old:` are one text of several lines."""
    file, old = "", []
    for line in [*edit.read_text().splitlines(), "new:"]:
        key, _, value = line.partition(":")
        if key == "old":
            old.append(value.removeprefix(" "))
        elif old:
            yield file, "\n".join(old)
            old = []
        if key == "file":
            file = value.strip()


class Edits(unittest.TestCase):
    def test_each_applies_once(self) -> None:
        crates = TOP / "crates"
        edits = [(edit, edit.parent.parent) for edit in crates.glob("*/mutants/*.edit")]
        edits += [(edit, edit.parent.parent) for edit in crates.glob("*/must-fail/*.edit")]
        edits += [(edit, TOP) for edit in (TOP / "tests/planted").glob("*.edit")]
        self.assertGreater(len(edits), 1000)
        found = [
            (edit.relative_to(TOP), file)
            for edit, folder in edits
            for file, text in replaced_in(edit)
            if (folder / file).read_text().count(text) != 1
        ]
        self.assertEqual(found, [])

    def test_each_planted_one_has_its_test(self) -> None:
        edits = sorted((TOP / "tests/planted").glob("*.edit"))
        for edit in edits:
            with self.subTest(edit.name):
                [name] = [line.removeprefix("test: ") for line in edit.read_text().splitlines() if line[:6] == "test: "]
                module, case, test = name.split(".")
                text = (TOP / f"tests/{module}.py").read_text()
                [body] = re.findall(rf"^class {case}\(.*?(?=^\S|\Z)", text, re.MULTILINE | re.DOTALL)
                self.assertIn(f"    def {test}(self)", body)


if __name__ == "__main__":
    unittest.main()
