"""Small designs in the forms of fourteen libraries, contests and tools.

What loads, what `--look` says, what prepares them, and that `check` and `repair` then do the right thing.

The texts in data/forms are our own, in the forms that these write.
"""

from __future__ import annotations

import json
import subprocess
from collections import Counter
from pathlib import Path
from typing import NamedTuple
from unittest import main

from support import PROGRAM, FrontCase, without_table

from lefence.base.design import Design
from lefence.prepare.preparation import placed_in

TEXTS = Path(__file__).resolve().parent / "data/forms"


class Form(NamedTuple):
    """What becomes of a design: the program's refusal of the texts as they are, or nothing; the options that prepare
    it; then its cells, those without a place, and how many break which rule; and how many cells the repair moves, turns
    and places. NAME.look has the output of `--look` but the table of teams.
    """

    refusal: str
    options: str
    cells: int
    unplaced: int
    rules: dict[int, int]
    repaired: tuple[int, int, int]


FORMS = {
    "asap7": Form("", "", 6, 0, {4: 2, 5: 1, 8: 1}, (1, 2, 0)),
    "fakeram": Form(
        "3 Unexpected line 5", "--lef-output lef --fix fakeram* --halos", 5, 0, {7: 2, 8: 2}, (3, 0, 0)
    ),
    "gf180": Form("9 NoRows spm", "--lef-output lef", 5, 0, {2: 1, 8: 2}, (2, 0, 0)),
    "iccad2017": Form("", "--lef-output lef", 8, 0, {2: 7}, (7, 0, 0)),
    "icc2": Form("", "--fix SRAM1RW --halos", 5, 1, {7: 1, 8: 2}, (2, 0, 1)),
    "ihp": Form(
        "8 NoSite sg13g2_ioSite", "--drop-rows sg13g2_ioSite --as-fence PD_AON", 5, 0, {6: 2}, (2, 0, 0)
    ),
    "innovus": Form("9 NoRows chip", "--longest-pattern --adopt RG_* --halos", 8, 0, {2: 1, 7: 1}, (2, 0, 0)),
    "ispd2015": Form("", "", 8, 8, {}, (0, 0, 8)),
    "magic": Form("9 NoRows map9v3", "--site std", 6, 0, {8: 2}, (1, 0, 0)),
    "nangate45": Form("3 Unexpected line 18", "--lef-output lef", 6, 0, {2: 1, 4: 1, 8: 2}, (2, 1, 0)),
    "openlane": Form("", "--place-new", 9, 0, {2: 2, 7: 1, 8: 3}, (4, 1, 0)),
    "sky130": Form("", "--halos", 6, 1, {2: 1, 7: 1, 8: 2}, (3, 0, 1)),
    "superblue": Form("", "", 9, 1, {2: 6, 8: 2}, (7, 0, 1)),
    "voltage_areas": Form(
        "", "--as-fence VA_AON --group VA_CPU u_soc/u_cpu/*", 10, 1, {6: 1, 8: 2}, (3, 0, 1)
    ),
}


class Forms(FrontCase):
    def lefence(self, *words: str | Path) -> tuple[int, str, str]:
        done = subprocess.run([PROGRAM, *words], cwd=self.folder, capture_output=True, text=True)
        return done.returncode, done.stdout, done.stderr

    def prepare(self, *words: str | Path) -> tuple[int, str, str]:
        done = self.tool("lefence-prepare", *words, "--program", PROGRAM)
        return done.returncode, done.stdout.decode(), done.stderr.decode()

    def copy(self, name: str) -> list[str]:
        """Copies the texts of a form into the folder; returns their names, the DEF text first."""
        found = [TEXTS / f"{name}.def", *sorted(TEXTS.glob(f"{name}*.lef"))]
        for path in found:
            (self.folder / path.name).write_bytes(path.read_bytes())
        return [path.name for path in found]

    def test_what_loads_and_what_the_look_says(self) -> None:
        for name, form in FORMS.items():
            with self.subTest(name):
                texts = self.copy(name)
                status, _, errors = self.lefence("check", *texts)
                expected = (1, f"lefence: {form.refusal}") if form.refusal else (4, "")
                self.assertEqual((status, errors.partition("\n")[0]), expected)
                _, output, errors = self.prepare(*texts, "--look")
                look = (TEXTS / f"{name}.look").read_text()
                output = without_table(output.replace(f"{self.folder}/", ""))
                self.assertEqual((output, errors), (look, ""))

    def test_prepared_designs_are_checked_and_repaired(self) -> None:
        for name, form in FORMS.items():
            with self.subTest(name):
                texts = self.copy(name)
                status, _, errors = self.prepare(*texts, "-o", "new.def", *form.options.split())
                self.assertEqual(status, 0, errors)
                libraries = [f"lef/{text}" if "--lef-output" in form.options else text for text in texts[1:]]
                report = json.loads(self.lefence("check", "new.def", *libraries)[1])
                self.assertEqual((report["cells"], report["unplaced"]), (form.cells, form.unplaced))
                self.assertEqual(Counter(each["rule"] for each in report["violations"]), form.rules)
                status, output, errors = self.lefence("repair", "new.def", *libraries, "--export", "done.def")
                total = json.loads(output.splitlines()[-1])
                self.assertEqual((status, errors, total["left_cells"]), (0, "", 0), output)
                self.assertEqual(tuple(total[key] for key in ("moved", "turned", "placed")), form.repaired)
                self.assertEqual(self.lefence("check", "done.def", *libraries)[0], 0)
                self.put_back(texts[0], libraries)

    def put_back(self, original: str, libraries: list[str]) -> None:
        """The original gets the places of the repaired text."""
        status, _, errors = self.prepare("done.def", *libraries, "--back", original, "-o", "back.def")
        self.assertEqual(status, 0, errors)
        done, back = (self.places(name) for name in ("done.def", "back.def"))
        self.assertEqual({cell: back[cell] for cell in done}, done)

    def places(self, name: str) -> dict[bytes, tuple[int, int, bytes] | None]:
        """The places of the placed components of a text."""
        components = Design((self.folder / name).read_bytes()).entries(b"COMPONENTS")
        return {entry.name: placed_in(entry) for entry in components if entry.has(b"PLACED")}


if __name__ == "__main__":
    main()
