"""The wire length in the summary, the report and the repair."""

from __future__ import annotations

import json
import unittest

from support import FrontCase

PIN = "PIN {} DIRECTION INPUT ; PORT LAYER m1 ; RECT {} 0.5 {} 1.5 ; END END {} "
LEF = f"""SITE core CLASS CORE ; SYMMETRY Y ; SIZE 0.2 BY 2.0 ; END core
MACRO INV CLASS CORE ; SIZE 0.4 BY 2.0 ; SYMMETRY X Y ; {PIN.format("A", 0, 0.2, "A")}{PIN.format("Z", 0.2, 0.4, "Z")}
END INV
END LIBRARY
"""
NETS = "NETS 1 ;\n- n ( a A ) ( b Z ) + USE SIGNAL ;\nEND NETS\n"


def design(place: str, nets: str = NETS) -> str:
    """Two rows with the cells a, at 0 0, and b."""
    rows = "".join(
        f"ROW r{at} core 0 {at * 2000} {side} DO 40 BY 1 STEP 200 0 ;\n" for at, side in enumerate(("N", "FS"))
    )
    cells = f"COMPONENTS 2 ;\n- a INV + PLACED ( 0 0 ) N ;\n- b INV + PLACED ( {place} ;\nEND COMPONENTS\n"
    return f"DESIGN t ;\nUNITS DISTANCE MICRONS 1000 ;\n{rows}{cells}{nets}END DESIGN\n"


class WireLengths(FrontCase):
    def setUp(self) -> None:
        super().setUp()
        self.lef.write_text(LEF)
        self.design.write_text(design("2000 0 ) N"))
        self.after = self.folder / "after.def"
        self.after.write_text(design("1000 2000 ) FS"))

    def summary(self, *words: str) -> str:
        done = self.tool("lefence-summary", self.design, self.after, self.lef, "--program", self.program, *words)
        self.assertEqual((done.returncode, done.stderr), (0, b""))
        return done.stdout.decode()

    def test_a_summary_has_it_before_and_after(self) -> None:
        self.assertIn("\n\nwire length of 1 net: 2.200 -> 3.200 microns (+45.5%)\n", self.summary())
        found = json.loads(self.summary("--json"))["wire_length"]
        self.assertEqual(found, {"before": 2.2, "after": 3.2, "nets": 1})

    def test_a_design_without_nets_has_none(self) -> None:
        for path in (self.design, self.after):
            path.write_text(path.read_text().replace(NETS, ""))
        self.assertNotIn("wire length", self.summary())
        self.assertIsNone(json.loads(self.summary("--json"))["wire_length"])

    def test_a_summary_says_why_it_is_not_known(self) -> None:
        self.after.write_text(self.after.read_text().replace("( b Z )", "( b Z"))
        self.assertIn("\n\nnote: the wire length is not known: ", self.summary())

    def test_a_report_and_a_repair_have_it(self) -> None:
        words = (self.lef, "--program", self.program)
        page = self.tool("lefence-report", self.after, *words, "--before", self.design).stdout.decode()
        self.assertIn("<dt>Wire length</dt><dd>2.200 -&gt; 3.200 microns (+45.5%)</dd>", page)
        self.design.write_text(design("2060 0 ) N"))
        done = self.tool("lefence-repair", self.design, *words, "--output", self.folder / "new.def")
        self.assertIn(b"lefence-repair: wire length: 2.260 -> 2.200 microns (-2.7%)\n", done.stderr)


if __name__ == "__main__":
    unittest.main()
