"""Each allocation refused in turn, in the running program.

No contract can say that memory is available, or that `OutOfMemory` is replied only if an allocation was refused. A
small library (refuse.c) is preloaded into the program. It refuses allocations by their number: only the k-th of a
command, and all from the k-th on.
"""

from __future__ import annotations

import mmap
import os
import random
import struct
import subprocess
import tempfile
import unittest
from collections.abc import Iterator
from dataclasses import dataclass
from pathlib import Path

from program import DEF, LEF, PATIENCE, PROGRAM, TESTS, Session
from test_states import PLACED

ALL = 2**63
SHORT = "no 12 OutOfMemory"
# The verbs of random requests.
VERBS = ("place", "legalize", "unplace", "swap", "tidy", "undo", "revert", "commit", "pad", "check", "find", "def")
# The verbs that allocate nothing: they request no memory that could be refused.
WITHOUT_MEMORY = ("open", "close", "sync", "where", "undo", "pad", "def")
# The allocations without which a task succeeds: one of the command line, and for a check the first one after loading,
# for the list of the cells' places. If only that one is refused, it is requested again.
SPARED = 2
# How a task ends without memory: before its lines, or for the buffers of its lines.
NOT_DONE = [(1, "lefence: 24 OutOfMemory\n"), (3, "lefence: OutOfMemory\n")]
# The program that answers worked rows, and the line that replaces the rest of its output if it runs out of memory.
ROWS = TESTS.parent / "crates/lefence_rows/out/lefence_rows"
ENDED_SHORT = "lefence: 24 OutOfMemory"

PLACES = [("place A 0 a1 0 0 N", "ok 1"), ("place A 0 a2 400 0 N", "ok 2"), ("place A 0 a3 800 0 N", "ok 3")]
# Scripts over the small design: the changed lines of its DEF text, and requests with their replies.
SCRIPTS: list[tuple[str, dict[int, str], list[tuple[str, str]]]] = [
    (
        "reports",
        {18: "- b1 INV + PLACED ( 0 0 ) N ;"},
        [
            ("place A 0 a1 0 0 N", "ok 1"),
            ("check A 0", 'ok {"cells":3,"unplaced":2,"violations":[]}'),
            ("check B 0", 'ok {"cells":1,"unplaced":0,"violations":[{"cell":"b1","rule":6}]}'),
        ],
    ),
    (
        "undo",
        {},
        [
            *PLACES,
            ("undo A 0", "ok 4"),
            ("undo A 0", "ok 5"),
            ("undo A 0", "ok 6"),
            ("undo A 0", "no 9 NothingToUndo"),
            ("legalize A 0 a3 0 0", "ok 7 0 0 N"),
            ("unplace A 0 a3", "ok 8"),
        ],
    ),
    (
        "a tidy that finds no place",
        {11: "- A ( 0 0 ) ( 800 2000 ) + TYPE FENCE ;"},
        [("tidy A 0", "no 8 NoPlace a3"), ("where A 0 a1", "no 6 Unplaced a1"), ("undo A 0", "no 9 NothingToUndo")],
    ),
    (
        "tidy, commit and revert",
        {},
        [
            ("find A 0 a1 300 0", "ok 200 0 N"),
            ("tidy A 0", "ok 1 3"),
            ("commit A 0", "ok 2"),
            ("unplace A 0 a1", "ok 3"),
            ("unplace A 0 a1", "no 6 Unplaced a1"),
            ("revert A 0", "ok 4"),
            ("where A 0 a1", "ok 0 0 N"),
        ],
    ),
    (
        "swap",
        {},
        [
            *PLACES,
            ("swap A 0 a1 a2", "ok 4"),
            ("where A 0 a1", "ok 400 0 N"),
            ("undo A 0", "ok 5"),
            ("swap A 0 a1 a3", "no 7 Illegal 8 a3 a2"),
        ],
    ),
    (
        "paddings",
        {},
        [
            ("pad A 0 1", "ok 1"),
            ("place A 0 a1 0 0 N", "ok 2"),
            ("place A 0 a2 400 0 N", "no 7 Illegal 8 a2 a1"),
            ("find A 0 a2 0 0", "ok 600 0 N"),
            ("tidy A 0", "ok 3 2"),
            ("pad A 0 17", "no 1 BadRequest"),
            ("pad A 0 2", "ok 4"),
            ("commit A 0", "no 7 Illegal 8 a1 a2"),
            ("tidy A 0", "ok 5 2"),
            ("commit A 0", "ok 6"),
            ("undo A 0", "ok 7"),
            ("where A 0 a2", "ok 600 0 N"),
        ],
    ),
    (
        "a team's text",
        {},
        [
            ("place A 0 a1 0 0 N", "ok 1"),
            ("commit A 0", "no 6 Unplaced a2"),
            ("place A 0 b1 0 0 N", "no 5 NoCell"),
            ("place A 0 zz 0 0 N", "no 5 NoCell"),
        ],
    ),
]


def changed(lines: dict[int, str]) -> str:
    """The DEF text of the small design with other lines, numbered from 1."""
    text = DEF.read_text().split("\n")
    for number, line in lines.items():
        text[number - 1] = line
    return "\n".join(text)


def random_design(source: random.Random) -> str:
    """A design of two fences, and cells of one and two rows. Some are placed, and some of those illegally."""
    cells = [(f"{team}{n}", source.choice(("INV", "INV", "DBL"))) for team in "abg" for n in range(8)]
    rows = [f"ROW r{n} core 0 {2000 * n} {'FS' if n % 2 else 'N'} DO 50 BY 1 STEP 200 0 ;" for n in range(6)]

    def entry(name: str, mac: str) -> str:
        spot = f"( {200 * source.randrange(46)} {2000 * source.randrange(5)} ) {source.choice(('N', 'FS'))}"
        return f"- {name} {mac} + PLACED {spot} ;" if source.random() < 0.6 else f"- {name} {mac} ;"

    return "\n".join(
        [
            "VERSION 5.8 ;\nDESIGN r ;\nUNITS DISTANCE MICRONS 1000 ;",
            *rows,
            "REGIONS 2 ;\n- A ( 0 0 ) ( 4000 8000 ) + TYPE FENCE ;\n- B ( 6000 0 ) ( 10000 12000 ) + TYPE FENCE ;\n"
            "END REGIONS",
            f"COMPONENTS {len(cells)} ;",
            *(entry(*cell) for cell in cells),
            "END COMPONENTS\nGROUPS 2 ;\n- ga a* + REGION A ;\n- gb b* + REGION B ;\nEND GROUPS\nEND DESIGN\n",
        ]
    )


def random_requests(source: random.Random, count: int) -> list[str]:
    """Requests of all teams, each in its session 0."""
    found = []
    for _ in range(count):
        team = source.choice("AB-")
        cell, other = (f"{ {'A': 'a', 'B': 'b', '-': 'g'}[team]}{source.randrange(8)}" for _ in range(2))
        spot = f"{200 * source.randrange(50)} {2000 * source.randrange(6)}"
        verb = source.choice(VERBS)
        rest = {
            "place": f"{cell} {spot} {source.choice(('N', 'FS', 'FN'))}",
            "legalize": f"{cell} {spot}",
            "find": f"{cell} {spot}",
            "unplace": cell,
            "swap": f"{cell} {other}",
            "pad": f"{source.randrange(4)}",
        }.get(verb, "")
        found.append(f"{verb} {team} 0 {rest}".strip())
    return found


# Twenty cells in two rows. Each is wired to one that is far away.
WIRED_LEF = """SITE core CLASS CORE ; SIZE 0.2 BY 2.0 ; END core
MACRO INV CLASS CORE ; SIZE 0.4 BY 2.0 ; SYMMETRY X Y ; SITE core ;
PIN A PORT LAYER m1 ; RECT 0.0 0.9 0.1 1.1 ; END END A
PIN Y PORT LAYER m1 ; RECT 0.3 0.9 0.4 1.1 ; END END Y
END INV
END LIBRARY
"""
WIRED_DEF = "".join(
    [
        "VERSION 5.8 ;\nDESIGN wired ;\nUNITS DISTANCE MICRONS 1000 ;\nDIEAREA ( 0 0 ) ( 6000 4000 ) ;\n",
        *(f"ROW r{row} core 0 {2000 * row} {('N', 'FS')[row]} DO 30 BY 1 STEP 200 0 ;\n" for row in (0, 1)),
        "COMPONENTS 20 ;\n",
        *(
            f"- c{at} INV + PLACED ( {400 * (at // 2)} {2000 * (at % 2)} ) {('N', 'FS')[at % 2]} ;\n"
            for at in range(20)
        ),
        "END COMPONENTS\nNETS 10 ;\n",
        *(f"- n{at} ( c{at} Y ) ( c{19 - at} A ) ;\n" for at in range(10)),
        "END NETS\nEND DESIGN\n",
    ]
)


class Refusing:
    """The refusing library, and the file that controls it."""

    def __init__(self, folder: Path) -> None:
        self.library = folder / "refuse.so"
        words = ["cc", "-O2", "-fPIC", "-shared", "-o", str(self.library), str(TESTS / "refuse.c"), "-ldl"]
        subprocess.run(words, check=True)
        self.path = folder / "control"
        self.path.write_bytes(bytes(32))
        with open(self.path, "r+b") as file:
            self.numbers = mmap.mmap(file.fileno(), 32)
        self.environment = {**os.environ, "LD_PRELOAD": str(self.library), "REFUSE_CONTROL": str(self.path)}

    def refuse(self, first: int, last: int) -> None:
        """Refuses the allocations of these numbers from now on. The next one is number 1."""
        self.numbers[:] = struct.pack("=4Q", 0, first, last, 0)

    def refused(self) -> int:
        """The number of refused allocations. Refuses no more from now on."""
        count: int = struct.unpack("=4Q", self.numbers[:])[3]
        self.refuse(0, 0)
        return count


class WithRefusals(unittest.TestCase):
    """Tests that control one refusing library, in their own folder."""

    folder: tempfile.TemporaryDirectory[str]
    refusing: Refusing

    @classmethod
    def setUpClass(cls) -> None:
        cls.folder = tempfile.TemporaryDirectory(prefix="lefence-memory-")
        cls.refusing = Refusing(Path(cls.folder.name))

    @classmethod
    def tearDownClass(cls) -> None:
        cls.refusing.numbers.close()
        cls.folder.cleanup()

    def run_with(self, words: list[str], lines: str, first: int, last: int) -> tuple[int, str, str, int]:
        """Runs a program over these lines with these allocations refused. Returns its status, its output on both
        streams, and the number refused."""
        self.refusing.refuse(first, last)
        environment = self.refusing.environment
        ran = subprocess.run(words, env=environment, input=lines, capture_output=True, text=True, timeout=PATIENCE)
        return ran.returncode, ran.stdout, ran.stderr, self.refusing.refused()

    def numbers(self, words: list[str], lines: str) -> Iterator[tuple[int, int]]:
        """The allocations to refuse: each alone, and all from each on."""
        self.refusing.refuse(0, 0)
        subprocess.run(words, env=self.refusing.environment, input=lines, capture_output=True, text=True)
        requested = struct.unpack("=4Q", self.refusing.numbers[:])[0]
        self.assertGreater(requested, 100)
        for number in range(1, requested + 1):
            yield number, number
            yield number, ALL


class GrowthsRefused(WithRefusals):
    """Each command, each allocation: the reply is OutOfMemory, no cell moves, and repeating the command gets the usual
    reply."""

    def design(self, text: str) -> list[str]:
        path = Path(self.folder.name) / "design.def"
        path.write_text(text)
        return ["replay", str(path), str(LEF)]

    def open(self, words: list[str]) -> Session:
        self.refusing.refuse(0, 0)
        session = Session(words, self.refusing.environment)
        for team in "AB-":
            self.assertEqual(session.ask(f"open {team}"), "ok 0 0")
        return session

    def places(self, session: Session, cells: list[tuple[str, str]]) -> list[str]:
        return [session.ask(f"where {team} 0 {cell}") for team, cell in cells]

    def go(self, words: list[str], cells: list[tuple[str, str]], script: list[tuple[str, str]]) -> int:
        """Runs the script once for each allocation of each of its commands. Returns the number of refused
        allocations."""
        whole = 0
        for last in (0, ALL):
            session = self.open(words)
            for line, reply in script:
                before = self.places(session, cells)
                number = 1
                while True:
                    self.refusing.refuse(number, last or number)
                    answer = session.ask(line)
                    refused = self.refusing.refused()
                    if not refused:
                        self.assertEqual(answer, reply, line)
                        break
                    self.assertNotIn(line.split()[0], WITHOUT_MEMORY, f"{line}, growth {number}")
                    whole += refused
                    self.assertEqual(answer, SHORT, f"{line}, growth {number}")
                    self.assertEqual(self.places(session, cells), before, f"{line}, growth {number}")
                    number += 1
            status, said = session.end()
            self.assertEqual((status, said), (0, ""))
        return whole

    def sent_again(self, words: list[str], script: list[tuple[str, str]]) -> None:
        """Starts a new program for each allocation of each command: the repeated command, and all later ones, get the
        usual replies."""
        for at, (line, _) in enumerate(script):
            number, is_left = 1, True
            while is_left:
                session = self.open(words)
                for request, reply in script[:at]:
                    self.assertEqual(session.ask(request), reply)
                self.refusing.refuse(number, number)
                answer = session.ask(line)
                is_left = self.refusing.refused() > 0
                later = script[at:] if is_left else script[at + 1 :]
                self.assertEqual(answer, SHORT if is_left else script[at][1])
                for request, reply in later:
                    self.assertEqual(session.ask(request), reply, f"{line} was refused growth {number}")
                session.end()
                number += 1

    def test_scripts(self) -> None:
        cells = [("A", "a1"), ("A", "a2"), ("A", "a3"), ("B", "b1"), ("-", "g1")]
        for name, lines, script in SCRIPTS:
            with self.subTest(name):
                words = self.design(changed(lines))
                self.go(words, cells, script)
                self.sent_again(words, script)

    def test_random_designs(self) -> None:
        cells = [(team, f"{letter}{n}") for team, letter in (("A", "a"), ("B", "b"), ("-", "g")) for n in range(8)]
        for seed in range(4):
            with self.subTest(seed=seed):
                source = random.Random(seed)
                words = self.design(random_design(source))
                requests = random_requests(source, 40)
                plain = self.open(words)
                script = [(line, plain.ask(line)) for line in requests]
                plain.end()
                self.assertGreater(self.go(words, cells, script), 100)


class StartsRefused(WithRefusals):
    """Each allocation from the start of the program: the program ends without memory, or a command replies OutOfMemory.
    An older exported file stays whole."""

    def runs(self, words: list[str], lines: str, *targets: Path) -> Iterator[tuple[str, tuple[int, str, str]]]:
        """Runs the program once for each refused allocation, over older files. Yields the allocation's name, and the
        status, replies and messages."""
        for first, last in self.numbers(words, lines):
            for target in targets:
                target.write_text("old")
            status, written, said, refused = self.run_with(words, lines, first, last)
            self.assertGreater(refused, 0)
            yield f"growth {first} to {last}", (status, written, said)

    def test_check(self) -> None:
        words = [str(PROGRAM), "check", str(DEF), str(LEF)]
        usual = self.run_with(words, "", 0, 0)[:3]
        spared = []
        for growth, ended in self.runs(words, ""):
            if ended == usual:
                spared.append(growth)
            else:
                status, written, said = ended
                self.assertEqual((written, (status, said)), ("", NOT_DONE[0]), growth)
        self.assertLessEqual(len(spared), SPARED, spared)

    def test_replay_and_export(self) -> None:
        target = Path(self.folder.name) / "new.def"
        words = [str(PROGRAM), "replay", str(DEF), str(LEF), "--export", str(target)]
        lines = "open A\ntidy A 0\ncommit A 0\n"
        target.write_text("")
        usual = self.run_with(words, lines, 0, 0)[:3]
        self.assertEqual(usual, (0, "ok 0 0\nok 1 3\nok 2\n", ""))
        moved, unmoved = target.read_text(), DEF.read_text()
        spared = []
        for growth, (status, written, said) in self.runs(words, lines, target):
            with self.subTest(growth):
                if (status, written, said) == usual:
                    spared.append(growth)
                    self.assertEqual(target.read_text(), moved)
                elif status == 0:
                    self.assertIn(SHORT, written)
                    self.assertIn(target.read_text(), (moved, unmoved))
                else:
                    self.assertIn((status, said), NOT_DONE)
                    self.assertEqual(target.read_text(), "old")
        self.assertLessEqual(len(spared), SPARED, spared)

    def try_a_run_with_lines(self, words: list[str], targets: list[Path]) -> list[str]:
        """Refuses each allocation of a run that writes an exported text and its commands. Returns both texts."""
        usual = self.run_with(words, "", 0, 0)[:3]
        self.assertEqual((usual[0], usual[2]), (0, ""))
        done = [target.read_text() for target in targets]
        spared = []
        for growth, (status, written, said) in self.runs(words, "", *targets):
            with self.subTest(growth):
                left = [target.read_text() for target in targets]
                if (status, written, said) == usual:
                    spared.append(growth)
                    self.assertEqual(left, done)
                else:
                    self.assertEqual((status, said), NOT_DONE[0])
                    self.assertIn(written, ("", usual[1]))
                    # (the commands are written last)
                    self.assertIn(left, (["old", "old"], [done[0], "old"]))
        self.assertLessEqual(len(spared), SPARED, spared)
        return done

    def test_repair(self) -> None:
        targets = [Path(self.folder.name) / name for name in ("new.def", "lines.txt")]
        words = [str(PROGRAM), "repair", str(DEF), str(LEF), "--export", str(targets[0]), "--lines", str(targets[1])]
        self.try_a_run_with_lines(words, targets)

    def test_improve(self) -> None:
        folder = Path(self.folder.name)
        chip, cells, *targets = (folder / name for name in ("nets.def", "pins.lef", "better.def", "better.txt"))
        chip.write_text(WIRED_DEF)
        cells.write_text(WIRED_LEF)
        files = ["--export", str(targets[0]), "--lines", str(targets[1])]
        words = [str(PROGRAM), "improve", str(chip), str(cells), *files]
        done = self.try_a_run_with_lines(words, targets)
        self.assertIn("commit - 0\n", done[1])

    def test_restoring_and_saving(self) -> None:
        state, target = (Path(self.folder.name) / name for name in ("old.state", "new.state"))
        state.write_text(PLACED)
        words = [str(PROGRAM), "replay", str(DEF), str(LEF), "--state", str(state), "--save", str(target)]
        lines = "undo A 0\nlegalize A 0 a2 400 0\n"
        saved = []
        for requests, replies in ((lines, "ok 4\nok 5 400 0 N\n"), (lines[:9], "ok 4\n")):
            self.assertEqual(self.run_with(words, requests, 0, 0)[:3], (0, replies, ""))
            saved.append(target.read_text())
        moved, unmoved = saved
        spared = []
        for growth, (status, written, said) in self.runs(words, lines, target):
            with self.subTest(growth):
                if (status, written, said) == (0, "ok 4\nok 5 400 0 N\n", ""):
                    spared.append(growth)
                    self.assertEqual(target.read_text(), moved)
                elif status == 0:
                    self.assertEqual((written, said), (f"ok 4\n{SHORT}\n", ""))
                    self.assertEqual(target.read_text(), unmoved)
                else:
                    self.assertIn((status, said), NOT_DONE)
                    self.assertEqual(target.read_text(), "old")
        self.assertLessEqual(len(spared), SPARED, spared)


@dataclass(frozen=True)
class WorkedRow:
    """A row of lefence_rows: its settings, and its requests, each with its reply or the reply's first line."""

    name: str
    settings: list[str]
    script: list[tuple[str, str]]


WORKED_ROWS = [
    WorkedRow(
        "run, two undos",
        ["= run", "= limits 65535 1024 4000000 8 2 4000000000"],
        [
            ("open A", "ok 0 0"),
            *PLACES,
            ("undo A 0", "ok 4"),
            ("undo A 0", "ok 5"),
            ("undo A 0", "no 9 NothingToUndo"),
            ("where A 0 a1", "ok 0 0 N"),
            ("where A 0 a2", "no 6 Unplaced a2"),
        ],
    ),
    WorkedRow(
        "run, a DEF text",
        ["= run"],
        [
            ("open A", "ok 0 0"),
            PLACES[0],
            ("commit A 0", "no 6 Unplaced a2"),
            ("def A 0", "ok 320"),
            ("place A 0 b1 0 0 N", "no 5 NoCell"),
            ("place A 0 zz 0 0 N", "no 5 NoCell"),
        ],
    ),
    WorkedRow(
        "run, tidy and commit",
        ["= run"],
        [("open A", "ok 0 0"), *next(script for name, _, script in SCRIPTS if name == "tidy, commit and revert")],
    ),
    # (with its own limits a row is exported by the library and not by the program, which GrowthsRefused tests)
    WorkedRow(
        "an exported text",
        ["= export", "= limits 65535 1024 4000000 8 64 4000000000"],
        [("open A", "ok 0 0"), *PLACES, ("commit A 0", "ok 4")],
    ),
]


class RowsRefused(WithRefusals):
    """Worked rows that the library answers. If an allocation is refused, OutOfMemory replaces a reply, and the other
    replies are those of the row without that request; or it replaces the rest of the output. Nothing else is written,
    and the program ends as usual."""

    heading = "# A worked row."
    worked: WorkedRow
    # The output of the row if these of its requests ran out of memory.
    written_without: dict[tuple[int, ...], list[str]]

    def text_of(self, short: tuple[int, ...]) -> str:
        """The text of the row without these requests. Only the index of the rows searches for places."""
        requests = [request for at, (request, _) in enumerate(self.worked.script) if at not in short]
        return "\n".join([self.heading, "= index", *self.worked.settings, *requests, ""])

    def lines_of(self, written: str) -> list[str]:
        *lines, rest = written.split("\n")
        self.assertEqual(rest, "", "the last line has no end")
        return lines

    def replies_in(self, lines: list[str], short: tuple[int, ...]) -> tuple[list[list[str]], list[str]]:
        """The lines of each reply, except to these requests, and the lines after them: the exported text."""
        replies: list[list[str]] = []
        rest = list(lines)
        for at, (request, _) in enumerate(self.worked.script):
            if at in short or not rest:
                continue
            reply = [rest.pop(0)]
            left = int(reply[0][3:]) if request.startswith("def ") and reply[0].startswith("ok ") else 0
            while left > 0 and rest:
                reply.append(rest.pop(0))
                left -= len(reply[-1]) + 1
            replies.append(reply)
        return replies, rest

    def wanted(self, short: tuple[int, ...]) -> list[str]:
        """The expected output of the row if exactly these requests run out of memory."""
        if short not in self.written_without:
            status, written, said, _ = self.run_with([str(ROWS)], self.text_of(short), 0, 0)
            self.assertEqual((status, said), (0, ""))
            heading, loaded, *lines = self.lines_of(written)
            replies, rest = self.replies_in(lines, short)
            others = iter(replies)
            each = [[SHORT] if at in short else next(others) for at in range(len(self.worked.script))]
            self.written_without[short] = [heading, loaded, *(line for reply in each for line in reply), *rest]
        return self.written_without[short]

    def check(self, written: str) -> None:
        """The output is the expected one, or its first lines and the line that says that memory ran out."""
        lines = self.lines_of(written)
        is_ended = lines[-1:] == [ENDED_SHORT]
        found = lines[:-1] if is_ended else lines
        replies, _ = self.replies_in(found[2:], ())
        short = tuple(at for at, reply in enumerate(replies) if reply == [SHORT])
        for at in short:
            self.assertNotIn(self.worked.script[at][0].split()[0], ("open", "sync", "where", "undo"))
        wanted = self.wanted(short)
        self.assertEqual(found, wanted[: len(found)] if is_ended else wanted)

    def test_rows(self) -> None:
        for self.worked in WORKED_ROWS:
            self.written_without = {}
            words, text = [str(ROWS)], self.text_of(())
            usual = self.wanted(())
            replies, _ = self.replies_in(usual[2:], ())
            self.assertEqual([reply[0] for reply in replies], [reply for _, reply in self.worked.script])
            spared = []
            for first, last in self.numbers(words, text):
                status, written, said, refused = self.run_with(words, text, first, last)
                self.assertGreater(refused, 0)
                with self.subTest(row=self.worked.name, growth=first, last=last):
                    self.assertEqual((status, said), (0, ""))
                    self.check(written)
                if self.lines_of(written) == usual:
                    spared.append(first)
            self.assertLessEqual(len(spared), SPARED, spared)


if __name__ == "__main__":
    unittest.main()
