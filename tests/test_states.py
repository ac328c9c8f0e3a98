"""What `--save` writes and `--state` reads: the bytes, the replies after a restart, the status and the message.

No contract knows the contents of files.
"""

from __future__ import annotations

import os
import random
import re
import signal
import unittest
from collections.abc import Iterator
from pathlib import Path

from program import DEF, DESIGN, LEF, TESTS, InFolder, Service, Session, Start, free_port, run, small_files

# A session that makes changes, undoes and commits, opens a second session and sets a padding, and its replies.
LINES = [
    "open A",
    "place A 0 a1 0 0 N",
    "place A 0 a2 400 0 N",
    "tidy A 0",
    "commit A 0",
    "unplace A 0 a1",
    "open A",
    "undo A 0",
    "swap A 0 a1 a2",
    "open B",
    "place B 0 b1 6000 0 N",
    "pad B 0 2",
    "revert A 0",
    "undo A 0",
    "where A 0 a1",
    "place A 1 a1 0 0 N",
    "sync A 1",
    "check B 0",
    "def A 0",
    "close A 1",
    "open A",
]
# The state of the small design as loaded.
LOADED = """\
lefence-state 1
teams 3
team A 0 0 8 3 0
-
-
-
-
-
-
-
-
a1 - -
a2 - -
a3 - -
team B 0 0 8 1 0
-
-
-
-
-
-
-
-
b1 - -
team - 0 0 8 1 0
-
-
-
-
-
-
-
-
g1 - -
"""
# The same after team B has opened a session, placed b1, committed and placed b1 again.
CHANGED = LOADED.replace("team B 0 0 8 1 0\n-\n", "team B 3 0 8 1 2\n3\n").replace(
    "b1 - -\n", "b1 6200,0,N 6000,0,N\nundo 1\n0 6000,0,N\nundo 1\n0 -\n"
)
CHANGED_BY = "open B\nplace B 0 b1 6000 0 N\ncommit B 0\nplace B 0 b1 6200 0 N\n"
# A state in which not all cells of team A are placed, with two undo entries.
PLACED = (
    LOADED.replace("team A 0 0 8 3 0\n-\n", "team A 3 0 8 3 2\n3\n")
    .replace("a1 - -\n", "a1 200,0,N 0,0,N\n")
    .replace("a3 - -\n", "a3 - -\nundo 1\n0 0,0,N\nundo 1\n0 -\n")
)

# Worked rows, each request with its reply below it (tools/rows.py describes their form).
ROWS = TESTS.parent / "crates/lefence_rows/rows"
# The most places at which a row is cut. The longest rows only search for places.
CUTS = 40


def joined(lines: list[str]) -> str:
    return "".join(f"{line}\n" for line in lines)


def row_texts() -> Iterator[tuple[str, list[str]]]:
    """The rows that only replace lines of the small design and send requests: the position and the lines of each."""
    for path in sorted(ROWS.glob("*.rows")):
        for row in re.split(r"(?m)^# ", path.read_bytes().decode())[1:]:
            heading, *lines = [line for line in row.split("\n") if line]
            settings = [line for line in lines if line.startswith("= ")]
            if "loaded" in lines and "> " in row and all(line.startswith(("= def ", "= lef ")) for line in settings):
                yield f"{path.stem}: {heading}", lines


class States(InFolder):
    """States of the small design, in their own folder."""

    def setUp(self) -> None:
        super().setUp()
        self.state = self.folder / "w.state"

    def save(self, lines: str, words: list[str] | None = None, start: Start = Start()) -> tuple[int, str, str]:
        return run(["replay", *DESIGN, *(words or []), "--save", str(self.state)], lines, start)

    def resume(self, lines: str, words: list[str] | None = None) -> tuple[int, str, str]:
        return run(["replay", *DESIGN, "--state", str(self.state), *(words or [])], lines)


class Slots(States):
    """Teams with another number of session slots than 8."""

    def test_a_team_has_the_requested_number_of_sessions(self) -> None:
        for most in (8, 1, 9, 64):
            words = ["--sessions", str(most)] if most != 8 else []
            with self.subTest(most):
                replies = [f"ok {number} 0" for number in range(most)] + ["no 10 SessionsFull"]
                self.assertEqual(run(["replay", *DESIGN, *words], "open A\n" * (most + 1)), (0, joined(replies), ""))

    def test_of_a_service(self) -> None:
        with Service(1, [*DESIGN, "--sessions", "9"]) as service:
            with service.client() as client:
                self.assertEqual(client.ask_all(["open A"] * 10)[7:], ["ok 7 0", "ok 8 0", "no 10 SessionsFull"])

    def test_a_state_belongs_to_one_number_of_slots(self) -> None:
        nine = ["--sessions", "9"]
        self.assertEqual(self.save("open A\n" * 9, nine)[0], 0)
        self.assertEqual(self.resume("sync A 8\nopen A\n", nine), (0, "ok 0\nno 10 SessionsFull\n", ""))
        message = f"lefence: 26 OtherDesign line 3\nlefence: state file {self.state}, line 3: team A 0 0 9 3 0\n"
        self.assertEqual(self.resume("open A\n"), (1, "", message))
        self.assertEqual(self.resume("open A\n", ["--sessions", "10"]), (1, "", message))
        for verb in ("check", "describe", "wirelength"):
            with self.subTest(verb):
                looked = [verb, *DESIGN, "--state", str(self.state)]
                self.assertEqual(run(looked), (1, "", message))
                self.assertEqual(run([*looked, *nine]), run([verb, *DESIGN]))

    def test_a_malformed_number(self) -> None:
        for number in ("0", "65", "-1", "x", "", "4294967304"):
            for verb in ("check", "describe", "wirelength", "replay", "repair", "improve"):
                with self.subTest((verb, number)):
                    status, written, said = run([verb, *DESIGN, f"--sessions={number}"], "open A\n")
                    self.assertEqual((status, written, said.split("\n")[0]), (2, "", "lefence: usage"))
        self.assertEqual(run(["demo", "--sessions", "9"])[0], 2)


class Saved(States):
    """States that are written and read again."""

    def test_the_text_of_a_loaded_design(self) -> None:
        self.assertEqual(self.save(""), (0, "", ""))
        self.assertEqual(self.state.read_text(), LOADED)
        self.assertEqual(self.names(), ["w.state"])

    def test_the_text_after_changes(self) -> None:
        self.assertEqual(self.save(CHANGED_BY), (0, "ok 0 0\nok 1\nok 2\nok 3\n", ""))
        self.assertEqual(self.state.read_text(), CHANGED)

    def test_a_session_may_be_cut_after_each_line(self) -> None:
        _, whole, _ = run(["replay", *DESIGN], joined(LINES))
        for cut in range(len(LINES) + 1):
            with self.subTest(cut):
                status, before, said = self.save(joined(LINES[:cut]))
                self.assertEqual((status, said), (0, ""))
                status, after, said = self.resume(joined(LINES[cut:]))
                self.assertEqual((status, before + after, said), (0, whole, ""))

    def row_design(self, lines: list[str]) -> list[str]:
        """The paths of the texts of a row: those of the small design with the lines that it replaces."""
        texts = {"def": DEF.read_text(), "lef": LEF.read_text()}
        for line in lines:
            if line.startswith("= "):
                _, kind, number, new = line.split(" ", 3)
                each = texts[kind].split("\n")
                each[int(number) - 1] = new.replace("~", "\n")
                texts[kind] = "\n".join(each)
        for kind, text in texts.items():
            (self.folder / f"row.{kind}").write_text(text)
        return [str(self.folder / f"row.{kind}") for kind in texts]

    def test_each_worked_row_may_be_cut(self) -> None:
        rows = list(row_texts())
        self.assertGreater(len(rows), 50)
        for name, lines in rows:
            replay = ["replay", *self.row_design(lines)]
            requests = [line.removeprefix("> ") for line in lines if line.startswith("> ")]
            whole = joined([line for line in lines if not line.startswith(("= ", "> "))][1:])
            # (a session ends at its `bye`, and later lines get no reply)
            ends = [at for at, line in enumerate(requests) if line.split() == ["bye"]]
            for cut in range(1, min([len(requests), *ends]), 1 + len(requests) // CUTS):
                with self.subTest(name, cut=cut):
                    status, before, said = run([*replay, "--save", str(self.state)], joined(requests[:cut]))
                    self.assertEqual((status, said), (0, ""))
                    status, after, said = run([*replay, "--state", str(self.state)], joined(requests[cut:]))
                    self.assertEqual((status, before + after, said), (0, whole, ""))

    def test_a_state_is_gone_on_from_and_saved_over_itself(self) -> None:
        self.assertEqual(self.save("")[0], 0)
        replies = ""
        for line in LINES:
            status, reply, said = self.resume(f"{line}\n", ["--save", str(self.state)])
            self.assertEqual((status, said), (0, ""))
            replies += reply
        self.assertEqual(replies, run(["replay", *DESIGN], joined(LINES))[1])
        self.assertEqual(self.names(), ["w.state"])

    def test_what_is_restored_is_what_was_saved(self) -> None:
        self.assertEqual(self.save(joined(LINES))[0], 0)
        second = self.folder / "second.state"
        self.assertEqual(self.resume("", ["--save", str(second)]), (0, "", ""))
        self.assertEqual(second.read_bytes(), self.state.read_bytes())

    def test_the_export_of_a_restored_floor_is_that_of_the_saved_one(self) -> None:
        first, second = self.folder / "first.def", self.folder / "second.def"
        self.assertEqual(self.save(joined(LINES), ["--export", str(first)])[0], 0)
        self.assertEqual(self.resume("", ["--export", str(second)]), (0, "", ""))
        self.assertEqual(second.read_bytes(), first.read_bytes())
        self.assertNotEqual(second.read_bytes(), DEF.read_bytes())

    def test_of_a_service(self) -> None:
        whole = run(["replay", *DESIGN], joined(LINES))[1]
        half = len(LINES) // 2
        with Service(1, [*DESIGN, "--save", str(self.state)]) as service:
            with service.client() as client:
                client.send(joined(LINES[:half]).encode())
                before = client.rest()
            self.assertEqual(service.end()[0], 0)
        with Service(1, [*DESIGN, "--state", str(self.state)]) as service:
            with service.client() as client:
                client.send(joined(LINES[half:]).encode())
                after = client.rest()
            self.assertEqual(service.end()[0], 0)
        self.assertEqual(before + after, whole)

    def test_over_a_file_that_keeps_its_mode_and_through_a_link(self) -> None:
        real = self.folder / "real.state"
        real.write_text("older")
        real.chmod(0o640)
        self.state.symlink_to("real.state")
        self.assertEqual(self.save(""), (0, "", ""))
        self.assertEqual((real.read_text(), real.stat().st_mode & 0o777), (LOADED, 0o640))
        self.assertEqual((os.readlink(self.state), self.names()), ("real.state", ["real.state", "w.state"]))


class Long(InFolder):
    """A state text of more than two megabytes."""

    def test_all_of_it_is_read(self) -> None:
        text, state = self.folder / "x.def", self.folder / "x.state"
        names = [f"{cell:04}{'c' * 1_020}" for cell in range(2_100)]
        rows = "ROW r0 core 0 0 N DO 4200 BY 1 STEP 200 0 ;\n"
        cells = "".join(f"- {name} INV + PLACED ( {400 * at} 0 ) N ;\n" for at, name in enumerate(names))
        text.write_text(
            f"VERSION 5.8 ;\nDESIGN w ;\nUNITS DISTANCE MICRONS 1000 ;\n{rows}"
            f"COMPONENTS {len(names)} ;\n{cells}END COMPONENTS\nEND DESIGN\n"
        )
        words = ["replay", str(text), str(LEF)]
        lines = f"open -\nunplace - 0 {names[-1]}\n"
        self.assertEqual(run([*words, "--save", str(state)], lines), (0, "ok 0 0\nok 1\n", ""))
        self.assertGreater(state.stat().st_size, 1 << 21)
        ran = run([*words, "--state", str(state)], "".join(f"where - 0 {name}\n" for name in names[-2:]))
        self.assertEqual(ran, (0, f"ok {400 * 2_098} 0 N\nno 6 Unplaced {names[-1]}\n", ""))


class NotSaved(States):
    """States that are not written: older files are unchanged."""

    def unsaved(self, target: Path | str, why: str = "") -> str:
        return f"lefence: File\nlefence: state file {target} cannot be written{why}\n"

    def test_into_a_folder_that_is_missing(self) -> None:
        missing = self.folder / "missing" / "w.state"
        words = [*DESIGN, "--save", str(missing)]
        said = self.unsaved(missing, ": there is no such folder")
        self.assertEqual(run(["replay", *words], "open A\n"), (3, "", said))
        bounds = ["--port", str(free_port()), "--connections", "1"]
        self.assertEqual(run(["serve", *words, *bounds]), (3, "", said))
        self.assertEqual(self.names(), [])

    def test_the_export_path_is_tried_first(self) -> None:
        export, save = self.folder / "missing" / "new.def", self.folder / "missing" / "w.state"
        ran = run(["replay", *DESIGN, "--save", str(save), "--export", str(export)], "open A\n")
        self.assertEqual(
            ran, (3, "", f"lefence: File\nlefence: export file {export} cannot be written: there is no such folder\n")
        )

    def test_beyond_a_limit_on_file_size(self) -> None:
        self.state.write_text("older")
        self.assertEqual(self.save("open A\n", [], Start(first=small_files)), (3, "ok 0 0\n", self.unsaved(self.state)))
        self.assertEqual((self.state.read_text(), self.names()), ("older", ["w.state"]))

    def test_where_the_device_is_full_the_text_is_exported(self) -> None:
        export = self.folder / "new.def"
        ran = run(["replay", *DESIGN, "--save", "/dev/full", "--export", str(export)], "open A\n")
        self.assertEqual(ran, (3, "ok 0 0\n", self.unsaved("/dev/full", ": the disk is full")))
        self.assertEqual(export.read_bytes(), DEF.read_bytes())

    def test_after_a_fault_of_the_lines(self) -> None:
        ran = self.save("open A\nopen A\n", ["--lines", "1"])
        self.assertEqual(ran, (3, "ok 0 0\n", "lefence: TooManyLines\n"))
        self.assertEqual(self.names(), [])

    def test_after_a_signal(self) -> None:
        session = Session(["replay", *DESIGN, "--save", str(self.state)])
        self.assertEqual(session.ask("open A"), "ok 0 0")
        session.process.send_signal(signal.SIGKILL)
        self.assertEqual(session.end(), (-signal.SIGKILL, ""))
        self.assertEqual(self.names(), [])


def edited(text: str, source: random.Random) -> str:
    """The text with some bytes, a word or a line removed, doubled or replaced by others of the text."""
    parts = re.findall(source.choice((r"(?s).", r"\S+|\s", r".*\n")), text)
    for _ in range(source.randint(1, 3)):
        at = source.randrange(len(parts))
        parts[at] = source.choice(("", 2 * parts[at], source.choice(parts)))
    return "".join(parts)


class Refused(States):
    """Texts that are no state of the design: no reply and no file is written."""

    def refuse(self, text: str | bytes, fault: str, line: int, shown: str) -> None:
        self.state.write_bytes(text if isinstance(text, bytes) else text.encode())
        save, export = self.folder / "new.state", self.folder / "new.def"
        message = f"lefence: {fault} line {line}\nlefence: state file {self.state}, line {line}: {shown}\n"
        words = ["--save", str(save), "--export", str(export)]
        self.assertEqual(self.resume("open A\n", words), (1, "", message))
        self.assertEqual(self.names(), ["w.state"])

    def test_a_text_that_ends_early(self) -> None:
        self.refuse("", "25 OtherVersion", 1, "")
        self.refuse(LOADED[:20], "2 UnexpectedEnd", 2, LOADED[16:20])
        for cut in range(len(LOADED)):
            with self.subTest(cut):
                self.state.write_text(LOADED[:cut])
                status, written, said = self.resume("open A\n")
                self.assertEqual((status, written), (1, ""))
                self.assertTrue(
                    said.startswith(("lefence: 2 UnexpectedEnd line ", "lefence: 25 OtherVersion line 1\n")), said
                )

    def test_each_kind_of_fault(self) -> None:
        cases = [
            ("lefence-state 1", "lefence-state 2", "25 OtherVersion", 1, "lefence-state 2"),
            ("teams 3", "teams 2", "26 OtherDesign", 2, "teams 2"),
            ("teams 3", "team 3", "3 Unexpected", 2, "team 3"),
            ("team A 3", "team C 3", "26 OtherDesign", 3, "team C 3 0 8 3 2"),
            ("team A 3 0 8 3 2", "team A 4000000001 0 8 3 2", "27 OutOfRange", 3, "team A 4000000001 0 8 3 2"),
            ("team A 3 0 8 3 2", "team A 4294967296 0 8 3 2", "4 BadNumber", 3, "team A 4294967296 0 8 3 2"),
            ("team A 3 0 8 3 2", "team A 3 17 8 3 2", "27 OutOfRange", 3, "team A 3 17 8 3 2"),
            ("team A 3 0 8 3 2", "team A 3 0 7 3 2", "26 OtherDesign", 3, "team A 3 0 7 3 2"),
            ("team A 3 0 8 3 2", "team A 3 0 8 4 2", "26 OtherDesign", 3, "team A 3 0 8 4 2"),
            ("team A 3 0 8 3 2", "team A 3 0 8 3 65", "27 OutOfRange", 3, "team A 3 0 8 3 65"),
            ("team A 3 0 8 3 2\n3", "team A 3 0 8 3 2\n4", "27 OutOfRange", 4, "4"),
            ("a2 - -", "a9 - -", "26 OtherDesign", 13, "a9 - -"),
            ("a2 - -", "a2 -", "4 BadNumber", 13, "a2 -"),
            ("a2 - -", "a2 - 2147483648,0,N", "4 BadNumber", 13, "a2 - 2147483648,0,N"),
            ("undo 1\n0 0,0,N", "undo 1\n3 0,0,N", "27 OutOfRange", 16, "3 0,0,N"),
            ("undo 1\n0 0,0,N", "undo 1\n0 0,0,Q", "4 BadNumber", 16, "0 0,0,Q"),
            ("a2 - -", "a2 - - -", "4 BadNumber", 13, "a2 - - -"),
            ("a2 - -\n", "a2 - -\na2 - -\n", "26 OtherDesign", 14, "a2 - -"),
            ("a2 - -\n", "", "26 OtherDesign", 13, "a3 - -"),
            ("undo 1\n0 0,0,N\n", "", "3 Unexpected", 17, "team B 0 0 8 1 0"),
        ]
        for old, new, fault, line, shown in cases:
            with self.subTest(new):
                self.assertEqual(PLACED.count(old), 1)
                self.refuse(PLACED.replace(old, new), fault, line, shown)
        self.refuse(PLACED + "\n", "3 Unexpected", PLACED.count("\n") + 1, "")

    def test_any_bytes(self) -> None:
        self.refuse(b"\x1f\x8b\x00" + b"x" * 100, "25 OtherVersion", 1, "\\x1f\\x8b\\x00" + "x" * 77)

    def test_edits_of_a_state(self) -> None:
        export, again = self.folder / "new.def", self.folder / "again.state"
        source = random.Random(1)
        accepted = 0
        for number in range(200):
            text = edited(PLACED, source)
            with self.subTest(number, text=text):
                self.state.write_text(text)
                status, written, said = self.resume("open A\n", ["--export", str(export), "--save", str(again)])
                if status == 0:
                    accepted += 1
                    self.assertRegex(written, r"^(ok \d|no 10 SessionsFull)")
                    export.unlink()
                    again.unlink()
                else:
                    self.assertEqual((status, written), (1, ""))
                    self.assertRegex(
                        said, r"^lefence: (2 UnexpectedEnd|3 Unexpected|4 BadNumber|2[567] \w+) line \d+\n"
                    )
                self.assertEqual(self.names(), ["w.state"])
        self.assertIn(accepted, range(1, 100))

    def test_a_state_of_another_design(self) -> None:
        other = self.folder / "other.def"
        other.write_text(DEF.read_text().replace("- a3 DBL", "- a4 DBL"))
        self.assertEqual(run(["replay", str(other), str(LEF), "--save", str(self.state)]), (0, "", ""))
        line = LOADED.split("\n").index("a3 - -") + 1
        message = f"lefence: 26 OtherDesign line {line}\nlefence: state file {self.state}, line {line}: a4 - -\n"
        self.assertEqual(self.resume("open A\n"), (1, "", message))

    def test_a_file_that_cannot_be_read(self) -> None:
        message = f"lefence: File\nlefence: state file {self.state} cannot be read: there is no such file\n"
        self.assertEqual(self.resume("open A\n"), (3, "", message))
        bounds = ["--port", str(free_port()), "--connections", "1"]
        self.assertEqual(run(["serve", *DESIGN, "--state", str(self.state), *bounds]), (3, "", message))

    def test_the_design_is_refused_before_the_state(self) -> None:
        broken = self.folder / "broken.def"
        broken.write_text("VERSION 5.8 ;\n")
        status, written, said = run(["replay", str(broken), str(LEF), "--state", str(self.state)], "open A\n")
        self.assertEqual((status, written), (1, ""))
        self.assertIn("DEF file", said)


# Legal places of all cells of the small design. The first two cells are next to each other.
PLACES = {"a1": (0, 0), "a2": (400, 0), "a3": (800, 0), "b1": (6000, 0), "g1": (4400, 0)}
CROSSED = {**PLACES, "a2": (200, 0)}


def state_at(places: dict[str, tuple[int, int]]) -> str:
    """A state with the cells at these working places, and all of them committed elsewhere."""
    return re.sub(
        "(?m)^([abg][0-9]) - -$",
        lambda found: f"{found[1]} {places[found[1]][0]},{places[found[1]][1]},N 2000,2000,FS",
        LOADED,
    )


def text_at(places: dict[str, tuple[int, int]]) -> str:
    """The DEF text with the cells at these places."""

    def placed(found: re.Match[str]) -> str:
        x, y = places[found[2]]
        return f"{found[1]} + PLACED ( {x} {y} ) N ;"

    return re.sub(r"(?m)^(- ([abg][0-9]) (?:INV|DBL)).* ;$", placed, DEF.read_text())


class LookedAt(States):
    """States that `check` and `describe` read."""

    def look(self, verb: str) -> tuple[int, str, str]:
        return run([verb, *DESIGN, "--state", str(self.state)])

    def test_a_state_in_which_the_design_is_legal(self) -> None:
        self.state.write_text(state_at(PLACES))
        self.assertEqual(self.look("check"), (0, '{"cells":5,"unplaced":0,"violations":[]}\n', ""))
        status, written, said = self.look("describe")
        self.assertEqual((status, said), (0, ""))
        cell = (
            '{"box":[400,0,800,2000],"height":2000,"kind":"cell","macro":"INV","name":"a2","orient":"N","other":null,'
            '"rule":null,"team":"A","width":400}'
        )
        self.assertIn(cell, written.split("\n"))

    def test_the_violations_are_those_of_the_state(self) -> None:
        self.state.write_text(state_at(CROSSED))
        overlaps = '{"cell":"a1","other":"a2","rule":8},{"cell":"a2","other":"a1","rule":8}'
        self.assertEqual(self.look("check"), (4, f'{{"cells":5,"unplaced":0,"violations":[{overlaps}]}}\n', ""))

    def test_working_places_of_a_session(self) -> None:
        self.assertEqual(self.save(CHANGED_BY)[0], 0)
        self.assertEqual(self.look("check"), (4, '{"cells":5,"unplaced":4,"violations":[]}\n', ""))
        self.assertIn(
            '{"box":[6200,0,6600,2000],"height":2000,"kind":"cell","macro":"INV","name":"b1"', self.look("describe")[1]
        )

    def test_committed_places_are_those_of_the_text_until_a_commit(self) -> None:
        words = ["check", *DESIGN, "--state", str(self.state), "--committed"]
        self.assertEqual(self.save("open A\nplace A 0 a1 0 0 N\n")[0], 0)
        self.assertEqual(run(words), run(["check", *DESIGN]))
        self.assertNotEqual(run(words), self.look("check"))
        # all committed at one place
        text = self.folder / "placed.def"
        text.write_text(text_at(dict.fromkeys(PLACES, (2000, 2000))).replace(") N ;", ") FS ;"))
        self.state.write_text(state_at(PLACES))
        self.assertEqual(run(words), run(["check", str(text), str(LEF)]))
        self.assertEqual(run(words)[0], 4)

    def test_without_a_state_both_places_are_those_of_the_text(self) -> None:
        self.assertEqual(run(["check", *DESIGN, "--committed"]), run(["check", *DESIGN]))

    def test_a_state_is_seen_as_a_text_with_its_places(self) -> None:
        text = self.folder / "placed.def"
        for places in (PLACES, CROSSED):
            self.state.write_text(state_at(places))
            text.write_text(text_at(places))
            for verb in ("check", "describe"):
                with self.subTest((verb, places)):
                    self.assertEqual(self.look(verb), run([verb, str(text), str(LEF)]))

    def test_places_of_the_text_play_no_part(self) -> None:
        text = self.folder / "placed.def"
        text.write_text(text_at(CROSSED))
        for state in (LOADED, state_at(PLACES)):
            self.state.write_text(state)
            for verb in ("check", "describe"):
                with self.subTest((verb, state)):
                    self.assertEqual(run([verb, str(text), str(LEF), "--state", str(self.state)]), self.look(verb))

    def test_the_state_of_the_loaded_design_shows_the_text(self) -> None:
        self.state.write_text(LOADED)
        for verb in ("check", "describe"):
            self.assertEqual(self.look(verb), run([verb, *DESIGN]))
        self.assertEqual((self.state.read_text(), self.names()), (LOADED, ["w.state"]))

    def test_what_is_no_state_of_the_design_is_refused(self) -> None:
        cases = [
            ("teams 3", "teams 2", "26 OtherDesign", 2, "teams 2"),
            ("lefence-state 1", "lefence-state 2", "25 OtherVersion", 1, "lefence-state 2"),
            ("team B 0 0 8 1 0", "team B 0 17 8 1 0", "27 OutOfRange", 15, "team B 0 17 8 1 0"),
        ]
        for old, new, fault, line, shown in cases:
            self.state.write_text(LOADED.replace(old, new))
            message = f"lefence: {fault} line {line}\nlefence: state file {self.state}, line {line}: {shown}\n"
            for verb in ("check", "describe"):
                with self.subTest((verb, new)):
                    self.assertEqual(self.look(verb), (1, "", message))

    def test_a_file_that_cannot_be_read(self) -> None:
        message = f"lefence: File\nlefence: state file {self.state} cannot be read: there is no such file\n"
        for verb in ("check", "describe"):
            self.assertEqual(self.look(verb), (3, "", message))


if __name__ == "__main__":
    unittest.main()
