"""The shell: replies in words, reports as tables, completion, and all three kinds of connections."""

from __future__ import annotations

import itertools
import os
import pty
import select
import sys
import time
import unittest

from support import PATIENCE, PROGRAM, TEAMS, HubCase, tool_words

from lefence.base.protocol import RULES
from lefence.client.cells import Cell
from lefence.client.endpoint import start_program
from lefence.client.refusals import violation_text
from lefence.client.verbs import Place, Report, Violation
from lefence.shell.commands import COMMANDS
from lefence.shell.hints import repair_command
from lefence.shell.lengths import LengthUnit
from lefence.shell.shell import Shell
from lefence.shell.words import MOST_CELLS, MOST_VIOLATIONS, cell_lines, report_lines


class Words(HubCase):
    """A session with lines from a pipe."""

    def say(self, *lines: str | bytes, words: tuple[str, ...] = ()) -> list[str]:
        text = b"".join((line if isinstance(line, bytes) else line.encode()) + b"\n" for line in lines)
        where = words or (str(self.design), str(self.lef), "--program", PROGRAM)
        done = self.tool("lefence-shell", *where, lines=text)
        self.assertEqual((done.returncode, done.stderr), (0, b""))
        return done.stdout.decode("utf-8", "backslashreplace").splitlines()

    def test_replies_are_printed_in_words(self) -> None:
        lines = {
            "place f0c1 0 0 N": "no: choose a team first: `team NAME`",
            "teams": " ".join([f"f{team}" for team in range(TEAMS)] + ["-"]),
            "team f0": "session 0 of team f0, revision 0",
            "place f0c1 0 0 N ": "done; revision 1",
            "place f0c2 200 0 N": "no: f0c2 would overlap f0c1 or be too near to it\n"
            "the nearest legal place is 400 0 N, 200 away: `legalize f0c2 200 0`",
            "place f1c1 0 0 N": "no: the team has no such cell",
            "place f0c2 100 0 N": "no: f0c2 would be on no core row, off its x grid or beyond its ends\n"
            "the nearest legal place is 400 0 N, 300 away: `legalize f0c2 100 0`",
            "place f0c2 800 0 S": "no: f0c2 may not have this orientation there\n"
            "the nearest legal place is 800 0 N, turned: `legalize f0c2 800 0`",
            "where f0c1": "f0c1 is at (0, 0), N",
            "where f0c2": "no: f0c2 has no place",
            "find f0c2 0 0": "f0c2 would best be at (400, 0), N",
            "legalize f0c2 400 0": "f0c2 is now at (400, 0), N; revision 2",
            "tidy": "8 cells moved; revision 3",
            "sync": "synced; revision 3",
            "undo": "done; revision 4",
            "team Z": "no: no such team here",
            "place f0c1 1.5 0 N": "no: 1.5 is not a whole number of database units; `units microns` takes microns",
            "place f0c1": "no: place takes CELL X Y O",
            "place f0c1 0 0 n": "no: n is not an orientation of DEF: N W S E FN FW FS FE",
            "place f0c1 0 0 MX": "no: MX is not an orientation of DEF, which calls it FS: N W S E FN FW FS FE",
            "raw open f0": "ok 1 4",
            "raw nonsense": "no 1 BadRequest",
            "pad 17": "no: pad takes 0 to 16 core sites",
            "export /tmp/x": "no: export is for the operator's socket",
            "frobnicate": "no such command: frobnicate; `help` lists them",
            "close": "done",
            "team f0 ": "session 0 of team f0, revision 4",
        }
        self.assertEqual(self.say(*lines), "\n".join(lines.values()).split("\n"))

    def test_a_cell_that_is_refused_where_it_is_breaks_the_rule_now(self) -> None:
        output = self.say("team f0", "place f0c1 0 0 N", "place f0c2 400 0 N", "pad 1", "place f0c2 400 0 N")
        expected = ["no: f0c2 overlaps f0c1 or is too near to it"]
        expected += ["the nearest legal place is 600 0 N, 200 away: `legalize f0c2 400 0`"]
        self.assertEqual(output[-2:], expected)

    def test_a_refused_commit_says_what_is(self) -> None:
        *_, last = self.say("team f0", "tidy", "pad 1", "commit")
        self.assertRegex(last, r"^no: f0c\d overlaps f0c\d or is too near to it$")

    def test_raw_lines_and_replies(self) -> None:
        text = b"open f0\nplace f0 0 f0c1 0 0 N\ndef f0 0\n\nwhere f0 0 f0c2\r\nx\nsync f0 0"
        done = self.tool("lefence-shell", "t.def", "t.lef", "--program", PROGRAM, "--raw", lines=text)
        self.assertEqual((done.returncode, done.stdout, done.stderr), (0, self.direct(text), b""))

    def test_a_strict_shell_ends_with_1_if_a_line_was_refused(self) -> None:
        scripts = {
            ("team f0", "place f0c1 0 0 N", "check"): 0,
            ("team f0", "place f0c1 100 0 N", "check"): 1,
            ("team f0", "nonsense"): 1,
            ("raw open f0", "raw place f0 0 f0c1 100 0 N"): 1,
        }
        for lines, status in scripts.items():
            text = "".join(f"{line}\n" for line in lines).encode()
            done = self.tool("lefence-shell", "t.def", "t.lef", "--program", PROGRAM, "--strict", lines=text)
            self.assertEqual(done.returncode, status, done.stdout)
        for line, status in ((b"open f0\ndef f0 0\n", 0), (b"open f0\nopen Z\n", 1)):
            done = self.tool("lefence-shell", "t.def", "t.lef", "--program", PROGRAM, "--strict", "--raw", lines=line)
            self.assertEqual(done.returncode, status, done.stdout)

    def test_a_report_is_a_table(self) -> None:
        output = self.say("team f0", "place f0c1 0 0 N", "place f0c2 400 0 N", "pad 1", "check")
        expected = [
            "10 cells, 8 unplaced, 2 break a rule",
            "cell  at (database units)  nearest legal place  rule",
            "f0c1  0 0 N                1000 0 N, 1000 away  8 Overlap: overlaps f0c2 or is too near to it",
            "f0c2  400 0 N              600 0 N, 200 away    8 Overlap: overlaps f0c1 or is too near to it",
        ]
        self.assertEqual(output[-4:], expected)
        self.assertEqual(violation_text(8, "a", "b", is_there=True), "a overlaps b")
        for rule in RULES:
            self.assertTrue(violation_text(rule, "a", "b").startswith("a "))

    def test_a_report_lists_twenty_violations_and_counts_the_rest(self) -> None:
        found = tuple(Violation(f"c{number}", 1 + number % 8, "other") for number in range(30))
        places = [Place(1000 * number, 0, "N") for number in range(MOST_VIOLATIONS)]
        nearest = [None, Place(1000, 0, "FS"), *places[3:], None]
        lines = report_lines(Report(40, 2, found), [*places[:-1], None], nearest, LengthUnit(1000))
        self.assertEqual((len(lines), lines[0]), (23, "40 cells, 2 unplaced, 30 break a rule"))
        self.assertEqual(lines[-1], "and 10 more")
        self.assertEqual(lines[1].split("  ")[:2], ["cell", "at (microns)"])
        self.assertRegex(lines[2], r"^c0 +0 0 N +none +1 Height: is not 1 to 8 core sites high$")
        self.assertRegex(lines[3], r"^c1 +1 0 N +1 0 FS, turned +2 Row: is on no core row, ")
        self.assertRegex(lines[4], r"^c2 +2 0 N +3 0 N, 1 away +3 Stand: lacks rows ")
        self.assertRegex(lines[21], r"^c19 +- +none +4 Orient: ")

    def test_if_tidy_finds_no_place_there_is_a_hint(self) -> None:
        # Four rows of forty sites have room for eighty cells of two sites, but for fewer of three.
        parts = "".join(f"- f0d{at} BUF ;\n" for at in range(60))
        self.design.write_text(
            self.design.read_text().replace("END COMPONENTS", f"{parts}END COMPONENTS").replace("f0c*", "f0*")
        )
        output = self.say("team f0", "tidy", "check")
        self.assertRegex(output[1], r"^no: there is no legal place for f0d\d+$")
        self.assertIn("nothing has moved", output[2])
        self.assertTrue(output[3].endswith(f": lefence-repair {self.design} {self.lef} --team f0 --output NEW.def"))
        self.assertEqual(output[4], "70 cells, 70 unplaced, 0 break a rule")

    def test_a_hint_names_the_command_that_repairs(self) -> None:
        for where, names_team, expected in (
            (["s/A.sock"], False, "DEF LEF.. --socket s/A.sock"),
            (["s/A.query.sock"], False, "DEF LEF.. --socket s/A.sock"),
            (["s/operator.sock"], True, "DEF LEF.. --socket s/operator.sock --team A"),
            (["localhost:5800"], True, "DEF LEF.. --socket localhost:5800 --team A"),
            (["a b.def", "t.lef"], True, "'a b.def' t.lef --team A --output NEW.def"),
        ):
            self.assertEqual(repair_command(where, "A", names_team), f"lefence-repair {expected}")

    def test_if_no_place_is_legal_there_is_a_hint(self) -> None:
        self.start()
        # Two cells with this padding leave no room in a row.
        pairs = zip((1, 2, 4, 5, 7, 8, 0, 3), itertools.cycle((2400, 6000)))
        lines = [
            f"place f0c{cell} {x - 200 * (cell == 0)} {at // 2 * 2000} {('N', 'FS')[at // 2 % 2]}"
            for at, (cell, x) in enumerate(pairs)
        ]
        socket = self.folder / "s/f0.sock"
        lines += ["place f0c6 0 0 N", "legalize f0c6 0 0"]
        output = self.say("pad 16", *lines, words=(str(socket),))[10:]
        repair = f"lefence-repair DEF LEF.. --socket {socket}"
        self.assertEqual(output[0], "no: f0c6 would overlap f0c1 or be too near to it")
        hint = "no place of the team is legal for f0c6 now; this also moves other cells"
        self.assertEqual(output[1], f"{hint}: {repair}")
        self.assertEqual(output[2:4], ["no: there is no legal place for f0c6", "other cells may block the space"])
        self.assertEqual(output[4], f"this repairs the team, and also moves legal cells if it must: {repair}")

    def test_cells_are_listed_by_pattern_and_by_distance(self) -> None:
        names = "a[1] a[2] a1 b".split()
        text = self.design.read_text()
        for at, name in enumerate(names):
            text = text.replace(f"- f0c{at} ", f"- {name} ").replace("- g0 f0c* ", f"- g0 f0c* {' '.join(names)} ")
        self.design.write_text(text)
        placed = ["place a[1] 0 0 N", "place a[2] 800 2000 FS", "place b 600 0 N"]
        output = self.say("team f0", *placed, "cells a[*", "cells ?", "cells x*", "near a[1]", "near b 1")[4:]
        expected = """\
2 of 10 cells, 0 unplaced
cell  macro  place (database units)
a[1]  BUF    0 0 N
a[2]  INV    800 2000 FS
1 of 10 cells, 0 unplaced
cell  macro  place (database units)
b     BUF    600 0 N
0 of 10 cells, 0 unplaced
a[1] is at (0, 0), N; 2 other cells with a place
cell  macro  place (database units)  distance
b     BUF    600 0 N                      600
a[2]  INV    800 2000 FS                 2800
b is at (600, 0), N; 2 other cells with a place
cell  macro  place (database units)  distance
a[1]  BUF    0 0 N                        600"""
        self.assertEqual(output, expected.splitlines())
        output = self.say("team f0", "cells", "near a1", "near x", "near", "near b x", "cells a b")[1:]
        self.assertEqual((output[0], output[2]), ("10 cells, 10 unplaced", "a[1]  BUF    unplaced"))
        refusals = ["a1 has no place", "the team has no such cell", "near takes CELL, and N if it should not be 10"]
        refusals += ["near takes CELL and N, a number of cells", "cells takes at most a PATTERN"]
        self.assertEqual(output[12:], [f"no: {text}" for text in refusals])

    def test_many_cells_are_counted(self) -> None:
        cells = [Cell(f"u{number}", "INV", None, None, None) for number in range(MOST_CELLS + 1)]
        lines = cell_lines(cells, None, LengthUnit())
        self.assertEqual((len(lines), lines[-1]), (MOST_CELLS + 3, "and 1 more; `cells PATTERN` lists some"))

    def test_lengths_may_be_microns(self) -> None:
        lines = {
            "units": "lengths are database units",
            "units microns": "lengths are microns of 1000 database units",
            "place f0c1 0.4 2 FS": "done; revision 1",
            "where  f0c1": "f0c1 is at (0.4, 2), FS",
            "find f0c2 1.23 .2": "f0c2 would best be at (1.2, 0), N",
            "place f0c2 0.0001 0 N": "no: 0.0001 microns are not a whole number of database units, of which a micron"
            " has 1000",
            "place f0c2 x 0 N": "no: x is not a number of microns",
            "place f0c2 0.6 2 FS": "no: f0c2 would overlap f0c1 or be too near to it\n"
            "the nearest legal place is 0.8 2 S, 0.2 away: `legalize f0c2 0.6 2`",
            "raw where f0 0 f0c1": "ok 400 2000 FS",
            "units database": "lengths are database units",
            "where f0c1": "f0c1 is at (400, 2000), FS",
            "units meters": "no: units takes `microns` or `database`",
        }
        output = self.say("team f0", *lines)
        self.assertEqual(output[1:], "\n".join(lines.values()).split("\n"))

    def test_a_hub_tells_its_units(self) -> None:
        self.start()
        output = self.say("units microns", "legalize f0c1 0.5 0", words=(str(self.folder / "s/f0.sock"),))
        self.assertEqual(output[0], "lengths are microns of 1000 database units")
        self.assertEqual(output[2], "f0c1 is now at (0.4, 0), N; revision 1")

    def test_the_history_has_the_last_lines_with_their_replies(self) -> None:
        lines = ["history", "where f0c1", "team f0", "place f0c1 0 0 N", "history 2"]
        output = self.say(*lines, "check", "def", "raw x", "history", "history 0", "history x")
        start = ["no line yet", "no: choose a team first: `team NAME`", "session 0 of team f0, revision 0"]
        self.assertEqual(output[:4], [*start, "done; revision 1"])
        last = ["lefence> team f0", start[2], "f0> place f0c1 0 0 N", "done; revision 1"]
        self.assertEqual(output[4:8], last)
        at = output.index("lefence> where f0c1")
        found = ["lefence> where f0c1", start[1], *last, "f0> check", "10 cells, 9 unplaced, 0 break a rule", "f0> def"]
        self.assertEqual(output[at : at + len(found)], found)
        self.assertRegex(output[at + len(found) + 3], r"^\.\. and \d+ more lines$")
        refused = "no: history takes N, a number of lines"
        self.assertEqual(output[-4:], ["f0> raw x", "no 1 BadRequest", "no line yet", refused])

    def test_help_lists_each_verb(self) -> None:
        output = self.say("help", "help place", "help freeze", "help nonsense")
        place = ["place CELL X Y O", "  sets the cell's working place, if the place breaks no rule"]
        freeze = "  has changes by the team's own clients refused; the operator can still change the team"
        freeze += "; only on the operator's socket of a hub"
        self.assertEqual(output[-5:], [*place, "freeze TEAM", freeze, "no such command: nonsense"])
        self.assertTrue(all(any(line.startswith(word) for line in output) for word in COMMANDS))
        at = output.index("Only on the operator's socket of a hub:")
        found = [line.split()[0] for line in output[at + 1 : -5]]
        self.assertEqual(found, ["status", "freeze", "thaw", "drop", "state", "export"])

    def test_any_bytes_are_answered(self) -> None:
        lines = [
            b"\xff\xfe",
            b"team f0",
            b"place \xff 0 0 N",
            b"\x00",
            b"raw \xff\x01",
            b"x" * 9000,
            b"help \xff",
            b"def",
            b"\r",
        ]
        output = self.say(*lines, b"quit", b"never")
        self.assertEqual(len([line for line in output if line.startswith("no")]), 6)
        self.assertIn("END DESIGN", output)

    def test_a_hub_and_a_service_are_ends_too(self) -> None:
        self.start()
        sockets = self.folder / "s"
        output = self.say("place f0c1 0 0 N", words=(str(sockets / "f0.sock"),))
        self.assertEqual(output, ["session 0 of team f0, revision 0", "done; revision 1"])
        target = self.folder / "new.def"
        output = self.say("teams", "tidy", f"export {target}", words=(str(sockets / "operator.sock"), "--team", "f1"))
        self.assertEqual(output[0], "session 0 of team f1, revision 0")
        self.assertEqual(output[2:], ["10 cells moved; revision 1", f"written: {target}"])
        self.assertEqual(sorted(output[1].split()), sorted([f"f{team}" for team in range(TEAMS)] + ["-"]))
        with self.service(1) as port:
            self.assertEqual(
                self.say("team f0", "tidy", words=(f"127.0.0.1:{port}",))[1:], ["10 cells moved; revision 1"]
            )

    def test_a_missing_end_is_reported(self) -> None:
        for where, status in (("nowhere.sock", 3), ("127.0.0.1:1", 3), ("a" * 300, 3), ("x:99999", 2)):
            done = self.tool("lefence-shell", where)
            self.assertEqual((done.returncode, done.stdout), (status, b""), done.stderr)
            self.assertNotIn(b"Traceback", done.stderr)
        done = self.tool("lefence-shell", "t.def")
        expected = b"lefence-shell: t.def is not a socket; for a design, give its LEF files too:"
        expected += b" lefence-shell chip.def tech.lef ..\n"
        self.assertEqual((done.returncode, done.stderr), (2, expected))
        done = self.tool("lefence-shell", self.design, self.lef, "--program", PROGRAM, "--team", "Z")
        self.assertEqual((done.returncode, done.stdout), (1, b"no: no such team here\n"))
        self.lef.write_text("")
        done = self.tool("lefence-shell", self.design, self.lef, "--program", PROGRAM)
        self.assertEqual((done.returncode, b"8 NoSite" in done.stderr), (1, True), done.stderr)

    def test_teams_are_those_that_the_program_reports(self) -> None:
        fence = '"kind":"fence","name":"f3"'
        other = self.describing(f"'{PROGRAM}' \"$@\" | sed 's/{fence}/{fence[:-3]}Z\"/'")
        done = self.tool("lefence-shell", self.design, self.lef, "--program", other, lines=b"teams\n")
        self.assertEqual((done.returncode, done.stdout, done.stderr), (0, b"f0 f1 f2 Z f4 f5 f6 f7 -\n", b""))
        for script, output, status in (
            ("echo no such verb >&2; exit 2", "no such verb", 2),
            ("exit 0", "does not report the teams", 3),
        ):
            silent = self.describing(script)
            done = self.tool("lefence-shell", self.design, self.lef, "--program", silent)
            self.assertEqual(
                (done.returncode, done.stdout, done.stderr.decode().count(output)), (status, b"", 1), done.stderr
            )


class Completion(HubCase):
    def test_verbs_teams_cells_and_orientations_are_completed(self) -> None:
        endpoint = start_program(PROGRAM, [self.design, self.lef])
        self.addCleanup(endpoint.close)
        shell = Shell(endpoint)
        shell.stdout = open(os.devnull, "w")
        self.addCleanup(shell.stdout.close)

        def completed(line: str) -> list[str]:
            text = line[line.rfind(" ") + 1 :]
            begin = len(line) - len(text)
            return shell.completedefault(text, line, begin, len(line)) if begin else shell.completenames(text)

        self.assertEqual(completed("un"), ["unplace", "undo", "units"])
        for line in ("team f", "freeze f", "thaw f", "savepoint f"):
            self.assertEqual(completed(line), [f"f{team}" for team in range(TEAMS)])
        self.assertEqual([completed("units m"), completed("help thaw")], [["microns "], ["thaw "]])
        self.assertEqual(completed("drop 1"), [])
        self.assertEqual(completed("place f0c"), [])
        shell.onecmd("team f0")
        self.assertEqual(completed("place f0c"), [f"f0c{number}" for number in range(10)])
        for line in ("swap f0c1 f0c3", "near f0c3", "cells f0c3"):
            self.assertEqual(completed(line), ["f0c3 "])
        self.assertEqual(completed("place f0c1 0 0 F"), ["FN", "FW", "FS", "FE"])
        self.assertEqual([completed("place f0c1 "), completed("tidy x"), completed("place f1")], [[]] * 3)

    def test_a_terminal_has_completion_and_history(self) -> None:
        pid, terminal = pty.fork()
        if pid == 0:
            os.environ["XDG_STATE_HOME"] = str(self.folder)
            os.environ["TERM"] = "dumb"
            os.execv(
                sys.executable, [*tool_words("lefence-shell"), str(self.design), str(self.lef), "--program", PROGRAM]
            )
        seen = b""
        for text, due in (
            (b"", b"lefence> "),
            (b"team f0\n", b"f0> "),
            (b"pla\tf0c1 0 0 N\n", b"revision 1"),
            (b"quit\n", b""),
        ):
            os.write(terminal, text)
            last = time.monotonic() + PATIENCE
            while due not in seen and time.monotonic() < last:
                if select.select([terminal], [], [], 0.5)[0]:
                    seen += os.read(terminal, 4096)
            self.assertIn(due, seen)
            seen = b""
        self.assertEqual(os.waitpid(pid, 0)[1], 0)
        os.close(terminal)
        self.assertEqual(
            (self.folder / "lefence-shell-history").read_text().splitlines()[:2], ["team f0", "place f0c1 0 0 N"]
        )


if __name__ == "__main__":
    unittest.main()
