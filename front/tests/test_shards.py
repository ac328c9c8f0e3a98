"""Several programs of one hub, each over a slice: no client can distinguish them from one."""

from __future__ import annotations

import hashlib
import os
import resource
import signal
import time
import unittest
from concurrent.futures import ThreadPoolExecutor
from pathlib import Path
from typing import Any

from support import (
    CELLS,
    PATIENCE,
    PROGRAM,
    TEAMS,
    FrontCase,
    Hub,
    HubCase,
    Script,
    converse,
    design_text,
    spot,
    waiting_program,
)
from test_slice import rich_text

from lefence.base.design import Design
from lefence.base.slices import slices_of
from lefence.base.state_text import part_of
from lefence.hub.shards import default_programs
from lefence.hub.slice_store import Slice, divided, slices_folder
from lefence.hub.status import read_status
from lefence.journal.segments import Archive, State, open_segments, records_in

STATE = """lefence-state 1
teams 3
team A 3 0 2 2 2
3
-
a1 200,0,N 0,0,N
a2 - -
undo 1
0 0,0,N
undo 2
0 -
1 -
team B 7 1 2 1 1
7
5
b1 0,0,N -
undo 1
0 -
team - 0 0 2 0 0
-
-
"""


class Parts(FrontCase):
    """Teams, texts and states are divided."""

    def test_teams_are_divided_by_their_cells(self) -> None:
        counts = {"A": 50, "B": 7, "C": 0, "D": 30, "-": 20}
        self.assertEqual(divided(counts, 1), [["A", "D", "-", "B", "C"]])
        self.assertEqual(divided(counts, 2), [["A", "B"], ["D", "-", "C"]])
        self.assertEqual(divided(counts, 8), [["A"], ["D"], ["-"], ["B", "C"]])
        self.assertEqual(divided({"A": 0, "-": 0}, 8), [["A", "-"]])

    def test_a_slice_has_the_cells_of_its_teams(self) -> None:
        text = rich_text().encode()
        groups = [[b"f1", b"-"], [b"f0", b"f3"]]
        parts = [b"".join(pieces) for pieces in slices_of(Design(text), [*groups])]
        whole = Design(text)
        for part, group in zip(parts, groups):
            design = Design(part)
            for team in (*whole.fences, b"-"):
                self.assertEqual(design.cells_of(team), whole.cells_of(team) if team in group else [], team)
            self.assertEqual(self.direct(b"open f2\nopen f9\n", design=self.written(part)), b"ok 0 0\nno 2 NoTeam\n")

    def written(self, text: bytes) -> Path:
        path = self.folder / "part.def"
        path.write_bytes(text)
        return path

    def test_a_part_of_a_state_has_its_teams(self) -> None:
        lines = STATE.encode().splitlines(keepends=True)
        self.assertEqual(b"".join(part_of(lines, [b"A", b"B", b"-"])), STATE.encode())
        want = lines[:2] + [b"team A 3 0 2 0 0\n"] + lines[3:5] + lines[12:]
        self.assertEqual(list(part_of(lines, [b"B"])), want)

    def test_a_part_of_a_state_is_in_memory(self) -> None:
        path = self.folder / "1.state"
        path.write_text(STATE)
        slice_path = self.folder / "slices" / "0.def"
        file, part = Slice(slice_path, "", frozenset({b"B"}), 1).part_of_state(State(path, len(STATE), ""))
        with file:
            wanted = b"".join(part_of(STATE.encode().splitlines(keepends=True), [b"B"]))
            self.assertEqual(part.path.read_bytes(), wanted)
            self.assertTrue(part.is_whole())
        self.assertFalse(part.is_whole())


class SeveralPrograms(HubCase):
    """A hub with several programs."""

    def setUp(self) -> None:
        super().setUp()
        self.design.write_text(rich_text())

    def programs(self) -> list[dict[str, Any]]:
        found: list[dict[str, Any]] = read_status(self.folder / "s")["programs"]
        return found

    def pid_of(self, team: str) -> int:
        """The process id of a team's program."""
        [pid] = [int(each["pid"]) for each in self.programs() if team in each["teams"]]
        return pid

    def records(self) -> dict[bytes, list[tuple[bytes, bytes]]]:
        """The changes of the journal by team, with their replies."""
        found: dict[bytes, list[tuple[bytes, bytes]]] = {}
        with open_segments(self.journal) as readers:
            for record in records_in(readers):
                found.setdefault(record.line.split()[1], []).append((record.line, record.reply))
        return found


class Shards(SeveralPrograms):
    """Replies, journals, exports and states are those of one program."""

    def outcome(self, count: int, texts: dict[str, bytes], operated: bytes, *words: str) -> tuple[Any, ...]:
        """All that comes of these lines with a number of programs: replies, also those to the operator, records by
        team, export and state.
        """
        exported = self.folder / f"{count}.def"
        self.journal = self.folder / f"j{count}"
        options = ("--programs", str(count), "--no-sync", *words)
        self.begin(*options, "--export", str(exported))
        self.assertNotIn("one program serves", self.hub.log_text())
        with ThreadPoolExecutor() as pool:
            replies = [*pool.map(converse, [self.talk(name) for name in texts], texts.values())]
        replies.append(converse(self.talk("operator"), operated))
        self.assertEqual(len(self.programs()), count)
        self.assertEqual(self.hub.end(), 0)
        self.begin("--roll")
        self.assertEqual(self.hub.process.wait(PATIENCE), 0, self.hub.log_text())
        past = Archive(self.journal)
        state = past.state(max(past.numbers("state"))).read_bytes()
        return replies, self.records(), exported.read_bytes(), state

    def begin(self, *words: str) -> None:
        """Starts a hub with the journal of the test."""
        self.hub = Hub(self.folder, self.words(*words, journal=self.journal.name))
        self.addCleanup(self.hub.kill)
        self.hub.wait_ready()

    def test_random_sessions_are_the_same_over_one_two_and_four_programs(self) -> None:
        scripts = [Script(self.rng, team, hostile=True) for team in range(TEAMS + 1)]
        names = [each.team for each in scripts]
        texts = {name: f"open {name}\n".encode() + each.lines(300) for name, each in zip(names, scripts)}
        lines = [self.rng.choice(scripts).line() for _ in range(600)]
        # (a `bye` would be the last line)
        lines = [line for line in lines if b"bye" not in line and line.strip() != b"export"]
        lines += [b"%b %b 0" % (verb, name.encode()) for name in names for verb in (b"sync", b"tidy", b"commit")]
        operated = b"\n".join(lines) + b"\n"
        one = self.outcome(1, texts, operated, "--keep-segments")
        for count in (2, 4):
            several = self.outcome(count, texts, operated, "--keep-segments", "--tail-bytes", "3000")
            for name, found, want in zip(("replies", "records", "export", "state"), several, one):
                self.assertTrue(found == want, (count, name))
        for name, replies in zip(texts, one[0]):
            self.assertEqual(replies[:7], b"ok 0 0\n", name)

    def test_the_journal_of_one_program_is_taken_over_by_several_and_back(self) -> None:
        revision = 0
        for count in ("1", "3", "2", "1", "8"):
            self.assertIn("ready", self.start("--programs", count, "--tail-bytes", "400"))
            for team in (0, 1, 5):
                talker = self.talk(f"f{team}")
                self.assertEqual(talker.ask(f"open f{team}"), [f"ok 0 {revision}"])
                lines = [f"place f{team} 0 f{team}c{at} {spot(team, at)}" for at in range(CELLS)]
                self.assertEqual(talker.ask(*lines)[-1], f"ok {revision + CELLS}")
                self.assertEqual(talker.ask(f"undo f{team} 0"), [f"ok {revision + CELLS + 1}"])
                self.assertEqual(talker.ask(f"where f{team} 0 f{team}c8"), [f"ok {spot(team, 8)}"])
            revision += CELLS + 1
            if self.rng.random() < 0.5:
                self.hub.kill()
            else:
                self.assertEqual(self.hub.end(), 0)
        self.assertEqual(len(list(slices_folder(self.journal).glob("*.def"))), 8)

    def test_by_default_there_is_a_program_for_each_processor(self) -> None:
        words = self.words()
        at = words.index("--programs")
        self.hub = Hub(self.folder, [*words[:at], *words[at + 2 :]])
        self.addCleanup(self.hub.kill)
        self.assertIn("ready", self.hub.wait_ready())
        self.assertEqual(len(self.programs()), default_programs())

    def test_lines_of_the_operator_are_answered_in_their_order(self) -> None:
        self.start("--programs", "4")
        scripts = [Script(self.rng, team) for team in range(TEAMS + 1)]
        lines = [self.rng.choice(scripts).line() for _ in range(3000)]
        target = self.folder / "new.def"
        replies = converse(self.talk("operator"), b"\n".join(lines) + b"\n")
        self.assertEqual(replies, self.direct(b"\n".join(lines) + b"\n"))
        more = [b"open Z", b"status", b"savepoint f0 x", b"export %b" % bytes(target), b"freeze f1", b"sync f2 9"]
        found = self.talk("operator").converse(b"\n".join([*more, *more[:1]]) + b"\n", 1000).split(b"\n")
        self.assertEqual([found[0], found[1][:4], *found[2:]], [
            b"no 2 NoTeam", b"ok {", b"ok", b"ok", b"ok", b"no 3 NoSession", b"no 2 NoTeam", b""
        ])

    def test_a_long_command_delays_the_teams_of_its_program_alone(self) -> None:
        self.program, gate = waiting_program(self.folder, PROGRAM, b"tidy f0")
        self.start("--programs", "3", "--tail-bytes", "0")
        slow, quick = self.talk("f0"), self.talk("f1")
        self.assertEqual((slow.ask("open f0"), quick.ask("open f1")), (["ok 0 0"], ["ok 0 0"]))
        slow.socket.sendall(b"tidy f0 0\n")
        for at in range(20):
            self.assertEqual(quick.ask(f"place f1 0 f1c{at % CELLS} {spot(1, at)}"), [f"ok {at + 1}"])
        gate.touch()
        self.assertEqual(slow.replies.readline()[:5], "ok 1 ".encode())
        # At the end a line for one program waits for another's line in front of it.
        operator = self.talk("operator")
        gate.unlink()
        operator.socket.sendall(b"open f0\ntidy f0 1\nwhere f1 0 f1c0\n")
        self.assertEqual(operator.replies.readline(), b"ok 1 1\n")
        operator.wait_read()
        self.hub.process.terminate()
        self.wait_stopping()
        gate.touch()
        self.assertEqual([line[:3] for line in operator.replies.read().splitlines()], [b"ok ", b"ok "])
        self.assertEqual(self.hub.process.wait(PATIENCE), 0)


class Losses(SeveralPrograms):
    """One program of several dies or hangs, or its files are not as they were."""

    def test_a_program_that_dies_is_restored_alone(self) -> None:
        self.design.write_text(design_text())
        self.start("--programs", "3", "--tail-bytes", "1000")
        talkers = {team: self.talk(f"f{team}") for team in (0, 1, 2)}
        revisions = dict.fromkeys(talkers, 0)
        for team, talker in talkers.items():
            self.assertEqual(talker.ask(f"open f{team}"), ["ok 0 0"])
        for turn in range(6):
            pids = {team: self.pid_of(f"f{team}") for team in talkers}
            for team, talker in talkers.items():
                lines = [f"place f{team} 0 f{team}c{at % CELLS} {spot(team, at + turn * 50)}\n" for at in range(50)]
                talker.socket.sendall("".join(lines).encode())
            # (the programs are struck at a random moment)
            time.sleep(self.rng.uniform(0, 0.01))
            struck = self.rng.sample([*talkers], self.rng.choice([1, 1, 2]))
            for team in struck:
                os.kill(pids[team], signal.SIGKILL)
            for team, talker in talkers.items():
                replies = [talker.replies.readline().decode() for _ in range(50)]
                self.assertEqual(replies, [f"ok {revisions[team] + at + 1}\n" for at in range(50)])
                revisions[team] += 50
                self.assertEqual(talker.ask(f"where f{team} 0 f{team}c9"), [f"ok {spot(team, 49 + turn * 50)}"])
            # (one that has answered everything is restored at its next line)
            for team, talker in talkers.items():
                self.assertEqual(self.pid_of(f"f{team}") != pids[team], team in struck)
        total = read_status(self.folder / "s")["restores_total"]
        self.assertEqual(sum(each["restores"] for each in self.programs()), total)
        self.assertEqual(self.hub.end(), 0)

    def test_a_program_that_hangs_delays_its_teams_alone(self) -> None:
        self.start("--programs", "2")
        first, second = self.talk("f0"), self.talk("f1")
        self.assertEqual((first.ask("open f0"), second.ask("open f1")), (["ok 0 0"], ["ok 0 0"]))
        pid = self.pid_of("f0")
        os.kill(pid, signal.SIGSTOP)
        first.socket.sendall(b"place f0 0 f0c1 200 0 N\nwhere f0 0 f0c1\n")
        for at in range(30):
            self.assertEqual(second.ask(f"place f1 0 f1c{at % CELLS} {spot(1, at)}"), [f"ok {at + 1}"])
        os.kill(pid, signal.SIGCONT)
        self.assertEqual([first.replies.readline() for _ in range(2)], [b"ok 1\n", b"ok 200 0 N\n"])

    def test_a_program_that_hangs_is_restored(self) -> None:
        # (a busy program is not silent for so long)
        self.start("--programs", "2", "--deadline", "15")
        talker = self.talk("f0")
        self.assertEqual(talker.ask("open f0", "place f0 0 f0c1 0 0 N"), ["ok 0 0", "ok 1"])
        os.kill(self.pid_of("f0"), signal.SIGSTOP)
        self.assertEqual(talker.ask("place f0 0 f0c1 200 0 N", "where f0 0 f0c1"), ["ok 2", "ok 200 0 N"])
        self.assertIn("was silent for 15 seconds", self.hub.log_text())
        self.assertRegex(self.hub.log_text(), r" \(program \d of 2\); restarting it")
        self.assertEqual(sorted(each["restores"] for each in self.programs()), [0, 1])

    def test_slices_are_kept_and_cut_again_if_they_were_changed(self) -> None:
        folder = slices_folder(self.journal)
        self.start("--programs", "2")
        times = {path: path.stat().st_mtime_ns for path in folder.iterdir()}
        self.assertEqual(len(times), 3)
        self.hub.end()
        self.start("--programs", "2")
        self.assertEqual({path: path.stat().st_mtime_ns for path in folder.iterdir()}, times)
        self.hub.end()
        damaged = next(folder.glob("*.def"))
        text = damaged.read_bytes()
        damaged.chmod(0o600)
        damaged.write_bytes(text.replace(b"INV", b"BUF"))
        (folder / "other").write_bytes(b"x")
        self.assertIn("ready", self.start("--programs", "2"))
        self.assertEqual((damaged.read_bytes(), {*folder.iterdir()}), (text, {*times}))
        self.assertEqual(len(self.programs()), 2)

    def test_a_damaged_index_is_not_believed(self) -> None:
        index = slices_folder(self.journal) / "index"
        self.start("--programs", "2")
        talkers = [self.talk(f"f{team}") for team in range(TEAMS)]
        for team, talker in enumerate(talkers):
            self.assertEqual(talker.ask(f"open f{team}", f"pad f{team} 0 1"), ["ok 0 0", "ok 1"])
        whole = index.read_bytes()
        lines = whole.splitlines(keepends=True)
        [*_, first, second, _] = lines
        self.assertTrue(first.startswith(b"slice ") and second.startswith(b"slice "))
        renamed = whole.replace(b" f2", b" g2")
        summed = b"".join(lines[:-2])
        # (the last one has the right checksum, but lacks teams)
        summed += b"sum %b\n" % hashlib.sha256(summed).hexdigest().encode()
        for damaged in (whole[: whole.rfind(b"slice")], whole[: whole.rfind(b"sum")], renamed, summed):
            self.hub.kill()
            index.write_bytes(damaged)
            self.assertIn("ready", self.start("--programs", "2"))
            self.assertEqual((index.read_bytes(), len(self.programs())), (whole, 2))
            for team in range(TEAMS):
                self.assertEqual(self.talk(f"f{team}").ask(f"open f{team}"), ["ok 0 1"], self.hub.log_text())

    def test_a_slice_that_changes_while_its_program_runs_ends_the_hub_and_nothing_is_lost(self) -> None:
        self.start("--programs", "2")
        talker = self.talk("f0")
        self.assertEqual(talker.ask("open f0", "pad f0 0 1"), ["ok 0 0", "ok 1"])
        for path in slices_folder(self.journal).glob("*.def"):
            path.unlink()
        os.kill(self.pid_of("f0"), signal.SIGKILL)
        self.assertEqual((talker.ask("sync f0 0"), self.hub.process.wait(PATIENCE)), ([""], 3))
        self.assertIn("has changed: the next start cuts the slices again", self.hub.log_text())
        self.assertIn("ready", self.start("--programs", "2"))
        self.assertEqual((self.talk("f0").ask("open f0"), len(self.programs())), (["ok 0 1"], 2))

    def test_one_program_serves_all_teams_if_slices_cannot_be_made(self) -> None:
        folder = slices_folder(self.journal)
        folder.write_text("not a folder")
        self.assertIn("ready: 9 teams", self.start("--programs", "2"))
        self.assertIn("one program serves all teams: ", self.hub.log_text())
        self.assertEqual((len(self.programs()), self.talk("f0").ask("open f0")), (1, ["ok 0 0"]))
        self.hub.end()
        folder.unlink()
        for edit, output in (
            ("s/f1c3/f1c33/", "other cells of team f1 in a slice"),
            ("s/name...f2fixed/&d/", "another frame in a slice"),
        ):
            # It describes the slices otherwise than the whole design.
            self.program = self.describing(
                f"""case "$2" in *.texts/*) exec '{PROGRAM}' "$@";; esac\n'{PROGRAM}' "$@" | sed '{edit}'"""
            )
            self.assertIn("ready: 9 teams", self.start("--programs", "2"))
            self.assertIn(f"one program serves all teams: the program reads {output}", self.hub.log_text())
            self.assertFalse((folder / "index").exists())
            self.hub.end()

    def test_a_full_disk_refuses_the_changes_of_all_programs(self) -> None:
        self.design.write_text(design_text())
        self.start("--programs", "2", "--tail-bytes", "0")
        talkers = [self.talk("f0"), self.talk("f1")]
        for team, talker in enumerate(talkers):
            talker.ask(f"open f{team}")
        pid = self.hub.process.pid
        hard = resource.prlimit(pid, resource.RLIMIT_FSIZE)[1]
        resource.prlimit(pid, resource.RLIMIT_FSIZE, (self.journal.stat().st_size, hard))
        accepted = [0, 0]
        ended = [False, False]
        while not all(ended):
            for team, talker in enumerate(talkers):
                lines = [f"place f{team} 0 f{team}c1 {team * 8000 + turn % 5 * 200} 0 N" for turn in range(50)]
                replies = talker.ask(*lines)
                accepted[team] += sum(each.startswith("ok") for each in replies)
                ended[team] = set(replies) == {"no 12 OutOfMemory"}
        resource.prlimit(pid, resource.RLIMIT_FSIZE, (hard, hard))
        for team, talker in enumerate(talkers):
            self.assertEqual(talker.ask(f"pad f{team} 0 1"), [f"ok {accepted[team] + 1}"])
        self.assertEqual(self.hub.end(), 0)


if __name__ == "__main__":
    unittest.main()
