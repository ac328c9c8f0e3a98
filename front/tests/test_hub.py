"""A hub from outside: the program's replies, many clients at once, and its end."""

from __future__ import annotations

import asyncio
import contextlib
import itertools
import os
import resource
import signal
import socket
import subprocess
import threading
import time
import unittest
from collections.abc import Callable
from concurrent.futures import ThreadPoolExecutor
from pathlib import Path
from unittest import mock

from support import (
    CELLS,
    PATIENCE,
    PROGRAM,
    TEAMS,
    WIDTH,
    HubCase,
    Script,
    Talker,
    converse,
    design_text,
    spot,
    tool_words,
    wait_until,
)

from lefence.base.faults import Fault
from lefence.base.protocol import socket_name, team_of_socket
from lefence.hub import hub as hub_module
from lefence.hub.client_pool import MOST_CLIENTS
from lefence.hub.connection import Client
from lefence.hub.status import read_status
from lefence.journal.frames import Record
from lefence.journal.journal import Journal, texts_in


def flood_until_broken(end: socket.socket, text: bytes) -> None:
    """Sends a text again and again, and reads, until somebody breaks the connection."""
    with contextlib.suppress(OSError):
        sender = threading.Thread(target=send_until_broken, args=(end, text))
        sender.start()
        while end.recv(1 << 16):
            pass
        sender.join()


def send_until_broken(end: socket.socket, text: bytes) -> None:
    with contextlib.suppress(OSError):
        while True:
            end.sendall(text)


class Replies(HubCase):
    """Each client gets the program's replies, byte for byte."""

    def test_the_operator_gets_the_replies_of_the_program(self) -> None:
        for _ in range(3):
            scripts = [Script(self.rng, team, hostile=True) for team in (0, 1, TEAMS)]
            text = b"".join(self.rng.choice(scripts).line() + b"\n" for _ in range(1200))
            ends = [b"", b"bye", b"bye\r", b"open f0", b"open f0\r", b"x" * 5000, b"bye\nopen f0\n", b" bye\t\r\nx\n"]
            text += self.rng.choice(ends)
            self.start("--no-sync", "--tail-bytes", "0")
            sizes = self.rng.choices([1, 2, 7, 60, 1000, 20000], k=20)
            self.assertEqual(self.talk("operator").converse(text, *sizes), self.direct(text))
            self.assertEqual(self.hub.end(), 0)
            self.journal.unlink()

    def test_concurrent_teams_get_the_replies_to_their_own_commands(self) -> None:
        for _ in range(2):
            self.start("--tail-bytes", "0")
            texts = {team: Script(self.rng, team).lines(1200) for team in (0, 1, 2, TEAMS)}
            talkers = [self.talk(f"f{team}" if team < TEAMS else "-") for team in texts]
            with ThreadPoolExecutor() as pool:
                found = pool.map(converse, talkers, texts.values())
            for text, replies in zip(texts.values(), found):
                self.assertEqual(replies, self.direct(text))
            self.hub.end()
            self.journal.unlink()

    def test_a_team_socket_can_name_only_its_team(self) -> None:
        self.start()
        mine, other = self.talk("f0"), self.talk("f1")
        self.assertEqual(other.ask("open f1"), ["ok 0 0"])
        lines = [
            "open f1",
            "place f1 0 f1c1 8000 0 N",
            "pad f1 0 2",
            "close f1 0",
            "close f1",
            "where - 0 gc1",
            "open f0",
        ]
        lines += ["bye f1", "export x"]
        replies = [*["no 2 NoTeam"] * 4, "no 1 BadRequest", "no 2 NoTeam", "ok 0 0", *["no 1 BadRequest"] * 2]
        self.assertEqual(mine.ask(*lines), replies)
        self.assertEqual(
            other.ask("where f1 0 f1c1", "sync f1 0", "place f1 0 f1c1 8000 0 N"),
            ["no 6 Unplaced f1c1", "ok 0", "ok 1"],
        )

    def test_any_program_that_talks_to_a_socket_is_a_client(self) -> None:
        self.start()
        end = socket.socket(socket.AF_UNIX)
        end.connect(str(self.folder / "s/f0.sock"))
        end.sendall(b"open f0\nplace f0 0 f0c1 0 0 N\nwhere f0 0 f0c1")
        end.shutdown(socket.SHUT_WR)
        self.assertEqual(end.makefile("rb").read(), b"ok 0 0\nok 1\nok 0 0 N\n")
        end.close()


class Sockets(HubCase):
    """Permissions of sockets."""

    def modes(self) -> dict[str, int]:
        return {path.name: path.stat().st_mode & 0o777 for path in (self.folder / "s").iterdir()}

    def test_modes_and_groups_of_sockets_are_kept_over_restarts(self) -> None:
        self.start()
        teams = ["-", *(f"f{team}" for team in range(TEAMS))]
        first = {"operator.sock": 0o600} | {f"{team}{kind}.sock": 0o660 for team in teams for kind in ("", ".query")}
        self.assertEqual(self.modes(), first)
        self.hub.end()
        kept = {"f1.sock": 0o600, "f0.query.sock": 0o666}
        for name, mode in kept.items():
            (self.folder / "s" / name).chmod(mode)
        (self.folder / "s/operator.sock").chmod(0o666)
        if os.geteuid() == 0:
            os.chown(self.folder / "s/f0.sock", -1, 12345)
        self.start()
        self.assertEqual(self.modes(), first | kept)
        self.hub.kill()
        self.start()
        self.assertEqual(self.modes(), first | kept)
        if os.geteuid() == 0:
            self.assertEqual((self.folder / "s/f0.sock").stat().st_gid, 12345)

    def test_each_team_has_a_name_of_its_own_and_none_leaves_the_folder(self) -> None:
        names = {
            "-": "-.sock",
            "a_B-9": "a_B-9.sock",
            "a/b": "a%2Fb.sock",
            "a%2Fb": "a%252Fb.sock",
            ".": "%2E.sock",
            "[0]": "%5B0%5D.sock",
        }
        self.assertEqual({name: socket_name(name) for name in names}, names)
        self.assertEqual([socket_name(None), socket_name("operator")], ["operator.sock", "%6Fperator.sock"])
        self.assertEqual([team_of_socket(file) for file in names.values()], list(names))
        self.assertEqual(team_of_socket("%6Fperator.sock"), "operator")
        self.assertEqual(
            [team_of_socket(file) for file in ("operator.sock", "x", "%zz.sock", ".sock", "%61.sock")], [None] * 5
        )

    def test_odd_names_of_teams_are_served(self) -> None:
        text = (
            design_text()
            .replace("- f0 (", "- a/[0] (")
            .replace("REGION f0 ", "REGION a/[0] ")
            .replace("- f1 (", "- operator (")
        )
        self.design.write_text(text.replace("REGION f1 ", "REGION operator "))
        self.start()
        self.assertEqual(self.talk("a%2F%5B0%5D").ask("open a/[0]", "open operator"), ["ok 0 0", "no 2 NoTeam"])
        self.assertEqual(self.talk("%6Fperator").ask("open operator", "open a/[0]"), ["ok 0 0", "no 2 NoTeam"])
        self.assertEqual(self.talk("operator").ask("open operator", "open a/[0]"), ["ok 1 0", "ok 1 0"])


class ManyClients(HubCase):
    """No client blocks the others."""

    def test_64_clients_share_eight_teams(self) -> None:
        self.start()
        rounds = 12

        def work(number: int) -> None:
            team, cell = number % TEAMS, number // TEAMS
            talker, name = self.talk(f"f{team}"), f"f{team}c{cell}"
            head = f"f{team} {talker.ask(f'open f{team}')[0].split()[1]}"
            for turn in range(rounds):
                spot = (
                    f"{team * WIDTH + cell % 4 * 2000 + turn % 2 * 1000} {cell // 4 * 2000} {'N' if cell < 4 else 'FS'}"
                )
                while (reply := talker.ask(f"sync {head}", f"place {head} {name} {spot}")[1]).startswith("no 4 Stale"):
                    pass
                self.assertEqual((reply[:2], talker.ask(f"where {head} {name}")), ("ok", [f"ok {spot}"]))
            talker.ask("bye")

        with ThreadPoolExecutor(64) as pool:
            list(pool.map(work, range(64)))
        for team in range(TEAMS):
            # All 64 sessions were closed, so slot 0 is free.
            self.assertEqual(self.talk(f"f{team}").ask(f"open f{team}"), [f"ok 0 {8 * rounds}"])

    def test_slow_readers_floods_and_many_clients_do_not_block_others(self) -> None:
        # (the flood reads, but perhaps not in every second)
        self.start("--patience", "5")
        slow, flood, quick = (self.talk(f"f{team}") for team in range(3))
        for team, talker in enumerate((slow, flood, quick)):
            self.assertEqual(talker.ask(f"open f{team}"), ["ok 0 0"])
        slow.socket.settimeout(0.2)
        with self.assertRaises(TimeoutError):
            # The flood is not even read to its end.
            slow.socket.sendall(b"def f0 0\n" * 1_000_000)
        flooder = threading.Thread(target=flood_until_broken, args=(flood.socket, b"check f1 0\ntidy f1 0\n" * 8000))
        flooder.start()
        turns = itertools.count()

        def teams() -> dict[str, dict[str, float]]:
            return {each["team"]: each for each in read_status(self.folder / "s")["teams"]}

        def is_served() -> bool:
            """Whether the others were served while the flood lasted, and the slow one has been dropped meanwhile."""
            self.assertEqual(quick.ask("where f2 0 f2c1"), ["no 6 Unplaced f2c1"])
            return next(turns) > 100 and teams()["f0"]["clients"] == 0

        wait_until(is_served, self.hub.log_text)
        self.assertIn("dropped", self.hub.log_text())
        # (a line of the flood waits for all that its client has sent)
        medians = teams()
        self.assertLess(medians["f2"]["line_seconds_p50"], medians["f1"]["line_seconds_p50"])
        flood.socket.shutdown(socket.SHUT_RDWR)
        flooder.join()
        memory = int(Path(f"/proc/{self.hub.process.pid}/statm").read_text().split()[1]) * resource.getpagesize()
        self.assertLess(memory, 100 << 20)
        self.assertEqual(self.talk("f0").ask("open f0"), ["ok 0 0"])
        crowd = [self.talk("f3") for _ in range(MOST_CLIENTS)]
        self.assertEqual(crowd[-1].ask("close f3 0"), ["no 3 NoSession"])
        self.assertEqual((self.talk("f3").replies.read(), quick.ask("sync f2 0")), (b"", ["ok 0"]))

    def test_only_the_sessions_of_clients_that_leave_are_closed(self) -> None:
        self.start()

        def send_and_wait(talker: Talker) -> None:
            talker.socket.sendall(b"where f0 0 x\n")
            wait_until(talker.has_reply)

        ways: list[Callable[[Talker], object]] = [
            lambda talker: talker.close(),
            lambda talker: talker.ask("bye"),
            lambda talker: talker.socket.sendall(b"open f0\nopen f"),
            send_and_wait,
            lambda talker: talker.socket.sendall(b"place f0 0 f0c1 0"),
            lambda talker: talker.socket.sendall(b"open f0\n" * 9),
        ]
        for _ in range(40):
            talker = self.talk("f0")
            talker.ask("open f0")
            self.rng.choice(ways)(talker)
            talker.close()
        watch = self.talk("f0")

        def opened() -> list[str]:
            return watch.ask(*["open f0"] * 9, *[f"close f0 {n}" for n in range(8)])[:9]

        # Lines sent just before a close may be answered a little later.
        free = [*(f"ok {n} 0" for n in range(8)), "no 10 SessionsFull"]
        wait_until(lambda: opened() == free, opened)
        # A slot that another client took since then is not closed.
        first, second = self.talk("f0"), self.talk("f0")
        self.assertEqual(
            [first.ask("open f0"), watch.ask("close f0 0"), second.ask("open f0")], [["ok 0 0"], ["ok"], ["ok 0 0"]]
        )
        first.ask("bye")
        self.assertEqual(watch.ask("sync f0 0"), ["ok 0"])
        second.ask("bye")
        self.assertEqual(watch.ask("sync f0 0"), ["no 3 NoSession"])

    def test_a_million_lines_of_one_connection_are_no_limit(self) -> None:
        self.start()
        talker, text = self.talk("f0"), b"\n" * 1_000_100 + b"open f0\n"
        # (the timeout is for all of a sending)
        talker.socket.settimeout(10 * PATIENCE)
        sender = threading.Thread(target=talker.socket.sendall, args=(text,))
        sender.start()
        length, last = 0, b""
        while length < len(b"no 1 BadRequest\n") * 1_000_100 + 7:
            piece = talker.socket.recv(1 << 20)
            length, last = length + len(piece), (last + piece)[-30:]
        sender.join()
        self.assertEqual(last[-23:], b"no 1 BadRequest\nok 0 0\n")


class Disk(HubCase):
    """Replies wait for the disk."""

    def test_a_full_disk_refuses_changes_and_answers_the_rest(self) -> None:
        self.start("--tail-bytes", "0")
        talker = self.talk("f0")
        self.assertEqual(talker.ask("open f0", "place f0 0 f0c1 0 0 N"), ["ok 0 0", "ok 1"])
        pid = self.hub.process.pid
        hard = resource.prlimit(pid, resource.RLIMIT_FSIZE)[1]
        resource.prlimit(pid, resource.RLIMIT_FSIZE, (self.journal.stat().st_size, hard))
        accepted = 0
        # Until the reserved bytes are used; of many changes at once, none is accepted if only some fit.
        for many in (500, 1):
            reply = ["ok"]
            while reply[-1][:2] == "ok":
                reply = talker.ask(
                    *[f"place f0 0 f0c1 {turn % 5 * 200} 0 N" for turn in range(accepted, accepted + many)]
                )
                accepted += sum(each.startswith("ok") for each in reply)
        where = f"ok {(accepted - 1) % 5 * 200} 0 N"
        lines = ["where f0 0 f0c1", "unplace f0 0 f0c1", "pad f0 0 1", "open f0", "where f0 0 f0c1", "quit"]
        self.assertEqual(talker.ask(*lines), [where, *["no 12 OutOfMemory"] * 3, where, "no 1 BadRequest"])
        self.assertEqual(reply[-1], "no 12 OutOfMemory")
        # Its session cannot be closed yet.
        talker.ask("bye")
        resource.prlimit(pid, resource.RLIMIT_FSIZE, (hard, hard))
        last = time.monotonic() + PATIENCE
        while (talker := self.talk("f0")).ask("open f0") != [f"ok 0 {accepted + 1}"]:
            self.assertLess(time.monotonic(), last)
            talker.ask("bye")
        self.assertEqual(talker.ask("unplace f0 0 f0c1"), [f"ok {accepted + 2}"])
        self.hub.kill()
        self.start()
        self.assertEqual(self.talk("f0").ask("open f0"), [f"ok 0 {accepted + 2}"])

    def test_replies_wait_for_the_disk_and_a_disk_that_fails_ends_the_hub(self) -> None:
        for error in (None, OSError(5, "the disk")):
            steps = mock.Mock(**{"sync.side_effect": error})
            replay = mock.Mock(execute=mock.AsyncMock(return_value=[b"ok 0 0\n"]))
            hub = hub_module.Hub(
                replay, Journal(self.folder / str(error), [], mock.Mock()), hub_module.HubLimits(), mock.Mock()
            )
            client = Client(hub, b"f0")
            client.transport = mock.Mock(**{"is_closing.return_value": False, "write": steps.write})
            client.get_buffer(8)[:8] = b"open f0\n"
            client.buffer_updated(8)
            with contextlib.ExitStack() as stack:
                stack.enter_context(mock.patch("os.fdatasync", steps.sync))
                if error:
                    stack.enter_context(self.assertRaises(Fault))
                [shard] = hub.shards
                asyncio.run(hub.answer(shard, hub.next_batch(shard)))
            self.assertEqual([call[0] for call in steps.mock_calls], ["sync"] if error else ["sync", "write"])


class Ends(HubCase):
    """Exports, signals, and refusals at the start."""

    def test_an_export_while_serving_equals_that_of_a_replay(self) -> None:
        self.start()
        others, head = self.talk("f1"), "place f1 0 f1c"
        # Another team works all the while and commits nothing.
        text = "open f1\n" + "".join(f"{head}{at % CELLS} {spot(1, at)}\n" for at in range(2000))
        others.socket.sendall(text.encode())
        done, operator, target, want = b"", self.talk("operator"), self.folder / "new.def", self.folder / "want.def"
        for _ in range(3):
            scripts = [Script(self.rng, team) for team in (0, 2, TEAMS)]
            lines = [
                line for _ in range(300) if not (line := self.rng.choice(scripts).line()).startswith((b"def", b"check"))
            ]
            for team in (b"f0", b"f2", b"-"):
                lines += [b"open " + team, *(b"%b %b 0" % (verb, team) for verb in (b"sync", b"tidy", b"commit"))]
            later = [b"unplace f0 0 f0c1", b"legalize f0 0 f0c1 0 6000", b"commit f0 0"]
            operator.socket.sendall(b"\n".join([*lines, b"export %b" % bytes(target), *later]) + b"\n")
            replies = [operator.replies.readline() for _ in [*lines, b"", *later]]
            self.assertEqual((replies[len(lines)], replies[-1][:2]), (b"ok\n", b"ok"))
            done += b"\n".join(lines) + b"\n"
            self.direct(done, "--export", str(want))
            self.assertEqual(target.read_bytes(), want.read_bytes())
            self.assertNotEqual(target.read_text(), design_text())
            done += b"\n".join(later) + b"\n"
        self.assertEqual(others.replies.readline(), b"ok 0 0\n")
        refused = [f"export {path}" for path in ("/nowhere/x.def", self.journal, self.design)]
        *refusals, last = operator.ask(*refused, "where f0 0 nil")
        own = "is the journal or a file of the design"
        reasons = ["cannot write /nowhere/x.def", f"{self.journal} {own}", f"{self.design} {own}"]
        self.assertEqual((refusals, last), ([f"no 13 NotExported {reason}" for reason in reasons], "no 5 NoCell"))

    def test_a_signal_ends_it_after_all_replies(self) -> None:
        target = self.folder / "end.def"
        # A hub under nohup ignores SIGHUP, but not SIGINT, which a shell makes its background jobs ignore.
        for number, how in ((signal.SIGHUP, signal.SIG_DFL), (signal.SIGINT, signal.SIG_IGN)):
            self.addCleanup(signal.signal, number, signal.signal(number, how))
        for number in (signal.SIGTERM, signal.SIGINT, signal.SIGHUP):
            self.start("--export", str(target))
            talker, idle, operator = self.talk("f0"), self.talk("f1"), self.talk("operator")
            self.assertRegex(talker.ask("open f0")[0], "ok 0")
            operator.socket.sendall(b"export %b\nopen f3\n" % bytes(self.folder / "other.def"))
            talker.socket.sendall(b"tidy f0 0\ncommit f0 0\n" + b"sync f0 0\n" * 3000)
            self.assertEqual(talker.replies.readline()[:2], b"ok")
            self.hub.process.send_signal(number)
            self.assertTrue(all(reply.startswith(b"ok") for reply in talker.replies.read().splitlines()))
            self.assertEqual((idle.replies.read(), operator.replies.read()), (b"", b"ok\nok 0 0\n"))
            self.assertEqual(self.hub.process.wait(PATIENCE), 0)
            self.assertIn("f0c1 INV + PLACED", target.read_text())
            with self.assertRaises(ConnectionRefusedError):
                self.talk("f0")

    def test_a_refused_design_or_team_is_not_served(self) -> None:
        self.assertIn("no team: Z", self.start("--team", "Z"))
        self.assertEqual((self.hub.process.returncode, list((self.folder / "s").iterdir())), (1, []))
        self.assertIn("ready: 1 teams", self.start("--team", "f3"))
        self.hub.end()
        self.journal.unlink()
        self.design.write_text("DESIGN x ;\nEND DESIGN\n")
        self.assertIn("7 NoUnits", self.start())
        self.assertEqual(self.hub.process.returncode, 1)

    def test_a_hub_with_other_teams_than_the_program_is_refused(self) -> None:
        fence = '"kind":"fence","name":"f3"'
        for edit, output in (
            (
                f's/{fence}/{fence[:-3]}Z"/',
                "the DEF text has 9 teams, the program reports 9; only in the DEF text: f3; only reported: Z",
            ),
            (
                f"/{fence}/d",
                "the DEF text has 9 teams, the program reports 8; only in the DEF text: f3; only reported: none",
            ),
        ):
            self.program = self.describing(f"'{PROGRAM}' \"$@\" | sed '{edit}'")
            self.assertIn(output, self.start())
            self.assertEqual((self.hub.process.wait(PATIENCE), list((self.folder / "s").iterdir())), (1, []))

    def test_a_program_that_reports_no_teams_is_refused(self) -> None:
        for script, output, status in (
            ("echo no such verb >&2; exit 2", "no such verb", 2),
            ("exit 0", "does not report the teams", 3),
            ('printf \'{"kind":"fen\'; kill -9 $$', "does not report the teams", 3),
        ):
            self.program = self.describing(script)
            self.assertIn(output, self.start())
            self.assertEqual((self.hub.process.wait(PATIENCE), list((self.folder / "s").iterdir())), (status, []))

    def test_unread_lines_at_the_end_reset_no_connection(self) -> None:
        for last in (b"bye\n" + b"where f0 0 f0c1\n" * 3000, b"where f0 0 f0c1\n" * 6000):
            self.start()
            talker = self.talk("f0")
            self.assertEqual(talker.ask("open f0"), ["ok 0 0"])
            talker.socket.sendall(b"sync f0 0\n" * 500 + last)
            self.assertEqual(talker.replies.readline(), b"ok 0\n")
            self.hub.process.terminate()
            self.assertEqual(talker.replies.read()[: 499 * 5], b"ok 0\n" * 499)
            self.assertEqual(self.hub.process.wait(PATIENCE), 0)

    def test_an_impossible_export_is_refused_at_the_start(self) -> None:
        for path in (self.design, self.lef, self.journal, self.folder, self.folder / "nowhere" / "x.def"):
            self.start("--export", str(path))
            self.assertEqual(self.hub.process.wait(PATIENCE), 3, path)
            self.assertNotIn("ready", self.hub.log_text())
        self.assertEqual(self.design.read_text(), design_text())

    def test_a_second_hub_another_design_and_other_replies_are_refused(self) -> None:
        self.start()
        self.talk("f0").ask("open f0", "place f0 0 f0c1 0 0 N")
        for words in (self.words(journal="other"), self.words(sockets="s2")):
            second = subprocess.run([*tool_words("lefence-hub"), *words], capture_output=True, timeout=PATIENCE)
            self.assertEqual((second.returncode, b"another hub has locked it" in second.stderr), (3, True))
        self.hub.end()
        kept = self.journal.read_bytes()
        other = self.folder / "other.def"
        other.write_text(design_text() + "\n")
        second = subprocess.run(
            [*tool_words("lefence-hub"), *self.words(design=other)], capture_output=True, timeout=PATIENCE
        )
        self.assertIn(b"of another design", second.stderr)
        self.assertEqual((second.returncode, self.journal.read_bytes()), (1, kept))
        journal = Journal(self.journal, texts_in(self.journal) or [], mock.Mock())
        journal.append([Record(b"open f1", b"ok 3 0\n")])
        journal.close()
        self.assertIn("has b'ok 3 0", self.start())
        self.assertEqual(self.hub.process.returncode, 1)
        self.journal.write_bytes(kept[: kept.rindex(b"batch") - 4])
        self.start()
        self.assertIn("removed an incomplete batch", self.hub.log_text())
        self.assertIn("ready", self.hub.log_text())

    def test_the_number_of_sessions_is_that_of_the_journal(self) -> None:
        for number in ("0", "65", "x"):
            self.start("--sessions", number)
            self.assertEqual(self.hub.process.wait(PATIENCE), 2, number)
        self.assertFalse(self.journal.exists())
        full = [f"ok {number} 0" for number in range(9)] + ["no 10 SessionsFull"]
        # (a journal without changes is written again)
        self.start()
        self.hub.end()
        self.start("--sessions", "9")
        self.assertEqual(self.talk("operator").ask(*["open f0"] * 10), full)
        self.hub.kill()
        kept = self.journal.read_bytes()
        self.assertIn(b"\nsessions 9\nsegment 1 ", kept)
        for number in ("8", "10"):
            output = self.start("--sessions", number)
            self.assertEqual(self.hub.process.wait(PATIENCE), 1)
            self.assertIn("made for 9 session slots per team", output)
            self.assertEqual(self.journal.read_bytes(), kept)
        exported = self.folder / "new.def"
        for words in ((), ("--sessions", "9")):
            self.start(*words, "--tail-bytes", "1", "--export", str(exported))
            self.assertIn("ready", self.hub.log_text())
            talker = self.talk("operator")
            self.assertEqual(talker.ask("place f0 0 f0c1 0 0 N"), ["no 3 NoSession"])
            self.assertEqual(talker.ask(*["open f0"] * 10), full)
            self.assertEqual(self.hub.end(), 0)
        self.assertTrue(exported.exists())
        self.assertRegex(self.journal.read_bytes(), rb"\nsessions 9\nsegment [2-9] ")
        self.assertEqual(self.tool("lefence-journal", "verify", self.journal, "--program", PROGRAM).returncode, 0)
        self.assertEqual(
            self.tool("lefence-journal", "verify", self.journal, "--all", "--program", PROGRAM).returncode, 0
        )
        self.assertIn(b"each team has 9 session slots", self.tool("lefence-journal", "check", self.journal).stdout)
        self.assertIn(b"with --sessions 9", self.tool("lefence-journal", "export", self.journal).stderr)

    def test_a_roll_can_change_the_number_of_sessions(self) -> None:
        self.start("--tail-bytes", "1")
        talker = self.talk("operator")
        self.assertEqual(talker.ask("open f0", "place f0 0 f0c1 0 0 N", "open f0"), ["ok 0 0", "ok 1", "ok 1 1"])
        self.hub.kill()
        # The session of number 1 is open.
        self.assertIn("team f0 has an open session of number 1 or more", self.start("--roll", "--sessions", "1"))
        self.assertEqual(self.hub.process.wait(PATIENCE), 1)
        for number in (11, 2):
            self.assertIn(f"each team has {number} session slots", self.start("--roll", "--sessions", str(number)))
            self.assertEqual(self.hub.process.wait(PATIENCE), 0)
        self.assertIn("each team has 11 session slots", self.start("--roll", "--sessions", "11"))
        self.assertIn("ready", self.start("--sessions", "11"))
        talker = self.talk("operator")
        self.assertEqual(talker.ask(*["open f0"] * 11), [f"ok {number} 1" for number in range(11)])
        self.assertEqual(talker.ask("where f0 0 f0c1", "undo f0 10"), ["ok 0 0 N", "ok 2"])
        self.assertEqual(self.hub.end(), 0)
        for words in ((), ("--all",)):
            done = self.tool("lefence-journal", "verify", self.journal, "--program", PROGRAM, *words)
            self.assertEqual(done.returncode, 0, done.stderr)
        listed = self.tool("lefence-journal", "list", self.journal).stdout
        self.assertEqual(listed.count(b"undo f0 10"), 1)


if __name__ == "__main__":
    unittest.main()
