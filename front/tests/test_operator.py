"""The operator at run time: a frozen team, a dropped client, a state now; and savepoints of teams."""

from __future__ import annotations

import os
import subprocess
import unittest

from support import PATIENCE, PROGRAM, HubCase, tool_words

import lefence


class AtRunTime(HubCase):
    def setUp(self) -> None:
        super().setUp()
        self.start("--keep", "0")
        self.operator, self.member = self.talk("operator"), self.talk("f0")
        self.assertEqual(self.member.ask("open f0", "place f0 0 f0c1 0 0 N"), ["ok 0 0", "ok 1"])

    def test_a_frozen_team_changes_only_by_the_operator(self) -> None:
        self.assertEqual(self.operator.ask("freeze f0", "freeze Z", "freeze"), ["ok", "no 2 NoTeam", "no 1 BadRequest"])
        lines = ("place f0 0 f0c2 2000 0 N", "undo f0 0", "where f0 0 f0c1", "sync f0 0", "freeze f0")
        refused = "no 14 Frozen"
        self.assertEqual(self.member.ask(*lines), [refused, refused, "ok 0 0 N", "ok 1", "no 1 BadRequest"])
        self.assertEqual(self.talk("f1").ask("open f1", "place f1 0 f1c1 8000 0 N"), ["ok 0 0", "ok 1"])
        with lefence.connect(self.folder / "s/f0.sock") as connection, connection.session("f0") as session:
            with self.assertRaises(lefence.Frozen):
                session.tidy()
        self.assertEqual(self.operator.ask("place f0 0 f0c2 2000 0 N", "thaw f0"), ["ok 2", "ok"])
        self.assertEqual(self.member.ask("sync f0 0", "undo f0 0"), ["ok 2", "ok 3"])

    def test_a_client_is_dropped_and_a_state_is_saved_now(self) -> None:
        words = [*tool_words("lefence-shell"), "--raw", str(self.folder / "s/f0.sock")]
        with subprocess.Popen(words, stdin=subprocess.PIPE, stdout=subprocess.PIPE, stderr=subprocess.PIPE) as other:
            assert other.stdin and other.stdout
            other.stdin.write(b"open f0\n")
            other.stdin.flush()
            self.assertEqual(other.stdout.readline(), b"ok 1 1\n")
            self.assertEqual(self.operator.ask(f"drop {other.pid}", "drop x"), ["ok 1", "no 1 BadRequest"])
            other.stdin.write(b"sync f0 1\n")
            self.assertEqual(other.communicate(timeout=PATIENCE)[0], b"")
        self.assertEqual(other.returncode, 3)
        self.assertEqual(self.operator.ask(f"drop {other.pid}"), ["ok 0"])
        # (its session is free again)
        self.assertEqual(self.member.ask("open f0"), ["ok 1 1"])
        self.assertEqual((self.operator.ask("state"), self.member.ask("state")), (["ok"], ["no 1 BadRequest"]))
        self.hub.wait_for("saved a state of")
        self.assertEqual(self.member.ask("sync f0 0"), ["ok 1"])

    def test_a_team_goes_back_to_a_savepoint(self) -> None:
        lines = ("place f0 0 f0c2 2000 0 N", "savepoint f0 noon", "place f0 0 f0c2 2400 0 N", "unplace f0 0 f0c1")
        self.assertEqual(self.member.ask(*lines), ["ok 2", "ok", "ok 3", "ok 4"])
        names = ("savepoint f1 x", "savepoint f0 7", "savepoint f0", "savepoint f0 a b")
        self.assertEqual(self.member.ask(*names), ["no 2 NoTeam", *["no 1 BadRequest"] * 3])
        self.assertEqual(self.operator.ask("savepoint f1 x", "savepoint Z x"), ["ok", "no 2 NoTeam"])
        back = ("restore-team", self.journal, "f0", "--program", PROGRAM, "--at")
        self.assertEqual(self.tool("lefence-journal", *back, "x").returncode, 2)
        done = self.tool("lefence-journal", *back, "noon", "-o", "back")
        self.assertEqual(done.returncode, 0, done.stderr)
        done = self.tool("lefence-push", "back", self.folder / "s/f0.sock", "--rebase")
        self.assertEqual(done.returncode, 0, done.stderr)
        self.assertEqual(self.member.ask("where f0 0 f0c1", "where f0 0 f0c2"), ["ok 0 0 N", "ok 2000 0 N"])

    def say(self, socket: str, *lines: str) -> list[str]:
        """What the shell prints for lines over a socket."""
        text = "".join(f"{line}\n" for line in lines).encode()
        done = self.tool("lefence-shell", self.folder / "s" / socket, lines=text)
        self.assertEqual((done.returncode, done.stderr), (0, b""))
        return done.stdout.decode().splitlines()

    def test_the_lines_of_the_operator_are_commands_of_the_shell(self) -> None:
        other = self.talk("f1")
        self.assertEqual(other.ask("open f1"), ["ok 0 0"])
        lines = {
            "freeze f1": "team f1 is frozen: changes by its own clients are refused",
            "freeze Z": "no: no such team here",
            "freeze": "no: freeze takes TEAM",
            "savepoint f1 noon": "noon names the present places of team f1",
            "savepoint noon": "no: choose a team first: `team NAME`, or `savepoint TEAM NAME`",
            "savepoint f1 7": "no: a savepoint's name must not be a number",
            "savepoint f1 a b": "no: savepoint takes NAME, or TEAM NAME",
            "state": "the hub saves a state if there are changes since the last one",
            "state now": "no: state takes nothing",
            "drop 1": "0 connections of process 1 ended",
            "drop x": "no: drop takes PID, the number of a process",
            "export": "no: export takes PATH",
            "export no/such/new.def": "no: the file was not written: cannot write no/such/new.def",
        }
        self.assertEqual(self.say("operator.sock", *lines), [*lines.values()])
        self.assertEqual(other.ask("place f1 0 f1c1 8000 0 N"), ["no 14 Frozen"])
        self.assertEqual(self.say("operator.sock", "thaw f1", "thaw Z")[:1], ["team f1 is not frozen"])
        self.assertEqual(other.ask("place f1 0 f1c1 8000 0 N"), ["ok 1"])
        self.hub.wait_for("saved a state of")
        # Without a team, a savepoint is of the team in use, or of the only one.
        output = self.say("operator.sock", "team f1", "savepoint eve")
        self.assertEqual(output[1:], ["eve names the present places of team f1"])
        self.assertEqual(self.say("f1.sock", "savepoint late"), ["late names the present places of team f1"])
        self.assertIn("this is a query socket", self.say("f1.query.sock", "savepoint late")[0])

    def test_the_shell_ends_the_connections_of_a_process(self) -> None:
        pid = os.getpid()
        self.assertEqual(self.say("operator.sock", f"drop {pid}"), [f"1 connection of process {pid} ended"])
        self.assertEqual(self.member.all_replies(), b"")

    def test_the_shell_shows_the_status_and_the_full_path_of_an_export(self) -> None:
        # A relative path begins in the hub's folder, which is that of the tests, and not in the shell's.
        path = os.path.relpath(self.folder / "new.def")
        output = self.say("operator.sock", "freeze f1", "status", f"export {path}")
        self.assertRegex(output[1], "^hub: up .*; 3 clients; ")
        teams = {line.split()[0]: line.split() for line in output if line}
        self.assertEqual((teams["f1"][4], teams["f0"][2]), ("frozen", "1"))
        self.assertEqual(output[-1], f"written: {os.path.join(os.getcwd(), path)}")
        self.assertTrue((self.folder / "new.def").exists())

    def test_other_sockets_refuse_the_commands_of_the_operator(self) -> None:
        lines = ("status", "freeze f0", "thaw f0", "drop 1", "state", "export x")
        expected = [f"no: {line.split()[0]} is for the operator's socket" for line in lines]
        self.assertEqual(self.say("f0.sock", *lines), expected)


if __name__ == "__main__":
    unittest.main()
