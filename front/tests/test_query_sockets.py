"""The query sockets of a hub: they answer queries in sessions that take no slot, and nothing of theirs is journaled."""

from __future__ import annotations

import json
import os
import signal
import threading
import time
from unittest import main

from support import HubCase, wait_gone, wait_until

import lefence
from lefence.base.protocol import query_socket_name, socket_name, team_of_query_socket, team_of_socket
from lefence.hub.status import read_status

PLACED = ("open f0", "place f0 0 f0c1 0 0 N", "place f0 0 f0c2 400 0 N")


class QuerySockets(HubCase):
    def test_the_name_of_a_query_socket_is_that_of_no_other(self) -> None:
        for team in ("f0", "-", "operator", "query", "a.query", "a/b"):
            name = query_socket_name(team)
            self.assertEqual((team_of_query_socket(name), team_of_socket(name)), (team, None))
            self.assertIsNone(team_of_query_socket(socket_name(team)))
        self.assertIsNone(team_of_query_socket("x.sock"))

    def test_queries_are_answered_without_a_session(self) -> None:
        self.start()
        query, user = self.talk("f0.query"), self.talk("f0")
        # the hub opens a session for them, or uses that of a client
        for opens in (False, True):
            if opens:
                user.ask(*PLACED)
            revision = 2 if opens else 0
            replies = query.ask("open f0", "where f0 0 f0c1", "find f0 7 f0c1 0 0", "check f0 0", "sync f0 3")
            place = "ok 0 0 N" if opens else "no 6 Unplaced f0c1"
            report = '{"cells":10,"unplaced":%d,"violations":[]}' % (8 if opens else 10)
            expected = [f"ok 0 {revision}", place, "ok 0 0 N", f"ok {report}", f"ok {revision}"]
            self.assertEqual(replies, expected)
            query.ask("close f0 0")
        length = int(query.ask("def f0 0")[0].split()[1])
        self.assertIn(b"f0c1 INV + PLACED ( 0 0 ) N", query.replies.read(length))

    def test_only_queries_of_the_own_team_are_answered(self) -> None:
        self.start()
        query = self.talk("f0.query")
        for line in ("place f0 0 f0c1 0 0 N", "tidy f0 0", "commit f0 0", "pad f0 0 1", "undo f0 0", "savepoint f0 x"):
            self.assertEqual(query.ask(line), ["no 15 QueriesOnly"], line)
        bad = ("", "export x", "open", "sync f0 x", "close f0 4294967296", "where f0 0", "where f0 x f0c1", "wait f0")
        for line in bad:
            self.assertEqual(query.ask(line), ["no 1 BadRequest"], line)
        for line in ("open f1", "where f1 0 f1c1", "check f1 0", "wait f1 0", "sync f1 0"):
            self.assertEqual(query.ask(line), ["no 2 NoTeam"], line)
        self.assertEqual(query.ask("where f0 0 f1c1", "units", "bye"), ["no 5 NoCell", "ok 1000", "ok"])

    def test_they_take_no_slot_and_no_line_of_the_journal(self) -> None:
        self.start("--sessions", "2")
        queries = [self.talk("f0.query") for _ in range(20)]
        first = self.journal.read_bytes()
        for query in queries:
            self.assertEqual(query.ask("open f0", "check f0 0")[0], "ok 0 0")
        self.assertEqual(self.journal.read_bytes(), first)
        users = [self.talk("f0") for _ in range(3)]
        replies = [user.ask("open f0")[0] for user in users]
        self.assertEqual(replies, ["ok 0 0", "ok 1 0", "no 10 SessionsFull"])
        self.assertEqual(queries[0].ask("where f0 0 f0c1"), ["no 6 Unplaced f0c1"])
        self.assertEqual(users[1].ask("place f0 1 f0c1 0 0 N", "close f0 1"), ["ok 1", "ok"])
        self.assertEqual(queries[0].ask("where f0 1 f0c1"), ["ok 0 0 N"])
        # a start replays the journal without them
        self.hub.kill()
        self.start("--sessions", "2")
        self.assertEqual(self.talk("f0.query").ask("open f0", "where f0 0 f0c1"), ["ok 0 1", "ok 0 0 N"])

    def test_a_program_that_dies_is_restored_for_them(self) -> None:
        self.start()
        self.talk("f0").ask(*PLACED)
        query = self.talk("f0.query")
        for _ in range(2):
            lost = self.hub.replay_pid()
            os.kill(lost, signal.SIGKILL)
            wait_gone([lost])
            self.assertEqual(query.ask("where f0 0 f0c2"), ["ok 400 0 N"])

    def test_a_client_waits_for_a_change(self) -> None:
        self.start()
        query, user = self.talk("f0.query"), self.talk("f0")
        user.ask(*PLACED)
        self.assertEqual(query.ask("wait f0 1"), ["ok 2"])
        query.socket.sendall(b"wait f0 2\nsync f0 0\n")
        user.ask("where f0 0 f0c1", "place f0 0 f0c1 0 1 N")
        self.talk("f1").ask("open f1", "place f1 0 f1c1 8000 0 N")
        # A line that comes later is answered later: the client would have its reply by now.
        self.assertEqual(self.talk("f0.query").ask("sync f0 0"), ["ok 2"])
        self.assertFalse(query.has_reply())
        user.ask("unplace f0 0 f0c1")
        self.assertEqual([query.replies.readline() for _ in range(2)], [b"ok 3\n"] * 2)

    def test_the_changes_of_a_team_since_a_revision(self) -> None:
        self.start()
        query, user, operator = self.talk("f0.query"), self.talk("f0"), self.talk("operator")
        self.assertEqual(query.ask("changes f0 0", "changes f0 1"), ["ok 0 []", "ok 0 null"])
        user.ask(*PLACED, "place f0 0 f0c1 1 0 N", "swap f0 0 f0c1 f0c2")
        operator.ask("open f0", "legalize f0 1 f0c3 2000 0")
        [reply] = query.ask("changes f0 1")
        changes = json.loads(reply.removeprefix("ok 4 "))
        lines = (
            (2, "place f0 0 f0c2 400 0 N", "ok 2", "f0"),
            (3, "swap f0 0 f0c1 f0c2", "ok 3", "f0"),
            (4, "legalize f0 1 f0c3 2000 0", "ok 4 2000 0 N", "operator"),
        )
        for change, expected in zip(changes, lines, strict=True):
            self.assertLess(abs(change.pop("time") - time.time()), 3600)
            self.assertEqual(tuple(change[key] for key in ("revision", "line", "reply", "socket")), expected)
            self.assertEqual((change["uid"], change["pid"]), (os.getuid(), os.getpid()))
        self.assertEqual(operator.ask("changes f0 1"), [reply])
        self.assertEqual(operator.ask("changes Z 1", "changes f0 x"), ["no 2 NoTeam", "no 1 BadRequest"])
        self.assertEqual(query.ask("changes f1 0", "changes f0 x"), ["no 2 NoTeam", "no 1 BadRequest"])
        # only the changes since the start of the hub are known
        self.hub.kill()
        self.start()
        query = self.talk("f0.query")
        replies = query.ask("changes f0 4", "changes f0 3", "changes f0 5")
        self.assertEqual(replies, ["ok 4 []", "ok 4 null", "ok 4 null"])

    def test_the_cells_that_are_not_at_their_committed_place(self) -> None:
        self.start()
        query, user = self.talk("f0.query"), self.talk("f0")
        self.assertEqual(query.ask("uncommitted f0", "uncommitted f1", "uncommitted")[0], "ok 0 {}")
        user.ask("open f0", *(f"place f0 0 f0c{cell} {600 * cell} 0 N" for cell in range(10)), "commit f0 0")
        self.assertEqual(query.ask("uncommitted f0"), ["ok 11 {}"])
        user.ask("place f0 0 f0c1 600 4000 N", "unplace f0 0 f0c2", "place f0 0 f0c3 1800 4000 N", "undo f0 0")
        other = self.talk("f0.query")
        for talker in (query, other):
            talker.socket.sendall(b"uncommitted f0\nsync f0 0\n")
        for talker in (query, other):
            [reply, revision] = [talker.replies.readline().decode() for _ in range(2)]
            self.assertEqual(json.loads(reply.removeprefix("ok 15 ")), {"f0c1": [600, 0, "N"], "f0c2": [1200, 0, "N"]})
            self.assertEqual(revision, "ok 15\n")
        user.ask("revert f0 0")
        self.assertEqual(query.ask("uncommitted f0"), ["ok 16 {}"])
        self.talk("f1").ask("open f1", "place f1 0 f1c1 8000 0 N")
        self.assertEqual(self.talk("f1.query").ask("uncommitted f1"), ['ok 1 {"f1c1":null}'])

    def test_the_end_of_the_hub_refuses_those_that_wait(self) -> None:
        self.start()
        query, gone = self.talk("f0.query"), self.talk("f0.query")
        for each in (query, gone):
            each.socket.sendall(b"wait f0 0\nwait f0 0\n")
        gone.close()
        # (the first line of each is taken, and waits)
        wait_until(lambda: read_status(self.folder / "s")["lines_total"] >= 2)
        ended = threading.Thread(target=self.hub.end)
        ended.start()
        self.assertEqual(query.all_replies(), b"no 12 OutOfMemory\n" * 2)
        ended.join()

    def test_the_client_library_and_the_shell(self) -> None:
        self.start()
        user = self.talk("f0")
        user.ask(*PLACED)
        path = self.folder / "s/f0.query.sock"
        with lefence.connect(path) as connection, connection.session("f0") as session:
            self.assertEqual((session.first_revision, session.wait(1)), (2, 2))
            self.assertEqual(session.where("f0c2"), lefence.Place(400, 0, "N"))
            self.assertEqual(len(session.cells()), 10)
            with self.assertRaises(lefence.QueriesOnly):
                session.commit()
        lines = b"where f0c2\nwait 1\nwait\nunplace f0c2\n"
        done = self.tool("lefence-shell", path, "--strict", lines=lines)
        expected = (
            "session 0 of team f0, revision 2\nf0c2 is at (400, 0), N\nrevision 2\nno: wait takes REV\n"
            "no: this is a query socket: only the team's other socket takes changes\n"
        )
        self.assertEqual((done.returncode, done.stdout.decode()), (1, expected), done.stderr)
        done = self.tool("lefence-shell", self.folder / "s/f0.sock", lines=b"wait 1\n")
        self.assertIn(b"no: wait is for a team's query socket\n", done.stdout)


if __name__ == "__main__":
    main()
