"""What clients and the operator of `lefence hub` see: sockets, replies, the journal, and starts after a kill.

No contract knows the bytes of sockets and files.
"""

from __future__ import annotations

import random
import signal
import socket
import stat
import subprocess
import threading
import unittest
from pathlib import Path

from program import DEF, DESIGN, LEF, PATIENCE, PROGRAM, InFolder, run

READY = b"lefence: ready: clients may connect\n"


class Peer:
    """A connection to a socket of a hub."""

    def __init__(self, path: Path) -> None:
        self.socket = socket.socket(socket.AF_UNIX)
        self.socket.settimeout(PATIENCE)
        self.socket.connect(str(path))
        self.replies = self.socket.makefile("rb")

    def send(self, text: bytes) -> None:
        self.socket.sendall(text)

    def reply(self) -> str:
        """The next reply; empty at the end."""
        return self.replies.readline().decode().removesuffix("\n")

    def ask(self, line: str) -> str:
        self.send(line.encode() + b"\n")
        return self.reply()

    def close(self) -> None:
        self.replies.close()
        self.socket.close()


class Hubs(InFolder):
    """A hub over the small design, with its folders."""

    def setUp(self) -> None:
        super().setUp()
        self.sockets = self.folder / "sockets"
        self.journal = self.folder / "journal"
        for folder in (self.sockets, self.journal):
            folder.mkdir()
        self.words = ["hub", *DESIGN, "--sockets", str(self.sockets), "--journal", str(self.journal)]

    def start(self, *words: str) -> subprocess.Popen[bytes]:
        """Starts a hub, and waits until it is ready."""
        hub = subprocess.Popen([str(PROGRAM), *self.words, *words], stderr=subprocess.PIPE, stdout=subprocess.PIPE)
        self.addCleanup(self.end, hub)
        assert hub.stderr is not None
        said = [hub.stderr.readline()]
        while said[-1] and said[-1] != READY:
            said.append(hub.stderr.readline())
        self.assertEqual(said[-1], READY, said)
        return hub

    def end(self, hub: subprocess.Popen[bytes]) -> None:
        """Ends a hub that a test has left."""
        if hub.poll() is None:
            hub.kill()
        hub.communicate()

    def kill(self, hub: subprocess.Popen[bytes]) -> None:
        hub.send_signal(signal.SIGKILL)
        hub.communicate(timeout=PATIENCE)

    def stop(self, hub: subprocess.Popen[bytes]) -> None:
        """Has the operator stop a hub."""
        operator = self.peer("operator.sock")
        self.assertEqual(operator.ask("stop"), "ok")
        self.assertEqual(hub.wait(PATIENCE), 0)

    def peer(self, name: str) -> Peer:
        peer = Peer(self.sockets / name)
        self.addCleanup(peer.close)
        return peer

    def segment(self) -> Path:
        return self.journal / "segment"


class Serving(Hubs):
    """Clients of a hub."""

    def test_sockets_of_teams_and_of_the_operator(self) -> None:
        self.start()
        names = sorted(path.name for path in self.sockets.iterdir())
        teams = ("-", "A", "B")
        expected = sorted(["operator.sock", *(f"{team}{end}" for team in teams for end in (".sock", ".query.sock"))])
        self.assertEqual(names, expected)
        modes = {path.name: stat.S_IMODE(path.stat().st_mode) for path in self.sockets.iterdir()}
        self.assertEqual({mode for name, mode in modes.items() if name != "operator.sock"}, {0o660})
        self.assertEqual(modes["operator.sock"], 0o600)

    def test_each_client_gets_the_replies_to_its_own_lines(self) -> None:
        self.start()
        first, second = self.peer("A.sock"), self.peer("B.sock")
        self.assertEqual(first.ask("open A"), "ok 0 0")
        self.assertEqual(second.ask("open B"), "ok 0 0")
        first.send(b"place A 0 a1 0 0 N\nwhere A 0 a1\n")
        second.send(b"where B 0 b1\n")
        self.assertEqual([first.reply(), first.reply()], ["ok 1", "ok 0 0 N"])
        self.assertEqual(second.reply(), run(["replay", *DESIGN], "open B\nwhere B 0 b1\n")[1].splitlines()[1])
        self.assertEqual(first.ask("bye"), "ok")
        self.assertEqual(first.reply(), "")
        self.assertEqual(second.ask("sync B 0"), "ok 0")

    def test_many_clients_of_a_team_share_its_cells(self) -> None:
        self.start()
        peers = [self.peer("A.sock") for _ in range(8)]
        for number, peer in enumerate(peers):
            self.assertEqual(peer.ask("open A"), f"ok {number} 0")
        self.assertEqual(self.peer("A.sock").ask("open A"), "no 10 SessionsFull")
        self.assertEqual(peers[0].ask("place A 0 a1 0 0 N"), "ok 1")
        self.assertEqual(peers[1].ask("place A 1 a1 400 0 N"), "no 4 Stale 1")
        peers[0].close()
        # The session of a client that is gone is closed.
        late = self.peer("A.sock")
        while (reply := late.ask("open A")) == "no 10 SessionsFull":
            pass
        self.assertEqual(reply, "ok 0 1")

    def test_a_line_for_another_team_is_refused(self) -> None:
        self.start()
        peer = self.peer("A.sock")
        self.assertEqual(peer.ask("open B"), "no 2 NoTeam")
        self.assertEqual(peer.ask("open A"), "ok 0 0")
        self.assertEqual(peer.ask("place B 0 b1 0 0 N"), "no 2 NoTeam")

    def test_a_query_socket_changes_nothing(self) -> None:
        self.start()
        peer, looking = self.peer("A.sock"), self.peer("A.query.sock")
        self.assertEqual(peer.ask("open A"), "ok 0 0")
        self.assertEqual(peer.ask("place A 0 a1 0 0 N"), "ok 1")
        size = self.segment().read_bytes().rstrip(b"\0")
        self.assertEqual(looking.ask("where A 0 a1"), "ok 0 0 N")
        self.assertEqual(looking.ask("place A 0 a1 400 0 N"), "no 15 QueriesOnly")
        self.assertEqual(peer.ask("where A 0 a1"), "ok 0 0 N")
        self.assertEqual(self.segment().read_bytes().rstrip(b"\0"), size)

    def test_lines_in_flight_are_answered_in_order(self) -> None:
        self.start()
        peer = self.peer("A.sock")
        lines = ["open A", *(f"place A 0 a1 {400 * (step % 2)} 0 N" for step in range(2_000)), "where A 0 a1"]
        sender = threading.Thread(target=peer.send, args=("".join(f"{line}\n" for line in lines).encode(),))
        sender.start()
        replies = [peer.reply() for _ in lines]
        sender.join()
        alone = run(["replay", *DESIGN], "".join(f"{line}\n" for line in lines))[1].splitlines()
        self.assertEqual(replies, alone)

    def test_a_line_that_is_too_long_is_refused(self) -> None:
        self.start()
        peer = self.peer("A.sock")
        peer.send(b"x" * 4_097 + b"\n")
        self.assertEqual(peer.reply(), "no 1 BadRequest")
        self.assertEqual(peer.ask("open A"), "ok 0 0")

    def test_clients_that_stall_or_break_harm_nobody(self) -> None:
        self.start()
        silent, half, deaf, peer = (self.peer("A.sock") for _ in range(4))
        half.send(b"open ")
        deaf.send(b"check A 0\n" * 1_000)
        self.assertEqual(peer.ask("open A"), "ok 0 0")
        half.close()
        deaf.close()
        self.assertEqual(peer.ask("place A 0 a1 0 0 N"), "ok 1")
        self.assertEqual(silent.ask("open A"), "ok 1 1")

    def test_only_the_named_teams_have_sockets(self) -> None:
        self.start("--team", "B")
        names = sorted(path.name for path in self.sockets.iterdir())
        self.assertEqual(names, ["B.query.sock", "B.sock", "operator.sock"])


class Restarting(Hubs):
    """A hub that starts again."""

    def test_what_was_told_lasts_after_a_kill(self) -> None:
        hub = self.start()
        peer = self.peer("A.sock")
        self.assertEqual(peer.ask("open A"), "ok 0 0")
        self.assertEqual(peer.ask("place A 0 a1 0 0 N"), "ok 1")
        self.assertEqual(peer.ask("place A 0 a1 400 0 N"), "ok 2")
        self.kill(hub)
        self.start()
        again = self.peer("A.sock")
        # The session of the client before is closed, and its slot is free.
        self.assertEqual(again.ask("open A"), "ok 0 2")
        self.assertEqual(again.ask("where A 0 a1"), "ok 400 0 N")
        self.assertEqual(again.ask("undo A 0"), "ok 3")
        self.assertEqual(again.ask("where A 0 a1"), "ok 0 0 N")

    def test_kills_at_random_moments_lose_nothing_that_was_told(self) -> None:
        chance = random.Random(1)
        told = 0
        for _ in range(12):
            hub = self.start()
            peer = self.peer("A.sock")
            reply = peer.ask("open A")
            self.assertTrue(reply.startswith("ok 0 "), reply)
            revision = int(reply.split()[2])
            # Of the line whose reply was not read, the change may be there or not.
            self.assertIn(revision, (told, told + 1))
            told = revision
            for step in range(chance.randrange(20)):
                told = int(peer.ask(f"place A 0 a1 {400 * (step % 2)} 0 N").split()[1])
            peer.send(b"place A 0 a1 800 0 N\n")
            self.kill(hub)

    def test_the_journal_is_one_that_replay_runs(self) -> None:
        hub = self.start()
        peer = self.peer("A.sock")
        lines = ["open A", "tidy A 0", "commit A 0"]
        for line in lines:
            self.assertTrue(peer.ask(line).startswith("ok"), line)
        self.stop(hub)
        texts = []
        given = "".join(f"{line}\n" for line in lines)
        runs: list[tuple[list[str], str]] = [(["--journal", str(self.segment())], ""), ([], given)]
        for words, text in runs:
            exported = self.folder / "new.def"
            status, _, said = run(["replay", *DESIGN, *words, "--export", str(exported)], text)
            self.assertEqual((status, said), (0, ""))
            texts.append(exported.read_bytes())
        self.assertEqual(texts[0], texts[1])
        self.assertNotEqual(texts[0], DEF.read_bytes())

    def test_a_state_with_which_the_journal_begins(self) -> None:
        state = self.folder / "begin.state"
        run(["replay", *DESIGN, "--save", str(state)], "open A\nplace A 0 a1 400 0 N\n")
        hub = self.start("--begin", str(state))
        self.assertEqual(self.peer("A.query.sock").ask("where A 0 a1"), "ok 400 0 N")
        self.stop(hub)
        # Each start needs it.
        status, _, said = run(self.words, "")
        self.assertEqual((status, said.splitlines()[0]), (1, "lefence: 38 OtherState byte 38"))

    def test_the_sockets_of_a_hub_that_was_killed_are_taken_over(self) -> None:
        self.kill(self.start())
        self.assertTrue((self.sockets / "A.sock").exists())
        self.start()
        self.assertEqual(self.peer("A.sock").ask("open A"), "ok 0 0")


class Refusals(Hubs):
    """Hubs that do not start."""

    def refused(self, words: list[str]) -> tuple[int, list[str]]:
        status, written, said = run(words, "")
        self.assertEqual(written, "")
        return status, said.splitlines()

    def test_no_folder_for_the_journal(self) -> None:
        words = ["hub", *DESIGN, "--sockets", str(self.sockets), "--journal", str(self.folder / "none")]
        expected = ["lefence: Hub", f"lefence: the journal in {self.folder}/none fails: there is no such folder"]
        self.assertEqual(self.refused(words), (3, expected))

    def test_no_folder_for_the_sockets(self) -> None:
        words = ["hub", *DESIGN, "--sockets", str(self.folder / "none"), "--journal", str(self.journal)]
        status, said = self.refused(words)
        self.assertEqual((status, said[-2]), (3, "lefence: Hub"))
        self.assertEqual(said[-1], f"lefence: a socket in {self.folder}/none fails")

    def test_sockets_of_a_hub_that_runs(self) -> None:
        self.start()
        other = self.folder / "other"
        other.mkdir()
        words = ["hub", *DESIGN, "--sockets", str(self.sockets), "--journal", str(other)]
        status, said = self.refused(words)
        self.assertEqual((status, said[-1]), (3, f"lefence: a socket in {self.sockets} fails: it is in use"))
        self.assertEqual(self.peer("A.sock").ask("open A"), "ok 0 0")

    def test_a_journal_that_another_hub_uses(self) -> None:
        self.start()
        other = self.folder / "other"
        other.mkdir()
        words = ["hub", *DESIGN, "--sockets", str(other), "--journal", str(self.journal)]
        expected = ["lefence: Hub", f"lefence: the journal in {self.journal} fails: another hub uses it"]
        self.assertEqual(self.refused(words), (3, expected))
        self.assertEqual(list(other.iterdir()), [])

    def test_an_unknown_team(self) -> None:
        status, said = self.refused([*self.words, "--team", "X"])
        self.assertEqual((status, said), (1, ["lefence: NoTeam", "lefence: team X is not in the design"]))
        self.assertEqual(list(self.journal.iterdir()), [])

    def test_another_number_of_sessions(self) -> None:
        self.stop(self.start())
        status, said = self.refused([*self.words, "--sessions", "9"])
        self.assertEqual((status, said[0]), (1, "lefence: 37 OtherSessions byte 38"))

    def test_other_texts(self) -> None:
        self.stop(self.start())
        other = self.folder / "other.def"
        other.write_bytes(DEF.read_bytes() + b"\n")
        words = ["hub", str(other), str(LEF), "--sockets", str(self.sockets), "--journal", str(self.journal)]
        status, said = self.refused(words)
        self.assertEqual((status, said[0]), (1, "lefence: 36 OtherTexts byte 38"))

    def test_a_damaged_journal_is_left_alone(self) -> None:
        hub = self.start()
        peer = self.peer("A.sock")
        for line in ("open A", "place A 0 a1 0 0 N", "place A 0 a2 400 0 N"):
            self.assertTrue(peer.ask(line).startswith("ok"), line)
        self.stop(hub)
        text = bytearray(self.segment().read_bytes())
        at = text.index(b"place A")
        text[at] ^= 1
        self.segment().write_bytes(text)
        status, said = self.refused(self.words)
        self.assertEqual(status, 1)
        self.assertRegex(said[0], r"^lefence: 31 BadSum byte \d+$")
        self.assertEqual(self.segment().read_bytes(), bytes(text))

    def test_words(self) -> None:
        for words in (["hub", *DESIGN, "--sockets", "s"], ["hub", *DESIGN, "--journal", "j"]):
            with self.subTest(words=words):
                self.assertEqual(run(words, "")[0], 2)


if __name__ == "__main__":
    unittest.main()
