"""The queue of a hub's program: turns by team, by user and by client, charged by seconds."""

from __future__ import annotations

import socket
import unittest
from unittest import mock

from support import HubCase, spot, waiting_program

from lefence.hub.connection import PENDING, Client
from lefence.hub.line_queue import LineQueue
from lefence.hub.query_sockets import QueryClient


class Turns(unittest.TestCase):
    """A queue of hand-made clients. Each line costs a second, or what a test says."""

    def setUp(self) -> None:
        self.queue = LineQueue()
        self.host = mock.Mock(unused_name=b"~", units=b"1000")

    def client(self, team: bytes | None, uid: int = 1, is_query: bool = False) -> Client:
        queries = mock.Mock(**{"reply_to.return_value": PENDING})
        made = QueryClient(self.host, team or b"", queries) if is_query else Client(self.host, team)
        made.uid = uid
        near, self.far = socket.socketpair()
        for end in (near, self.far):
            self.addCleanup(end.close)
        made.transport = mock.Mock(**{"get_extra_info.return_value": near})
        return made

    def send(self, client: Client, *lines: bytes | None) -> None:
        client.waiting.extend(lines)
        self.queue.add(client)

    def executed(self, seconds: float = 1.0) -> list[Client | None]:
        """Charges each line of the next batch with these seconds; returns the clients of the lines."""
        batch = self.queue.next_batch(True)
        if batch:
            self.queue.charge(batch, seconds * len(batch))
        return [entry.client for entry in batch]

    def test_teams_take_turns_whatever_their_clients(self) -> None:
        many, one = [self.client(b"A", uid) for uid in range(20)], self.client(b"B")
        for client in many:
            self.send(client, *[b"check A 0"] * 5)
        self.assertEqual(self.executed()[0], many[0])
        self.send(one, *[b"check B 0"] * 5)
        turns = [self.executed()[0] for _ in range(10)]
        self.assertEqual([each is one for each in turns], [True, False] * 5)

    def test_users_of_a_team_and_clients_of_a_user_take_turns(self) -> None:
        first, second = [self.client(b"A", 1) for _ in range(3)], self.client(b"A", 2)
        for client in (*first, second):
            self.send(client, *[b"tidy A 0"] * 9)
        turns = [self.executed()[0] for _ in range(12)]
        self.assertEqual(turns.count(second), 6)
        self.assertEqual([turns.count(client) for client in first], [2, 2, 2])

    def test_query_clients_take_turns_as_one_user_who_pays_fourfold(self) -> None:
        users = [self.client(b"A", uid) for uid in (1, 2)]
        queries = [self.client(b"A", uid, is_query=True) for uid in (1, 2, 3)]
        for client in (*users, *queries):
            self.send(client, *[b"check A 0"] * 40)
        turns = [self.executed()[0] for _ in range(36)]
        self.assertEqual([turns.count(client) for client in users], [16, 16])
        self.assertEqual(sum(turns.count(client) for client in queries), 4)

    def test_a_team_pays_with_seconds(self) -> None:
        heavy, light = self.client(b"A"), self.client(b"B")
        self.send(heavy, *[b"check A 0"] * 5)
        self.send(light, *[b"def B 0"] * 50)
        lines = []
        while batch := self.queue.next_batch(True):
            self.queue.charge(batch, 10 if batch[0].client is heavy else 1)
            lines.append(batch[0].client)
        # Ten lines of the one cost as much as one line of the other.
        self.assertEqual([at for at, each in enumerate(lines) if each is heavy], [0, 11, 22, 33, 44])

    def test_a_pause_earns_nothing(self) -> None:
        late, busy = self.client(b"A"), self.client(b"B")
        self.send(busy, *[b"check B 0"] * 40)
        for _ in range(20):
            self.executed()
        self.send(late, *[b"check A 0"] * 9)
        turns = [self.executed()[0] for _ in range(10)]
        self.assertEqual(turns.count(late), 5)

    def test_the_lines_of_a_batch_come_from_all_in_turn(self) -> None:
        clients = [self.client(b"A"), self.client(b"A"), self.client(b"B"), self.client(None)]
        for client in clients:
            self.send(client, *[b"where A 0 x"] * 4)
        batch = self.executed()
        self.assertEqual(len(batch), 16)
        self.assertEqual({id(each) for each in batch[:3]}, {id(clients[0]), id(clients[2]), id(clients[3])})
        self.assertEqual([batch[:12].count(client) for client in clients], [2, 2, 4, 4])

    def test_a_whole_teams_command_is_alone_in_its_batch(self) -> None:
        client, other = self.client(b"A"), self.client(b"B")
        for verb in (b"tidy", b"commit", b"revert", b"undo", b"check", b"def"):
            self.send(client, b"where A 0 x", b"%b A 0" % verb, b"where A 0 x")
            self.send(other, *[b"where B 0 x"] * 2)
            verbs = []
            while batch := self.queue.next_batch(True):
                self.queue.charge(batch, 0)
                verbs.append({entry.verb for entry in batch})
            self.assertEqual(verbs.count({verb}), 1)
            self.assertEqual([each for each in verbs if len(each) > 1], [])

    def test_what_waits_of_a_client_that_is_gone_is_dropped(self) -> None:
        gone, closed = self.client(b"A"), self.client(b"A")
        self.send(closed, *[b"tidy A 0"] * 8)
        self.far.close()
        self.send(gone, *[b"where A 0 x"] * 8)
        self.queue.remove(gone)
        self.assertEqual((self.executed(), len(gone.waiting), len(closed.waiting)), ([], 0, 0))
        # One that will send nothing more, but reads, gets its replies.
        quiet = self.client(b"A")
        self.send(quiet, b"tidy A 0", None)
        self.far.shutdown(socket.SHUT_WR)
        self.assertEqual((self.executed(), self.executed()), ([quiet], [quiet]))

    def test_lines_that_are_slow_make_small_batches(self) -> None:
        client = self.client(b"A")
        self.send(client, *[b"legalize A 0 x 0 0"] * 3000)
        sizes = [len(self.executed(0.001)) for _ in range(8)]
        self.assertEqual(sizes[0], 1024)
        self.assertLess(sizes[-1], 33)


class Floods(HubCase):
    """A team's clients that send whole-team commands without pause."""

    def test_another_team_waits_for_one_of_them_at_most(self) -> None:
        # Each line of a whole team takes as long as the gate is closed.
        self.program, gate = waiting_program(self.folder, self.program, b"tidy", is_gate_closed=True)
        self.start("--no-sync")
        quick, flood = self.talk("f1"), [self.talk("f0") for _ in range(24)]
        self.assertEqual(quick.ask("open f1"), ["ok 0 0"])
        self.assertEqual(flood[0].ask("open f0"), ["ok 0 0"])
        for talker in flood:
            talker.socket.sendall(b"tidy f0 0\n" * 20)
        for talker in flood:
            talker.wait_read()
        for turn in range(10):
            quick.socket.sendall(f"place f1 0 f1c{turn % 2} {spot(1, turn % 2)}\n".encode())
            quick.wait_read()
            # One line of the flood may end; the next one that began would wait for ever.
            gate.touch()
            self.assertEqual(quick.replies.readline(), b"ok %d\n" % (turn + 1))


if __name__ == "__main__":
    unittest.main()
