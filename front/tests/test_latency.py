"""What users feel, as a hub measures it: by team, with slow lines."""

from __future__ import annotations

import unittest
from unittest import mock

from support import FrontCase, SettableClock

from lefence.hub.connection import Client, Entry
from lefence.hub.latency import Latency


class Latencies(FrontCase):
    def setUp(self) -> None:
        super().setUp()
        self.messages: list[str] = []
        self.clock = SettableClock()
        self.latency = Latency(1, lambda kind, text: self.messages.append(text), self.clock)
        self.latency.serve(["A", "-"])

    def entry(self, team: bytes | None, line: bytes, seconds: float) -> Entry:
        """A line that arrived some seconds ago, of a client of this team's socket or of the operator's."""
        client = Client(mock.Mock(clock=self.clock), team)
        client.name, client.uid, client.pid = "someone", 7, 8
        client.taken_since = self.clock.now() - seconds
        return Entry(client, line.split(), b"ok\n")

    def test_lines_are_counted_by_team_and_slow_ones_are_named(self) -> None:
        for turn in range(99):
            self.latency.note([self.entry(b"A", b"where A 0 u", 0.25)], 0.01)
        own = Entry(None, [b"close", b"A", b"0"])
        self.clock.advance(5000)
        self.latency.note([own, self.entry(b"A", b"where A 0 u", 0.5), self.entry(None, b"check A 0", 3)], 0.66)
        found = self.latency.status_of(b"A")
        self.assertEqual([found[f"line_seconds_p{part}"] for part in (50, 99)], [0.25, 0.5])
        self.assertAlmostEqual(found["work_seconds_total"], 0.99 + 0.65)
        [slow] = self.latency.slow_status()
        self.assertEqual([slow[key] for key in ("team", "verb", "uid", "pid")], ["A", "check", 7, 8])
        self.assertEqual((slow["at"], slow["seconds"], slow["work"]), (self.clock.date(), 3, 0.64))
        self.assertEqual(self.messages, ["someone: a slow `check` of team A: 3.0 s, 0.64 s of them in the program"])
        # (a line of exactly the limit is not slow)
        self.latency.note([self.entry(b"A", b"tidy A 0", 1)], 1)
        self.assertEqual((self.latency.status_of(b"A")["lines_total"], self.latency.slow_count), (102, 1))

    def test_other_lines_count_for_no_team(self) -> None:
        lines = (self.entry(None, b"status", 3), self.entry(None, b"export x", 3), self.entry(None, b"open Z", 3))
        self.latency.note([*lines], 1)
        self.assertEqual(self.latency.status_of(b"A"), self.latency.status_of(b"-"))
        self.assertEqual(self.latency.status_of(b"A")["lines_total"], 0)
        self.assertEqual((self.latency.slow_status(), self.messages), ([], []))

    def test_nothing_is_slow_without_a_limit(self) -> None:
        silent = Latency(0, lambda kind, text: self.fail(text), self.clock)
        silent.serve(["A"])
        silent.note([self.entry(b"A", b"tidy A 0", 30)], 30)
        self.assertEqual(silent.slow_status(), [])
        self.assertEqual(silent.status_of(b"A")["lines_total"], 1)


if __name__ == "__main__":
    unittest.main()
