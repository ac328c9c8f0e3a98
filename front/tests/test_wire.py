"""The common core of both client libraries, without a socket: which line each reply answers, and what a loss leaves."""

from __future__ import annotations

import itertools
import random
import unittest

from support import SEED

from lefence.base.protocol import ProtocolError
from lefence.client.wire import ConnectionLost, SentLine, Wire

# Lines and their whole replies. The text of a `def` may look like replies.
TALK = [
    (b"open A", b"ok 0 0\n"),
    (b"def A 0", b"ok 16\nok 1\nno 5 NoCell"),
    (b"where A 0 u", b"no 5 NoCell u\n"),
    (b" \tdef A 0\r", b"ok 1\n\n"),
    (b"def A 0", b"ok 0\n"),
    (b"def A 9", b"no 3 NoSession\n"),
    (b"", b"no 1 BadRequest\n"),
    (b"define", b"ok 7\n"),
    (b"def", b"no 1 BadRequest\n"),
    (b"check A 0", b"ok " + b"x" * 300 + b"\n"),
    (b"def A 0", b"ok 200\n" + b"\n" * 200),
    (b"bye", b"ok\n"),
]
REPLIES = [reply for _, reply in TALK]


class Wires(unittest.TestCase):
    def setUp(self) -> None:
        self.wire = Wire[SentLine]()

    def send(self, *lines: bytes) -> list[SentLine]:
        return [self.wire.send(SentLine(line)) for line in lines]

    def assert_lost(self, sent: SentLine, text: str, kind: type[Exception] = ConnectionLost) -> None:
        self.assertTrue(sent.is_done)
        with self.assertRaisesRegex(kind, text):
            sent.result()

    def test_lines_go_out_in_order_without_waiting(self) -> None:
        sent = self.send(b"open A", b"", b"sync A 0")
        self.assertEqual(bytes(self.wire.unsent), b"open A\n\nsync A 0\n")
        del self.wire.unsent[:8]
        self.send(b"bye")
        self.assertEqual(bytes(self.wire.unsent), b"sync A 0\nbye\n")
        self.assertEqual([each.is_done for each in sent], [False] * 3)
        with self.assertRaisesRegex(ValueError, "line feed"):
            self.send(b"a\nb")
        self.assertEqual(bytes(self.wire.unsent), b"sync A 0\nbye\n")

    def test_each_line_gets_its_reply_in_any_split(self) -> None:
        text, rng = b"".join(REPLIES), random.Random(SEED)
        splits = [[size] * (len(text) // size + 1) for size in (1, 2, 3, 7, 64, len(text))]
        splits += [[rng.choice([1, 1, 5, 40, 250]) for _ in text] for _ in range(50)]
        for sizes in splits:
            self.wire, at, done = Wire(), 0, list[SentLine]()
            sent = self.send(*(line for line, _ in TALK))
            for size in sizes:
                # (each line is done as soon as its last byte is there)
                at, piece = at + size, text[at : at + size]
                done += self.wire.receive(piece)
                whole = [end for end in itertools.accumulate(map(len, REPLIES)) if end <= at]
                self.assertEqual(len(done), len(whole))
            self.assertEqual(done, sent)
            self.assertEqual([each.result() for each in sent], REPLIES)
            self.assertEqual((self.wire.replies, self.wire.is_lost), (len(TALK), False))

    def test_lines_may_be_sent_between_replies(self) -> None:
        for line, reply in TALK:
            [sent] = self.send(line)
            self.assertEqual(self.wire.receive(reply[:-1]), [])
            self.assertEqual(self.wire.receive(reply[-1:]), [sent])
            self.assertEqual(sent.result(), reply)

    def test_a_loss_keeps_whole_replies_and_no_other(self) -> None:
        for rest in (b"", b"ok", b"ok 5\n", b"ok 5\nabcd"):
            self.wire = Wire()
            first, second, third = self.send(b"sync A 0", b"def A 0", b"sync A 0")
            self.assertEqual(self.wire.receive(b"ok 3\n" + rest), [first])
            self.assertEqual(self.wire.lose("the end"), [second, third])
            self.assertEqual(first.result(), b"ok 3\n")
            for each in (second, third, *self.send(b"sync A 0", b"bye")):
                self.assert_lost(each, "^the end$")
            # It stays lost for the first reason, whatever comes.
            self.assertEqual((self.wire.receive(b"ok 4\n"), self.wire.lose("again")), ([], []))
            self.assert_lost(self.send(b"bye")[0], "^the end$")
            self.assertEqual((bytes(self.wire.unsent), self.wire.replies), (b"", 1))

    def test_after_a_text_of_unknown_length_no_reply_is_believed(self) -> None:
        for length in (b"abc", b"-1", b"", b"1 2", b"9" * 19):
            self.wire = Wire()
            sent = self.send(b"sync A 0", b"def A 0", b"sync A 0")
            self.assertEqual(self.wire.receive(b"ok 3\nok %b\nok 4\n" % length), sent)
            self.assertEqual(sent[0].result(), b"ok 3\n")
            self.assert_lost(sent[1], "unexpected reply", ProtocolError)
            self.assert_lost(sent[2], "the connection is lost: unexpected reply")

    def test_a_reply_that_came_first_answers_no_later_line(self) -> None:
        for early in (b"hello\n", b"h", b"\n"):
            self.wire = Wire()
            [sent] = self.send(b"sync A 0")
            self.assertEqual(self.wire.receive(b"ok 3\n" + early), [sent])
            self.assertTrue(self.wire.is_lost)
            self.assert_lost(self.send(b"sync A 0")[0], "unexpected reply", ProtocolError)
        self.wire = Wire()
        self.assertEqual((self.wire.receive(b""), self.wire.is_lost), ([], False))
        self.wire.receive(b"x" * 1000)
        self.assert_lost(self.send(b"")[0], "^unexpected reply b'x{100}' to no line$", ProtocolError)


if __name__ == "__main__":
    unittest.main()
