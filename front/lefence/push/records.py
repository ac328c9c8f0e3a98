"""The records of a push: changes of a journal, or lines of a repair, with their replies."""

from __future__ import annotations

import itertools
from collections import Counter, defaultdict
from collections.abc import Iterable, Iterator
from pathlib import Path

from ..base.faults import REFUSED, Fault
from ..base.protocol import CHANGE_VERBS, REVISIONS
from ..journal.segments import read_records

# The number of a record in the journal, or of a line, from 1; its line without a line feed; and its reply. A reply with
# a line feed is complete, else it is only the beginning.
Record = tuple[int, bytes, bytes]


def revision_of(line: bytes, reply: bytes) -> int | None:
    """Returns the revision that a record made, or None."""
    return int(reply.split()[1]) if line.split()[0] in REVISIONS else None


def records_of(path: Path) -> Iterator[Record]:
    """Reads the records of a journal or of a repair's lines. Raises a Fault if the file has neither."""
    with open(path, "rb") as file:
        if file.read(5) == b"open ":
            file.seek(0)
            yield from _records_of_lines(path, file)
            return
    for number, (line, reply, _) in enumerate(read_records(path), 1):
        yield number, line, reply


def _records_of_lines(path: Path, lines: Iterable[bytes]) -> Iterator[Record]:
    """Makes records of lines that a program accepted on the design as it is loaded, which determines sessions and
    revisions.
    """
    revisions: Counter[bytes] = Counter()
    sessions: defaultdict[bytes, set[int]] = defaultdict(set)
    for number, line in enumerate(lines, 1):
        verb, team, *words = [*line.split(), b"", b""]
        if verb not in CHANGE_VERBS or not team:
            raise Fault(REFUSED, f"{path}: line {number} is not a change of a team")
        recorded = b"ok"
        if verb == b"open":
            session = next(free for free in itertools.count() if free not in sessions[team])
            sessions[team].add(session)
            recorded = b"ok %d %d" % (session, revisions[team])
        elif verb == b"close":
            sessions[team] = {each for each in sessions[team] if b"%d" % each != words[0]}
        elif verb in REVISIONS:
            revisions[team] += 1
            recorded = b"ok %d" % revisions[team]
        yield number, line.rstrip(b"\n"), recorded


def is_recorded_reply(reply: bytes, recorded: bytes) -> bool:
    """Whether a reply is the recorded one."""
    return reply == recorded or not recorded.endswith(b"\n") and reply.startswith((recorded + b"\n", recorded + b" "))


class Difference(Fault):
    """A reply that differs from the recorded one."""

    def __init__(self, record: Record, reply: bytes, revision: int, count: int) -> None:
        """Takes the team's revision before it, and the number of lines before it."""
        number, *texts = record
        at = f"team {shown_line(texts[0].split()[1])} at revision {revision}, line {number}"
        line, recorded, now = (shown_line(text) for text in (*texts, reply))
        difference = f"the recorded reply to {line!r} is {recorded!r}, but now it is {now!r}"
        before = f"the {count} lines before it had their recorded replies, no more is sent"
        super().__init__(REFUSED, f"{at}: {difference}; {before}")


def shown_line(reply: bytes) -> str:
    """Shows a line or a reply without its line feed."""
    return reply.decode("ascii", "backslashreplace").removesuffix("\n")
