"""lefence-push: sends the commands of a journal, or the lines of a repair, to the hub of the whole design.

Each reply must equal the one in the journal. The program's theorem guarantees that if the journal is of a slice of the
same design and nobody else has changed its teams. After the first reply that differs, nothing more is sent.

The lines of a repair imply their replies on the design as it is loaded; those are compared as far as known.
"""

from __future__ import annotations

from collections import deque
from collections.abc import Iterable, Iterator
from pathlib import Path

from ..base.faults import DONE, FAILED, REFUSED, USAGE, Fault, Parser, log, run_tool
from ..base.input_files import use_plain_files
from ..base.program import Program, find_program
from ..client.blocking import Connection
from ..client.endpoint import connect_to
from ..client.wire import SentLine
from .places import push_places
from .rebased import push_rebased
from .records import Difference, Record, is_recorded_reply, records_of, revision_of, shown_line

TOOL = "lefence-push"


class Push:
    """Sends records over a connection and compares each reply with the recorded one."""

    def __init__(self, connection: Connection, ahead: int) -> None:
        """Allows `ahead` lines in flight; with 1, nothing is sent after a reply that differs."""
        self._connection = connection
        self._ahead = ahead
        self._in_flight: deque[tuple[Record, SentLine]] = deque()
        # The last revision of each team with a recorded reply, and the number of such replies.
        self.revisions: dict[bytes, int] = {}
        self.count = 0

    def send_all(self, records: Iterable[Record]) -> None:
        """Sends the records. Raises a Fault at the first reply that differs."""
        for record in records:
            self._in_flight.append((record, self._connection.send(record[1])))
            if len(self._in_flight) >= self._ahead:
                self._compare()
        while self._in_flight:
            self._compare()

    def _compare(self) -> None:
        record, sent = self._in_flight.popleft()
        line, recorded = record[1:]
        reply = self._connection.wait(sent)
        team = line.split()[1]
        if not is_recorded_reply(reply, recorded):
            raise Difference(record, reply, self.revisions.get(team, 0), self.count)
        self.count += 1
        if (revision := revision_of(line, recorded)) is not None:
            self.revisions[team] = revision


def remaining_records(connection: Connection, records: list[Record], push: Push) -> Iterator[Record]:
    """Yields the records after those of an earlier push, by each team's present revision.

    It opens each team's sessions as they were at that revision.
    """
    skips: dict[bytes, int] = {}
    for team in dict.fromkeys(line.split()[1] for _, line, _ in records):
        revision = _current_revision(connection, team)
        own = [record for record in records if record[1].split()[1] == team]
        found = [at for at, record in enumerate(own) if revision_of(record[1], record[2]) == revision]
        if revision and not found:
            raise Fault(REFUSED, f"team {team.decode()} is now at revision {revision}, which none of these lines made")
        before = own[: found[0] + 1] if found else []
        skips[team] = before[-1][0] if before else 0
        push.revisions[team] = revision
        _open_again(connection, team, _sessions_after(before), revision)
    return (record for record in records if record[0] > skips[record[1].split()[1]])


def _current_revision(connection: Connection, team: bytes) -> int:
    words = connection.ask_line(b"open " + team).split()
    if words[0] != b"ok":
        raise Fault(REFUSED, f"open {team.decode()}: {b' '.join(words).decode()}")
    connection.ask_line(b"close %b %b" % (team, words[1]))
    return int(words[2])


def _sessions_after(records: list[Record]) -> set[int]:
    """The numbers of the sessions that are open after these records of one team."""
    found: set[int] = set()
    for _, line, reply in records:
        words = line.split()
        if words[0] == b"open":
            found.add(int(reply.split()[1]))
        elif words[0] == b"close":
            found.discard(int(words[2]))
    return found


def _open_again(connection: Connection, team: bytes, sessions: set[int], revision: int) -> None:
    for number in range(max(sessions, default=-1) + 1):
        reply = connection.ask_line(b"open " + team)
        if reply != b"ok %d %d\n" % (number, revision):
            raise Fault(
                REFUSED,
                f"another client has a session of team {team.decode()}: unexpected reply {shown_line(reply)!r} to open",
            )
    for number in set(range(max(sessions, default=-1) + 1)) - sessions:
        connection.ask_line(b"close %b %d" % (team, number))


def push_file(path: Path, where: str, ahead: int, continues: bool) -> Push:
    """Sends the commands of a journal or a repair to a socket. Raises a Fault at the first reply that differs."""
    records = list(records_of(path))
    endpoint = connect_to(where)
    push = Push(endpoint.connection, ahead)
    try:
        push.send_all(remaining_records(endpoint.connection, records, push) if continues else records)
    except OSError as error:
        raise Fault(
            FAILED, f"{error}; {push.count} lines had their recorded replies, --continue sends the others"
        ) from None
    finally:
        endpoint.close()
    return push


def parser() -> Parser:
    found = Parser(
        TOOL,
        "Sends the commands of a journal, for example of a hub over a slice, or the lines of `lefence repair\n"
        "--lines`, to the hub of the whole design. Each reply must be the recorded one. At the first other reply it\n"
        "stops, with status 1. With LEF files it sends the places of a DEF text: no cell is without a place meanwhile\n"
        "for longer than some lines.",
        f"{TOOL} A.journal /run/lefence/A.sock\n"
        f"{TOOL} A.journal /run/lefence/A.sock --rebase\n"
        f"{TOOL} placed.def /run/lefence/A.sock tech.lef cells.lef",
    )
    add = found.add_argument
    add("file", metavar="FILE", type=Path, help="a journal of lefence-hub, the lines of a repair, or a DEF text")
    add("socket", metavar="SOCKET", help="the team's socket, the operator's for a file of several teams, or HOST:PORT")
    add("libraries", metavar="LEF", type=Path, nargs="*", help="the LEF files of a DEF text with a team's new places")
    add("--continue", dest="continues", action="store_true", help="skip what an earlier push of this file has sent")
    add("--rebase", action="store_true", help="use a session of its own, in a team that others change meanwhile")
    add("--from", dest="start", metavar="LINE", type=int, default=1, help="with --rebase: start at this line (1)")
    add("--team", metavar="NAME", action="append", default=[], help="the team of a DEF text, if the socket serves all")
    text = "lines in flight (1; of a DEF text 128); with more, some lines after a difference may be sent"
    add("--ahead", metavar="N", type=int, help=text)
    found.add_program()
    return found


def main() -> int:
    options = parser().parse_args()

    def work() -> int:
        if options.libraries:
            use_plain_files(options, "file", "libraries")
            program = Program(find_program(options.program), [options.file, *options.libraries])
            log(TOOL, push_places(program, options.socket, options.team, options.ahead or 128))
            return DONE
        if options.rebase and options.continues:
            raise Fault(USAGE, "--rebase knows no earlier push: instead of --continue, use --from LINE")
        if options.start != 1 and not options.rebase:
            raise Fault(USAGE, "--from needs --rebase")
        ahead = max(1, options.ahead or 1)
        if options.rebase:
            count, revisions = push_rebased(options.file, options.socket, ahead, options.start)
        else:
            push = push_file(options.file, options.socket, ahead, options.continues)
            count, revisions = push.count, push.revisions
        teams = ", ".join(f"{team.decode()} at revision {revision}" for team, revision in revisions.items())
        answered = f"{count} {'line' if count == 1 else 'lines'} answered as recorded"
        log(TOOL, answered + (f"; team {teams}" if teams else ""))
        return DONE

    return run_tool(TOOL, work)
