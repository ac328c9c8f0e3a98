"""lefence-journal: lists, checks, cuts, exports, backs up and restores journals."""

from __future__ import annotations

import argparse
import asyncio
import datetime
import itertools
import os
import shlex
import shutil
import sys
from collections.abc import Iterator
from dataclasses import dataclass
from pathlib import Path

from ..base.atomic_file import atomic_file, refuse_inputs, sync_folder
from ..base.faults import DONE, FAILED, REFUSED, Fault, Parser, log, printable, run_tool
from ..base.input_files import use_plain_files
from ..base.program import Program, find_program
from ..base.protocol import SLOTS
from ..hub.replay_process import ReplayLost, ReplayProcess
from ..journal.backup import backup_journal, copy_journal, journal_in, remove_journal
from ..journal.frames import Frame, Reader, Record, body_of, frame_of, header_of
from ..journal.journal import lock
from ..journal.owner import OwnerHistory, this_process
from ..journal.segments import Archive, last_state, open_segments, records_in
from ..journal.texts import kept_text
from .restore_team import restore_team

TOOL = "lefence-journal"
_PURPOSE = """Inspects a journal of lefence-hub, and makes a damaged one usable. `check` prints what is intact (status 1
if anything is damaged), `list` who changed what and when. `cut` truncates it, `export` writes lines for
`lefence replay` or a journal for lefence-push, and `verify` compares each reply with the program's.
`backup` copies it with all its files, even of a running hub, and `restore` puts such a copy in its place.
`restore-team` writes lines that bring a team back to earlier places."""
_EXAMPLE = f"{TOOL} check chip.journal\n{TOOL} list chip.journal --team A\n{TOOL} backup chip.journal saved"


@dataclass
class ByteRange:
    """Consecutive intact frames from byte `start` to byte `end`."""

    start: int
    end: int
    frames: int = 0
    changes: int = 0


def intact_ranges(reader: Reader) -> Iterator[ByteRange]:
    """Yields the ranges of intact frames in a segment. After each but the last one is damage."""
    start: int | None = reader.header().length
    while start is not None:
        found = ByteRange(start, start)
        for frame in reader.frames(start):
            found.end, found.frames, found.changes = frame.end, found.frames + 1, found.changes + frame.changes
        yield found
        start = reader.next_start(found.end)


def whole_frames(reader: Reader, start: int = 0) -> Iterator[Frame]:
    """Yields all intact frames of a segment from a byte on, also those after damage."""
    for span in intact_ranges(reader):
        for frame in reader.frames(span.start):
            if frame.start >= start:
                yield frame


def check(path: Path, readers: list[Reader]) -> int:
    """Prints what is intact, and whether the copies are kept. Returns REFUSED if anything is damaged or missing."""
    status, first = DONE, readers[0].header()
    for text in first.texts:
        kept = kept_text(path, text)
        status = status if kept else REFUSED
        print(f"text {text.sum} of {printable(str(text.path))}: {'kept' if kept else 'not kept'}")
    if (slots := readers[-1].header().slots) != SLOTS:
        print(f"each team has {slots} session slots")
    if first.number > 1:
        print(f"the first {first.changes} changes exist only as a state")
    states = [Archive(path).state_named(reader.header().number, reader.notes()) for reader in readers]
    conditions = [state.condition() if state else "" for state in states]
    for at, (reader, following) in enumerate(zip(readers, [*readers[1:], None])):
        if len(readers) > 1 or first.number > 1:
            header = reader.header()
            print(f"segment {header.number}, after {header.changes} changes: {reader.path}")
        if state := states[at]:
            # (with --keep-segments a hub removes old states, but not the one of the first segment)
            is_removed = at > 0 and conditions[at] == "not there" and "whole" in conditions[at:]
            status = status if is_removed or conditions[at] == "whole" else REFUSED
            more = ", since later states are kept" if is_removed else ""
            print(f"it starts at the state {state.path}: {conditions[at]}{more}")
        status = max(status, _check_segment(reader, path, following.header().bytes if following else None))
    return status


def _check_segment(reader: Reader, path: Path, size: int | None) -> int:
    """Checks one segment; `size` is its size when another followed it, None for the last one."""
    status, found = DONE, list(intact_ranges(reader))
    copied = "" if size is None else f"copied to {path}, "
    for span, following in zip(found, [*found[1:], None]):
        print(f"intact from byte {span.start} to {span.end}: {span.changes} changes in {span.frames} batches")
        if following:
            status = REFUSED
            remedy = f"{copied}`cut --at {span.end}` makes a journal of what is before"
            print(f"damaged from byte {span.end} to {following.start}: {remedy}")
    end = found[-1].end
    if size is not None and end != size:
        status = REFUSED
        print(
            f"damaged from byte {end} to {size}, where it ended when the next segment was made: {copied}it ends there"
        )
    elif tail := reader.trailing_bytes(end):
        print(f"incomplete: {tail} bytes at byte {end} (an interrupted write); a start removes them")
    return status


def list_changes(readers: list[Reader], team: str | None) -> int:
    """Prints number, time, uid, pid, line and reply of each change, and each note with its time."""
    number = readers[0].header().changes
    for frame in itertools.chain.from_iterable(map(whole_frames, readers)):
        when = _time_of(frame)
        if team is None:
            for note in frame.notes():
                _print("-", when, "-", "-", note.decode("ascii", "backslashreplace"))
        for record in frame.records():
            number += 1
            if is_of(record, team):
                uid, _, pid = record.who.decode().partition(" ")
                _print(str(number), when, uid, pid or "-", record.line.decode(), record.reply.decode().rstrip("\n"))
    return DONE


def _time_of(frame: Frame) -> str:
    when = datetime.datetime.fromtimestamp(float(frame.time), datetime.UTC)
    return when.isoformat(timespec="milliseconds").replace("+00:00", "Z")


def _print(*words: str) -> None:
    sys.stdout.write("\t".join(words) + "\n")


def is_of(record: Record, team: str | None) -> bool:
    """Whether the change is of this team; None is any team."""
    return team is None or record.line.split()[1] == os.fsencode(team)


def cut(path: Path, at: int | None, takes_over: bool) -> int:
    """Copies a journal, then truncates it at the end of a batch, by default before its first damage."""
    with open(path, "r+b") as file:
        lock(file.fileno(), path)
        reader = Reader(file.fileno(), path)
        if not takes_over:
            _refuse_owner(reader)
        first = next(intact_ranges(reader))
        at = first.end if at is None else at
        if at not in (first.start, *(frame.end for frame in reader.frames(first.start))):
            raise Fault(
                REFUSED,
                f"{path}: byte {at} is not the end of a batch in its first intact range, {first.start} to {first.end}",
            )
        backup = path.with_name(f"{path.name}.before-cut-at-{at}")
        if backup.exists():
            raise Fault(FAILED, f"{backup} already exists")
        with atomic_file(backup, 0o600) as copy:
            shutil.copyfileobj(file, copy, 1 << 20)
        os.ftruncate(file.fileno(), at)
        os.fsync(file.fileno())
        sync_folder(path.absolute().parent)
    log(TOOL, f"{path}: truncated at byte {at}; the original is {backup}")
    return DONE


def _refuse_owner(reader: Reader) -> None:
    """Raises a Fault if a hub may be using the journal."""
    succession = OwnerHistory()
    for frame in whole_frames(reader):
        for note in frame.notes():
            succession.add_note(note)
    succession.refuse_owner(this_process(), reader.path)


def export(path: Path, readers: list[Reader], team: str | None, start: int, output: Path | None) -> int:
    """Writes the lines of the changes for `lefence replay`, or, with a file, a journal of them for `lefence-push`.

    With a start byte, only those of the last segment from there on.
    """
    first = readers[-1 if start else 0].header()
    frames = whole_frames(readers[-1], start) if start else itertools.chain.from_iterable(map(whole_frames, readers))
    if first.number > 1:
        remedy = "" if start else f"; replay its lines with --state {Archive(path).state(first.number)}"
        log(TOOL, f"{path}: the first {first.changes} changes are missing{remedy}")
    if (slots := readers[-1].header().slots) != SLOTS:
        log(TOOL, f"{path}: replay its lines with --sessions {slots}")
    if output is None:
        for frame in frames:
            sys.stdout.write("".join(f"{record.line.decode()}\n" for record in frame.records() if is_of(record, team)))
        return DONE
    refuse_inputs(output, [reader.path for reader in readers])
    with atomic_file(output) as file:
        at = file.write(header_of(first.texts, first.number, first.changes, slots=slots))
        for frame in frames:
            if records := [record for record in frame.records() if is_of(record, team)]:
                at += file.write(frame_of(at, body_of(records), frame.time))
    return DONE


def verify(path: Path, given: list[Path], wanted: str | None, is_all: bool) -> int:
    """Replays the changes after the last state, on the kept copies or the given files, and compares each reply."""
    with open_segments(path) as readers:
        header = readers[0].header()
        texts = header.texts
        kept = [kept_text(path, text) for text in texts]
        paths = given or [found for found in kept if found]
        if len(paths) != len(texts):
            raise Fault(
                REFUSED, f"{path}: {len(texts)} files, but {len(paths)} are {'given' if given else 'kept next to it'}"
            )
        state, following = last_state(path, readers, is_all)
        before, slots = following[0].header().changes, following[0].header().slots
        replay = ReplayProcess(Program(find_program(wanted), paths, slots), [text.sum for text in texts])

        async def replayed() -> int:
            try:
                await replay.start(state)
                return await replay.restore(records_in(following), None, before)
            except ReplayLost as lost:
                raise Fault(FAILED, f"{path}: {lost}") from None
            finally:
                await replay.kill()

        text = f"{asyncio.run(replayed()) - before} changes" + (f" after a state of {before}" if state else "")
        log(TOOL, f"{path}: {text} replayed with the recorded replies")
    return DONE


def backup(path: Path, folder: Path, wanted: str | None) -> int:
    """Copies a journal, whose hub may be running, into a new folder, and has the program verify the copy."""
    program = find_program(wanted)
    copied = backup_journal(path, folder)
    _verify_copy(copied, program)
    log(TOOL, f"{folder}: a verified backup of {path}; `{TOOL} restore {folder} JOURNAL` restores it")
    return DONE


def restore(folder: Path, path: Path, wanted: str | None) -> int:
    """Copies a backup to a journal's path, where nothing may be, and has the program verify the copy."""
    program = find_program(wanted)
    copy_journal(journal_in(folder), path)
    _verify_copy(path, program)
    with open_segments(path) as readers:
        texts = [str(kept_text(path, text)) for text in readers[-1].header().texts]
    log(TOOL, "restored; once the hub that wrote it is certainly gone, start its successor:")
    print(shlex.join(["lefence-hub", *texts, "--sockets", "DIR", "--journal", str(path), "--takeover"]))
    return DONE


def _verify_copy(path: Path, program: str) -> None:
    """Verifies a copy of a journal, and removes it if that fails."""
    try:
        verify(path, [], program, is_all=False)
    except BaseException:
        remove_journal(path)
        raise


def parser() -> Parser:
    made = Parser(TOOL, _PURPOSE, _EXAMPLE)
    verbs = made.add_subparsers(dest="verb", metavar="VERB", required=True, parser_class=argparse.ArgumentParser)

    def verb(name: str, text: str) -> argparse.ArgumentParser:
        added = verbs.add_parser(name, help=text, description=text)
        added.add_argument("journal", metavar="JOURNAL", type=Path, help="a journal of lefence-hub")
        return added

    one_team = "only the changes of this team"
    verb("check", "print what is intact, incomplete or damaged, and whether the copies of the design are kept")
    added = verb("list", "print number, time (UTC), uid, pid, line and reply of each change")
    added.add_argument("--team", metavar="NAME", help=one_team)
    added = verb("cut", "truncate its last segment at the end of a batch, and keep a copy of the original")
    added.add_argument("--at", metavar="BYTE", type=int, help="where (default: before the first damage)")
    added.add_argument(
        "--takeover", action="store_true", help="also if a hub of another host has not ended it; that hub must be gone"
    )
    added = verb("export", "write the lines of all intact batches")
    added.add_argument("--team", metavar="NAME", help=one_team)
    added.add_argument(
        "--from", dest="start", metavar="BYTE", type=int, default=0, help="start at the batch at this byte"
    )
    added.add_argument("-o", "--output", metavar="FILE", type=Path, help="write a journal for lefence-push instead")
    added = verb("verify", "replay the changes after the last state, and compare each reply")
    added.add_argument(
        "texts", metavar="TEXT", type=Path, nargs="*", help="DEF and LEF files (default: the kept copies)"
    )
    added.add_argument("--all", action="store_true", help="replay all changes after the first kept state")
    _add_program(added)
    added = verb("backup", "copy it and its files, also while its hub runs, and verify the copy")
    added.add_argument("folder", metavar="DIR", type=Path, help="a new folder")
    _add_program(added)
    _add_restore(verbs)
    _add_restore_team(verbs)
    return made


def _add_restore(verbs: argparse._SubParsersAction[argparse.ArgumentParser]) -> None:
    text = "copy a backup to a journal's path, verify the copy, and print how to start its hub"
    added = verbs.add_parser("restore", help=text, description=text)
    added.add_argument("folder", metavar="DIR", type=Path, help="the folder of a backup")
    added.add_argument("journal", metavar="JOURNAL", type=Path, help="the new journal")
    _add_program(added)


def _add_restore_team(verbs: argparse._SubParsersAction[argparse.ArgumentParser]) -> None:
    text = "write lines that bring a team back to its places at an earlier moment, for `lefence-push --rebase`"
    added = verbs.add_parser("restore-team", help=text, description=text)
    added.add_argument("journal", metavar="JOURNAL", type=Path, help="a journal of lefence-hub, which may be running")
    added.add_argument("team", metavar="TEAM", help="the team")
    when = "a change by its number in `list`, a time as 2026-11-29T14:00, or a savepoint of the team"
    added.add_argument("--at", metavar="WHEN", required=True, help=when)
    added.add_argument("-o", "--output", metavar="FILE", type=Path, help="write to FILE (default: standard output)")
    _add_program(added)


def _add_program(added: argparse.ArgumentParser) -> None:
    text = "the lefence program (default: from the search path, else of this repository)"
    added.add_argument("--program", metavar="PATH", help=text)


def main() -> int:
    options = parser().parse_args()

    def work() -> int:
        if options.verb == "cut":
            return cut(options.journal, options.at, options.takeover)
        if options.verb == "verify":
            use_plain_files(options, "texts")
            return verify(options.journal, options.texts, options.program, options.all)
        if options.verb == "backup":
            return backup(options.journal, options.folder, options.program)
        if options.verb == "restore":
            return restore(options.folder, options.journal, options.program)
        if options.verb == "restore-team":
            program = find_program(options.program)
            return restore_team(options.journal, options.team, options.at, program, options.output)
        with open_segments(options.journal) as readers:
            if options.verb == "list":
                return list_changes(readers, options.team)
            if options.verb == "check":
                return check(options.journal, readers)
            return export(options.journal, readers, options.team, options.start, options.output)

    return run_tool(TOOL, work)
