"""The segments of a journal, and the states at which they start.

The file at the path of a journal is its last segment. The earlier ones are in `JOURNAL.past`, for example as
`7.journal`. The states are there too: `8.state` is the state at the start of segment 8. A note of segment 8 names it by
its length and SHA-256.

A checkpoint takes these steps; each is on the disk before the next:
1. the new segment as `JOURNAL.next`, and the end of the old one;
2. a link to the old one in the folder of the past;
3. the new one's name, before any further change is acknowledged;
4. the state, under a name that no other program writes to, then as `8.state`;
5. the note that names it;
6. the removal of old files, the lowest number first.
"""

from __future__ import annotations

import contextlib
import errno
import os
import re
import shutil
import time
from collections.abc import Iterable, Iterator
from pathlib import Path
from typing import NamedTuple

from ..base.atomic_file import atomic_file, is_special, sync_folder
from ..base.faults import FAILED, REFUSED, Fault
from .frames import Header, Reader, Record, refuse_damage, sum_of
from .owner import Owner

_KEPT = re.compile(r"(\d{1,9})\.(journal|state)")
_UNMADE = re.compile(r"\d{1,9}\.making-\d+(\.partial\d+)?")
# Errors of a file system that has no links to this file.
_NO_LINKS = (errno.EPERM, errno.EXDEV, errno.EOPNOTSUPP, errno.EMLINK)
_STATE = re.compile(rb"state (\d{1,15}) ([0-9a-f]{64}) front \S+ program \S+")


class State(NamedTuple):
    """A saved state: its path, its length in bytes, and its SHA-256 in hexadecimal digits."""

    path: Path
    size: int
    sum: str

    def note(self, owner: Owner) -> bytes:
        """Formats the note that names it, with the versions of the front and the program that made it."""
        return f"state {self.size} {self.sum} front {owner.front} program {owner.program}".encode()

    def is_whole(self) -> bool:
        """Whether the file has these bytes."""
        with contextlib.suppress(OSError):
            return self.path.stat().st_size == self.size and sum_of(self.path) == self.sum
        return False

    def condition(self) -> str:
        """The condition of the file: whole, damaged or not there."""
        return "whole" if self.is_whole() else "damaged" if self.path.exists() else "not there"


class Position(NamedTuple):
    """The end of a frame: the number of its segment, and the byte."""

    number: int
    byte: int


class Segment(NamedTuple):
    """An open segment: its file and path, its header, the end of its frames, and its notes."""

    descriptor: int
    path: Path
    header: Header
    end: int
    notes: list[bytes]

    @property
    def number(self) -> int:
        """Its number, from 1."""
        return self.header.number

    @property
    def bytes(self) -> int:
        """The bytes of its frames."""
        return self.end - self.header.length


class Tail(NamedTuple):
    """What a program starts from: a state, or None for the loaded design; the state's notes and number of changes; and
    the changes after it.
    """

    state: State | None
    notes: list[bytes]
    changes: int
    records: Iterator[Record]


class Archive:
    """The folder of a journal with its earlier segments and its states."""

    def __init__(self, journal: Path) -> None:
        self.folder = Path(os.path.realpath(journal) + ".past")

    def segment(self, number: int) -> Path:
        """The path of an earlier segment."""
        return self.folder / f"{number}.journal"

    def state(self, number: int) -> Path:
        """The path of the state at the start of a segment."""
        return self.folder / f"{number}.state"

    def temporary_state(self, number: int) -> Path:
        """A new path for writing that state: the program of a killed hub may still be writing to an older one."""
        return self.folder / f"{number}.making-{time.time_ns()}"

    def state_named(self, number: int, notes: Iterable[bytes]) -> State | None:
        """Returns the state at the start of a segment, as the segment's notes name it, or None."""
        named = [found for note in notes if (found := _STATE.fullmatch(note))]
        return State(self.state(number), int(named[-1][1]), named[-1][2].decode()) if named else None

    def make(self) -> None:
        """Makes the folder if it is missing, and syncs it to the disk."""
        with contextlib.suppress(FileExistsError):
            self.folder.mkdir(mode=0o700)
        sync_folder(self.folder.parent)

    def numbers(self, kind: str) -> list[int]:
        """Lists the numbers of the segments (`journal`) or states (`state`) in the folder."""
        return sorted(int(found[1]) for name in self._names() if (found := _KEPT.fullmatch(name)) and found[2] == kind)

    def files(self) -> list[Path]:
        """Lists all files in the folder."""
        return [self.folder / name for name in self._names()]

    def size(self) -> int:
        """Adds up the bytes of all files in the folder."""
        found = 0
        for path in self.files():
            with contextlib.suppress(FileNotFoundError):
                found += path.stat().st_size
        return found

    def _names(self) -> list[str]:
        with contextlib.suppress(FileNotFoundError):
            return os.listdir(self.folder)
        return []

    def open_before(self, following: Segment) -> Segment:
        """Opens the segment before another one. Raises a Fault if it is missing or damaged."""
        number = following.number - 1
        path = self.segment(number)
        try:
            descriptor = os.open(path, os.O_RDONLY | os.O_CLOEXEC)
        except FileNotFoundError:
            raise Fault(REFUSED, f"segment {following.number} has no intact state, and {path} is missing") from None
        try:
            reader = Reader(descriptor, path)
            header, notes, end = reader.header(), reader.notes(), reader.end_of_frames()
            if (header.number, header.texts) != (number, following.header.texts):
                raise Fault(REFUSED, f"{path}: not the segment before {following.path}")
            if header.slots != following.header.slots:
                slots = f"{path} has {header.slots} session slots per team"
                raise Fault(REFUSED, f"segment {following.number} has no intact state, and {slots}")
            refuse_short_segment(reader, end, following.header.bytes)
            return Segment(descriptor, path, header, end, notes)
        except BaseException:
            os.close(descriptor)
            raise

    def keep_segment(self, number: int, descriptor: int, path: Path) -> None:
        """Gives the last segment, open and at this path, its name in the folder. The caller syncs the folder.

        It is copied if the file system has no links or is another one. Another file of this name is moved aside.
        """
        target = self.segment(number)
        if target.exists() and not os.path.samestat(target.stat(), os.fstat(descriptor)):
            _move_aside(target)
        try:
            with contextlib.suppress(FileExistsError):
                os.link(path, target)
        except OSError as error:
            if error.errno not in _NO_LINKS:
                raise
            with atomic_file(target, 0o600) as copy, open(path, "rb") as source:
                shutil.copyfileobj(source, copy, 1 << 20)

    def clean_up(self, number: int, descriptor: int, unusable: list[int]) -> None:
        """Removes leftovers of a killed hub, given the last segment's number and the unusable states.

        Files of a later journal, for example if this one is an older copy, are moved aside.
        """
        for name in self._names():
            if _UNMADE.fullmatch(name):
                (self.folder / name).unlink()
        for found in self.numbers("journal"):
            path = self.segment(found)
            if found == number and os.path.samestat(path.stat(), os.fstat(descriptor)):
                path.unlink()
            elif found >= number:
                _move_aside(path)
        for found in self.numbers("state"):
            if found in unusable:
                self.state(found).unlink()
            elif found > number:
                _move_aside(self.state(found))

    def prune(self, keep: int, keeps_segments: bool = False) -> None:
        """Deletes old states, keeping the last `keep` and the segments from the first of them; keeps all if `keep` is
        0.

        With `keeps_segments` it keeps all segments, and the state with which the first of them begins.
        """
        states, segments = self.numbers("state"), self.numbers("journal")
        if not 0 < keep < len(states):
            return
        first = segments[0] if keeps_segments and segments else None
        old = [self.state(number) for number in states if number != first]
        old += [] if keeps_segments else [self.segment(number) for number in segments]
        # (at any moment the first remaining segment has its state)
        for path in sorted(old, key=lambda each: (int(each.stem), each.suffix)):
            if int(path.stem) < states[-keep]:
                path.unlink()
        sync_folder(self.folder)


def _move_aside(path: Path) -> None:
    os.replace(path, f"{path}.aside")


class _OpenFile:
    """The one earlier segment that is open."""

    def __init__(self) -> None:
        self._reader: EarlierReader | None = None
        self._fd = -1

    def descriptor(self, reader: EarlierReader) -> int:
        """Opens the file of a reader in place of the one before."""
        if reader is not self._reader:
            self.close()
            self._fd, self._reader = os.open(reader.path, os.O_RDONLY | os.O_CLOEXEC), reader
        return self._fd

    def close(self) -> None:
        """Closes the file."""
        if self._reader:
            self._reader.forget()
            os.close(self._fd)
        self._reader = None


class EarlierReader(Reader):
    """Reads an earlier segment. Its file is open only while no other one is read."""

    def __init__(self, path: Path, file: _OpenFile) -> None:
        super().__init__(-1, path)
        self._file = file

    def descriptor(self) -> int:
        return self._file.descriptor(self)


@contextlib.contextmanager
def open_segments(path: Path) -> Iterator[list[Reader]]:
    """Yields the readers of a journal's segments in order; the last one is the file at the path.

    Besides the last one, one segment is open at a time.
    """
    refuse_special(path)
    with open(path, "rb") as last, contextlib.closing(_OpenFile()) as file:
        readers = [Reader(last.fileno(), path)]
        header = readers[0].header()
        for number in range(header.number - 1, 0, -1):
            reader = EarlierReader(Archive(path).segment(number), file)
            try:
                found = reader.header()
            except FileNotFoundError:
                break
            readers.append(reader)
            if (found.number, found.texts) != (number, header.texts):
                raise Fault(REFUSED, f"{reader.path}: not segment {number} of {path}")
        yield readers[::-1]


def last_state(path: Path, readers: list[Reader], is_all: bool) -> tuple[State | None, list[Reader]]:
    """Returns the last intact state of a journal, or with `is_all` the first, and the segments after it.

    All these segments have the same number of session slots. None is the design as it is loaded. Raises a Fault if
    there is neither.
    """
    slots = [reader.header().slots for reader in readers]
    first = next(at for at in range(len(readers)) if len({*slots[at:]}) == 1)
    for at in [first] if is_all else reversed(range(first, len(readers))):
        number = readers[at].header().number
        state = Archive(path).state_named(number, readers[at].notes())
        if number == 1 or state and state.is_whole():
            return state, readers[at:]
    raise Fault(REFUSED, f"{path}: segment {readers[first].header().number} has no intact state")


def names_state(note: bytes) -> bool:
    """Whether a note names the state with which its segment begins."""
    return _STATE.fullmatch(note) is not None


def refuse_special(path: Path) -> None:
    """Raises a Fault if the path is a pipe, a folder or a device."""
    if is_special(path):
        raise Fault(FAILED, f"{path} is not a regular file")


def refuse_short_segment(reader: Reader, end: int, size: int) -> None:
    """Raises a Fault if a segment now ends before it ended when the next one was made."""
    if end != size:
        raise Fault(
            REFUSED, f"{reader.path}: damaged at byte {end}: it had {size} bytes when the next segment was made"
        )


def read_records(path: Path) -> Iterator[Record]:
    """Yields each change of a journal without changing it. Its hub may be running.

    An incomplete end is skipped. Raises a Fault if the file is not a journal, its first segment is missing, or intact
    frames follow after damage; OSError if it cannot be read.
    """
    with open_segments(path) as readers:
        first = readers[0].header()
        if first.number > 1:
            message = f"{path}: its first {first.changes} changes exist only as a state"
            raise Fault(REFUSED, f"{message}; to push a journal, run its hub with --keep-segments from the start")
        if Archive(path).state_named(1, readers[0].notes()):
            raise Fault(REFUSED, f"{path}: it begins with a state, which cannot be pushed")
        yield from records_in(readers)


def records_in(readers: list[Reader]) -> Iterator[Record]:
    """Yields each change of these segments, after a check that none is damaged."""
    ends = [reader.end_of_frames() for reader in readers]
    for reader, end, following in zip(readers, ends, readers[1:]):
        refuse_short_segment(reader, end, following.header().bytes)
    refuse_damage(readers[-1], ends[-1])
    for reader, end in zip(readers, ends):
        for frame in reader.frames_to(reader.header().length, end):
            yield from frame.records()
