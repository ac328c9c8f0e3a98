"""The journal of a hub: the accepted changes with their replies, in the order of their execution.

`frames` has its form, `segments` its files and states. A frame after another shows that the other is complete. So each
start and each end appends a frame with a note: the journal's owner, and that its hub has ended.
"""

from __future__ import annotations

import contextlib
import errno
import fcntl
import os
import re
import time
from collections.abc import Callable, Iterable, Iterator
from pathlib import Path

from ..base.atomic_file import sync_folder
from ..base.faults import FAILED, REFUSED, Fault
from ..base.protocol import SLOTS
from .frames import (
    MOST_HEADER,
    Frame,
    Header,
    Reader,
    Record,
    Text,
    body_of,
    frame_of,
    header_in,
    header_of,
    is_partial_header,
    wrong_title_text,
    refuse_damage,
)
from .owner import ENDED, Owner, OwnerHistory, this_process
from .segments import Archive, Position, Segment, State, Tail, names_state, refuse_special

# Bytes reserved on the disk at a time, so that a sync need not store a new file length.
_STEP = 1 << 18
# The most bytes of a change in a frame besides its line; and of a frame besides its changes, with a note in front.
MOST_REPLY = 96
_MOST_REST = 1024
_NO_ROOM = (errno.ENOSPC, errno.EDQUOT, errno.EFBIG)
# The note of a later segment that gives the SHA-256 of the state with which the journal has begun.
_BEGUN = re.compile(rb"begun ([0-9a-f]{64})")
_ACCESS_LIST = "system.posix_acl_access"
# Errors of a file system that cannot reserve bytes.
_NOT_OFFERED = (errno.EOPNOTSUPP, errno.EINVAL, errno.ENOSYS)


def lock(descriptor: int, path: Path) -> None:
    """Locks an open file or folder until this process ends. Raises a Fault if another process has locked it."""
    try:
        fcntl.flock(descriptor, fcntl.LOCK_EX | fcntl.LOCK_NB)
    except BlockingIOError:
        raise Fault(FAILED, f"{path}: another hub has locked it") from None
    except OSError as error:
        raise Fault(FAILED, f"{path}: cannot be locked: {error.strerror}") from None


def _copy_access(source: int, target: int) -> None:
    """Gives an open file the group, the mode and the access list of another one, as far as the system allows it."""
    with contextlib.suppress(OSError):
        os.fchown(target, -1, os.fstat(source).st_gid)
    os.fchmod(target, os.fstat(source).st_mode & 0o777)
    with contextlib.suppress(OSError):
        os.setxattr(target, _ACCESS_LIST, os.getxattr(source, _ACCESS_LIST))


def _reserve(descriptor: int, end: int, count: int) -> int:
    """Reserves bytes of a file after its end, if its file system can; returns the end of the reserved bytes.

    Raises OSError if the disk is full or fails.
    """
    try:
        if count:
            os.posix_fallocate(descriptor, end, count)
    except OSError as error:
        if error.errno not in _NOT_OFFERED:
            raise
    return end + count


def texts_in(path: Path) -> list[Text] | None:
    """Reads the design's files of a journal; None if it has no change and no state yet, or does not exist.

    Raises a Fault if the file is not a journal.
    """
    if not path.exists():
        return None
    refuse_special(path)
    with open(path, "rb") as file:
        if is_partial_header(file.read(MOST_HEADER)):
            return None
        reader = Reader(file.fileno(), path)
        header = reader.header()
        return header.texts if _has_content(reader, header) else None


def _has_content(reader: Reader, header: Header) -> bool:
    """Whether the journal has a change or begins with a state, or may have had a change."""
    if header.number > 1:
        return True
    end = header.length
    for frame in reader.frames(end):
        if frame.changes or any(names_state(note) for note in frame.notes()):
            return True
        end = frame.end
    return reader.next_start(end) is not None


class Journal:
    """An open journal, to which one hub appends. When `append` returns, its changes are on the disk if `is_synced`."""

    def __init__(
        self,
        path: Path,
        texts: list[Text],
        say: Callable[[str], None],
        owner: Owner | None = None,
        takes_over: bool = False,
        slots: int | None = None,
    ) -> None:
        """Opens or makes the journal of these files for a new owner. Removes an incomplete end and reports it.

        With `slots` each team must have this number of session slots. Without it, a journal keeps its number and a new
        one has 8.

        Raises a Fault, and changes nothing, if
        - another hub has locked the file;
        - it is not a journal, or one of another design, or has another number of session slots;
        - intact frames follow after damage;
        - a hub of another host has not ended it, unless `takes_over`.
        """
        self.path = path
        self.is_synced = True
        self.archive = Archive(path)
        # Seconds that the disk took for the last frame, and the time of the last change in seconds since 1970.
        self.seconds = self.last = 0.0
        # The owner, and the one before, if known.
        self.owner = owner or this_process()
        self.former: Owner | None = None
        self._say = say
        # The disk has failed; the file was replaced.
        self._is_broken = self._is_lost = False
        # The last state, and the segments after it except the last one.
        self._state: State | None = None
        self._closed: list[Segment] = []
        self._fd = os.open(path, os.O_RDWR | os.O_CREAT | os.O_CLOEXEC, 0o600)
        try:
            self._claim(texts, takes_over, slots)
        except BaseException:
            self._close_all()
            raise

    def _claim(self, texts: list[Text], takes_over: bool, slots: int | None) -> None:
        """Locks and repairs the file, and writes the new owner."""
        lock(self._fd, self.path)
        if not os.path.samestat(os.stat(self.path), os.fstat(self._fd)):
            raise Fault(FAILED, f"{self.path}: another hub has locked it")
        if os.fstat(self._fd).st_mode & 0o022:
            self._say(f"{self.path}: others may write to the journal; fix it with `chmod go-w`")
        self._reader = Reader(self._fd, self.path)
        # The header of the last segment; the end of its frames, its notes, and the number of changes in the journal.
        self._header: Header | None = header_in(os.pread(self._fd, MOST_HEADER, 0))
        self._notes: list[bytes] = []
        self.end = self.changes = 0
        last = self._find_end(takes_over)
        if self._belongs_to(texts, slots):
            unusable = self._find_state()
        else:
            if self.archive.numbers("journal"):
                raise Fault(
                    REFUSED,
                    f"{self.path} has no changes, but {self.archive.folder} has; move it away to start a new journal",
                )
            self._begin(texts, slots or SLOTS)
            last, unusable = None, []
        self._cut(last)
        self.archive.clean_up(self.header.number, self._fd, unusable)
        self._note(self.owner.note())

    @property
    def header(self) -> Header:
        """The header of the last segment."""
        assert self._header
        return self._header

    @property
    def position(self) -> Position:
        """The end of the last segment."""
        return Position(self.header.number, self.end)

    @property
    def begin(self) -> Position:
        """The start of the last segment."""
        return Position(self.header.number, self.header.length)

    @property
    def has_changes(self) -> bool:
        """Whether the last segment has a change."""
        return self.changes > self.header.changes

    @property
    def tail_changes(self) -> int:
        """The number of changes after the last state."""
        return self.changes - self._segments()[0].header.changes

    @property
    def tail_bytes(self) -> int:
        """The bytes of the changes after the last state."""
        return sum(segment.bytes for segment in self._segments())

    def _segments(self) -> list[Segment]:
        """The segments after the last state."""
        return [*self._closed, Segment(self._fd, self.path, self.header, self.end, self._notes)]

    def _find_end(self, takes_over: bool) -> Frame | None:
        """Returns the last intact frame, or None. Raises a Fault if another hub may be using the journal."""
        if not self._header:
            return None
        self.changes, self.end = self._header.changes, self._header.length
        last, succession = None, OwnerHistory()
        for last in self._reader.frames(self.end):
            self.changes += last.changes
            # (a segment starts after a change)
            self.last = float(last.time) if last.changes or self.changes and not self.last else self.last
            self.end = last.end
            self._notes += last.notes()
        for note in self._notes:
            succession.add_note(note)
        self.former = succession.last
        if not takes_over:
            succession.refuse_owner(self.owner, self.path)
        return last

    def _belongs_to(self, texts: list[Text], slots: int | None) -> bool:
        """Whether the journal has these files and slots; False if it must be written again. Raises a Fault if it has
        others.
        """
        if self._header and [text.sum for text in self._header.texts] == [text.sum for text in texts]:
            refuse_damage(self._reader, self.end)
            if slots in (None, self._header.slots):
                return True
            if _has_content(self._reader, self._header):
                remedies = f"start without --sessions, or change the number by --roll --sessions {slots}"
                raise Fault(
                    REFUSED,
                    f"{self.path}: made for {self._header.slots} session slots per team, not {slots}: {remedies}",
                )
        found = os.pread(self._fd, MOST_HEADER, 0)
        if is_partial_header(found) or self._header and not _has_content(self._reader, self._header):
            return False
        raise Fault(
            REFUSED, f"{self.path}: {'a journal of another design' if self._header else wrong_title_text(found)}"
        )

    def _find_state(self) -> list[int]:
        """Finds the last intact state and the segments after it; returns the numbers of unusable states.

        Raises a Fault if one of these segments is missing or damaged.
        """
        unusable: list[int] = []
        while True:
            first = self._segments()[0]
            state = self.archive.state_named(first.number, first.notes)
            if state and state.is_whole():
                self._state = state
                return unusable
            if state:
                problem = "is not the state that the journal names" if state.path.exists() else "is not there"
                if first.number == 1:
                    raise Fault(REFUSED, f"{state.path} {problem}, and the journal begins with it")
                self._say(f"{state.path} {problem}; the changes before it are replayed")
            unusable.append(first.number)
            if first.number == 1:
                return unusable
            self._closed.insert(0, self.archive.open_before(first))

    def _begin(self, texts: list[Text], slots: int) -> None:
        """Writes the header of a new journal."""
        header = header_of(texts, slots=slots)
        os.ftruncate(self._fd, 0)
        os.pwrite(self._fd, header, 0)
        os.fsync(self._fd)
        sync_folder(self.path.absolute().parent)
        self._reader, self._header, self._notes = Reader(self._fd, self.path), header_in(header), []
        self.end = len(header)

    def _cut(self, last: Frame | None) -> None:
        """Removes what follows the last intact frame."""
        if tail := self._reader.trailing_bytes(self.end):
            self._say(
                f"{self.path}: removed an incomplete batch of {tail} bytes at byte {self.end} (an interrupted write)"
            )
        if last:
            # Its hub may not have synced it, or without success; then the system takes the page for written. So write
            # it again.
            os.pwrite(self._fd, os.pread(self._fd, last.end - last.start, last.start), last.start)
        os.ftruncate(self._fd, self.end)
        os.fsync(self._fd)
        self._reserved = self.end

    @contextlib.contextmanager
    def tail(self, position: Position) -> Iterator[Tail]:
        """Returns what comes before the position. It can be read until the end of the block, whatever happens to the
        files.
        """
        segments = [segment for segment in self._segments() if segment.number <= position.number]
        first = segments[0]
        with contextlib.ExitStack() as stack:
            readers = []
            for segment in segments:
                descriptor = os.dup(segment.descriptor)
                stack.callback(os.close, descriptor)
                end = position.byte if segment.number == position.number else segment.end
                readers.append((Reader(descriptor, segment.path), segment.header.length, end))
            frames = (frame for reader, start, end in readers for frame in reader.frames_to(start, end))
            records = (record for frame in frames for record in frame.records())
            yield Tail(self._state, first.notes, first.header.changes, records)

    @property
    def state(self) -> State | None:
        """The last state; None for the design as it is loaded."""
        return self._state

    def roll(self, notes: list[bytes], slots: int | None = None, room: int = 0) -> None:
        """Continues in a new segment, which starts with these notes. After an OSError it continues in the old one.

        `slots` is its number of session slots per team, if that changes. The new segment has `room` bytes for changes
        for which `has_room` reserved them in the old one. At each step the file at the path is the last segment,
        complete.
        """
        self.refuse_loss()
        path, number = Path(os.path.realpath(self.path)), self.header.number
        if first := self._first_state_sum():
            notes = [b"begun %b" % first.encode(), *notes]
        next_path = path.with_name(f"{path.name}.next")
        header = header_of(self.header.texts, number + 1, self.changes, self.end, slots or self.header.slots)
        frame = frame_of(len(header), b"".join(b"%b\n" % note for note in [*notes, self.owner.note()]))
        self.archive.make()
        descriptor = os.open(next_path, os.O_RDWR | os.O_CREAT | os.O_TRUNC | os.O_CLOEXEC, 0o600)
        try:
            lock(descriptor, next_path)
            _copy_access(self._fd, descriptor)
            if os.pwrite(descriptor, header + frame, 0) != len(header + frame):
                raise OSError(errno.ENOSPC, "only a part was written")
            reserved = _reserve(descriptor, len(header + frame), room and _MOST_REST + room)
            os.fsync(descriptor)
            self._seal()
            self.archive.keep_segment(number, self._fd, path)
            sync_folder(self.archive.folder)
            os.replace(next_path, path)
        except BaseException:
            os.close(descriptor)
            with contextlib.suppress(OSError):
                next_path.unlink()
            raise
        self._closed.append(Segment(self._fd, self.archive.segment(number), self.header, self.end, self._notes))
        self._fd, self._header, self._notes, self.end = descriptor, header_in(header), notes, len(header + frame)
        self._reader, self._reserved = Reader(descriptor, self.path), reserved
        self._write_step(lambda: sync_folder(path.parent))

    def roll_with_state(self, source: Path, size: int, digest: str, notes: list[bytes], slots: int) -> None:
        """Continues in a new segment with another number of session slots per team, which starts with a written state.

        The state, given with its length and SHA-256, is that of all changes before. After an OSError the journal
        continues as before.
        """
        state = State(self.archive.state(self.header.number + 1), size, digest)
        try:
            os.replace(source, state.path)
            sync_folder(self.archive.folder)
            self.roll([*notes, state.note(self.owner)], slots)
        except OSError:
            state.path.unlink(missing_ok=True)
            raise
        self._start_at(state)

    def _start_at(self, state: State) -> None:
        """Makes a state the last one. The segments before it are not read any more."""
        for segment in self._closed:
            os.close(segment.descriptor)
        self._state, self._closed = state, []

    def _seal(self) -> None:
        """Syncs the last segment to the disk, with nothing after its frames."""

        def seal() -> None:
            os.ftruncate(self._fd, self.end)
            os.fsync(self._fd)

        self._write_step(seal)
        self._reserved = self.end

    def begin_with(self, source: Path, size: int, digest: str, notes: list[bytes]) -> None:
        """Makes a written file the state with which a journal without changes begins; `notes` are about its teams. Does
        nothing if the journal has begun with this state.

        Raises a Fault if the journal has changes or has begun with another state.
        """
        if digest == self._first_state_sum():
            return
        if self.changes or self.header.number > 1 or self._state:
            why = "has changes or has begun with another state: only a new journal can begin with this one"
            raise Fault(REFUSED, f"{self.path} {why}")
        self._notes += notes
        self.keep_state(source, size, digest, notes)

    def _first_state_sum(self) -> str | None:
        """The SHA-256 of the state with which the journal has begun, or None. Later segments have it in a note."""
        if self.header.number == 1:
            return self._state.sum if self._state else None
        named = [found[1].decode() for note in self._notes if (found := _BEGUN.fullmatch(note))]
        return named[0] if named else None

    def keep_state(self, source: Path, size: int, digest: str, notes: Iterable[bytes] = ()) -> None:
        """Makes a written file the state at the start of the last segment, given its length and SHA-256, with notes.

        When it returns, the state and its name in the journal are on the disk. After an OSError there is no state.
        """
        state = State(self.archive.state(self.header.number), size, digest)
        # (a batch in progress has its own reserved bytes)
        if not self.has_room(_MOST_REST):
            raise OSError(errno.ENOSPC, "the disk is full: the state cannot be named in the journal")
        try:
            os.replace(source, state.path)
            sync_folder(self.archive.folder)
            if not self._note(b"\n".join([*notes, state.note(self.owner)])):
                raise OSError(errno.ENOSPC, "the disk is full: the state cannot be named in the journal")
        except OSError:
            state.path.unlink(missing_ok=True)
            raise
        self._start_at(state)

    def refuse_loss(self) -> None:
        """Raises a Fault if the file was moved or truncated, or another process has appended to it."""
        self._refuse_broken()
        if reason := self._loss():
            self._is_lost = True
            raise Fault(FAILED, f"{self.path}: {reason}; later changes are in the file that the hub has open")

    def _loss(self) -> str | None:
        ours = os.fstat(self._fd)
        try:
            found = os.stat(self.path)
        except OSError as error:
            return f"the journal is gone: {error.strerror}"
        if not os.path.samestat(found, ours):
            return "another file has replaced the journal"
        is_written = ours.st_size < self.end or os.pread(self._fd, 1, self.end).strip(b"\0")
        return "another process has written to the journal" if is_written else None

    def has_room(self, count: int) -> bool:
        """Reserves bytes for the next frame. Returns False if the disk is full."""
        if self.is_reserved(count):
            return True
        for more in (_STEP, 0):
            try:
                self._reserved = _reserve(self._fd, self.end, _MOST_REST + count + more)
                return True
            except OSError as error:
                if error.errno not in _NO_ROOM:
                    raise Fault(FAILED, f"{self.path}: {error.strerror}") from error
        return False

    def is_reserved(self, count: int) -> bool:
        """Whether bytes are reserved for a next frame with changes of this length."""
        return self.end + _MOST_REST + count <= self._reserved

    def append(self, records: list[Record]) -> None:
        """Appends one frame of changes. It is on the disk when this returns.

        After a Fault nobody knows what is on the disk, and the journal may lack what the program has done: the hub must
        end.
        """
        self._refuse_broken()
        frame = frame_of(self.end, body_of(records))
        begin = time.monotonic()
        self._write_step(lambda: self._write(frame))
        self.seconds = time.monotonic() - begin
        self.last = time.time()
        self.end += len(frame)
        self.changes += len(records)

    def _write_step(self, step: Callable[[], object]) -> None:
        """Runs a step on the disk. If it fails, nothing more is known of the disk."""
        try:
            step()
        except OSError as error:
            self._is_broken = True
            raise Fault(FAILED, f"{self.path}: {error.strerror}; these changes were not acknowledged") from error

    def _refuse_broken(self) -> None:
        if self._is_broken:
            raise Fault(FAILED, f"{self.path}: the disk has failed; no later change was acknowledged")

    def _write(self, frame: bytes) -> None:
        if os.pwrite(self._fd, frame, self.end) != len(frame):
            raise OSError(errno.ENOSPC, "only a part was written")
        if self.is_synced:
            os.fdatasync(self._fd)

    def add_note(self, note: bytes) -> bool:
        """Appends a note. It is on the disk when this returns. Returns False if the disk is full."""
        self._refuse_broken()
        return self.has_room(_MOST_REST + len(note)) and self._note(note)

    def _note(self, text: bytes) -> bool:
        """Appends a note. Returns False, and loses nothing else, if the disk is full."""
        frame = frame_of(self.end, text + b"\n")
        try:
            if os.pwrite(self._fd, frame, self.end) == len(frame):
                os.fdatasync(self._fd)
                self.end += len(frame)
                return True
        except OSError as error:
            if error.errno not in _NO_ROOM:
                self._is_broken = True
                raise
        os.ftruncate(self._fd, self.end)
        self._reserved = self.end
        return False

    def close(self) -> None:
        """Appends a note that the hub has ended, frees the reserved bytes and the lock.

        After a failure of the disk it writes nothing: a later sync that succeeds proves nothing.
        """
        if self._fd < 0:
            return
        with contextlib.suppress(OSError):
            if not (self._is_broken or self._is_lost):
                self._note(ENDED)
            if not self._is_lost:
                os.ftruncate(self._fd, self.end)
        self._close_all()

    def _close_all(self) -> None:
        for descriptor in (self._fd, *(segment.descriptor for segment in self._closed)):
            os.close(descriptor)
        self._fd, self._closed = -1, []
