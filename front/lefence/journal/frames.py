"""The form of a segment of a journal, and its reader. A segment is a header, then frames with changes or notes.

The header has these lines:
1. a title;
2. `text SHA256 PATH` for each file of the design, the DEF file first; the path as it was given, quoted as in a URL;
3. `sessions N`, only if a team has another number of session slots than 8;
4. `segment NUMBER CHANGES BYTES`: its number from 1, the changes in all segments before it, and the bytes of the
   segment before it;
5. `changes`.

Version 2 had only one segment, and no line 4.

A frame is `batch TIME LENGTH SUM`, a line feed, and LENGTH bytes of lines. A line is either
- a change, `LINE <tab> REPLY <tab> UID PID`, with `-` for a line of the hub itself; or
- a note, which has no tab.

TIME is in seconds since 1970. SUM is the CRC-32 of the frame's offset and time, with one space between, and of its
lines, in eight hexadecimal digits.
"""

from __future__ import annotations

import hashlib
import os
import re
import time
import zlib
from collections.abc import Iterable, Iterator
from pathlib import Path
from typing import NamedTuple
from urllib.parse import quote_from_bytes, unquote_to_bytes

from ..base.faults import FAILED, REFUSED, Fault
from ..base.protocol import SLOTS

TITLE = b"lefence-hub journal 3\n"
# The title of version 2, which had no segments.
_OLD_TITLE = b"lefence-hub journal 2\n"
END_OF_HEADER = b"changes\n"
_TEXT = re.compile(rb"text ([0-9a-f]{64}) ([!-~]+)\n")
_SLOTS = re.compile(rb"sessions ([1-9]\d?)\n")
_SEGMENT = re.compile(rb"segment (\d{1,9}) (\d{1,15}) (\d{1,15})\n")
_FRAME = re.compile(rb"batch (\d{1,12}\.\d{3}) (\d{1,9}) ([0-9a-f]{8})\n")
MOST_HEADER = 1 << 20
# More bytes than the first line of any frame has.
MOST_HEAD = 64
# Bytes read at a time.
_WINDOW = 1 << 20


class Text(NamedTuple):
    """A file of a design: its SHA-256 in hexadecimal digits, and its path when the journal was made."""

    sum: str
    path: Path


class Header(NamedTuple):
    """The header of a segment: the design's files, the segment's number, and what comes before it. It has `length`
    bytes.
    """

    texts: list[Text]
    number: int
    # The changes of all segments before it, and the bytes of the segment before it.
    changes: int
    bytes: int
    length: int
    slots: int


class Record(NamedTuple):
    """A change: its line, its reply with a line feed, and the client's uid and pid, or `-` for the hub itself."""

    line: bytes
    reply: bytes
    who: bytes = b"-"


class Frame(NamedTuple):
    """An intact frame: its start and end in the file, its time, and its lines."""

    start: int
    end: int
    time: bytes
    body: bytes

    def records(self) -> Iterator[Record]:
        """Yields its changes."""
        for line in self.body.splitlines():
            words = line.split(b"\t")
            if len(words) == 3:
                yield Record(words[0], words[1] + b"\n", words[2])

    def notes(self) -> list[bytes]:
        """Lists its notes."""
        return [line for line in self.body.splitlines() if b"\t" not in line]

    @property
    def changes(self) -> int:
        """The number of its changes. Each has two tabs at least."""
        return self.body.count(b"\t") // 2


def sum_of(path: Path) -> str:
    """The SHA-256 of a file in hexadecimal digits. Raises OSError if it cannot be read."""
    with open(path, "rb") as file:
        return hashlib.file_digest(file, "sha256").hexdigest()


def sums_of(paths: Iterable[Path]) -> list[str]:
    """The SHA-256 of each file."""
    return [sum_of(path) for path in paths]


def header_of(texts: Iterable[Text], number: int = 1, changes: int = 0, size: int = 0, slots: int = SLOTS) -> bytes:
    """Formats the header of a segment after `changes` changes and a segment of `size` bytes."""
    lines = [f"text {text.sum} {quote_from_bytes(os.fsencode(text.path))}\n" for text in texts]
    # (earlier fronts, which know only 8 slots, can read a header without this line)
    lines += [f"sessions {slots}\n"] if slots != SLOTS else []
    return TITLE + "".join([*lines, f"segment {number} {changes} {size}\n"]).encode() + END_OF_HEADER


def header_in(data: bytes) -> Header | None:
    """Parses the header at the start of these bytes; None if there is no complete one."""
    if not data.startswith((TITLE, _OLD_TITLE)):
        return None
    texts, at = [], len(TITLE)
    while match := _TEXT.match(data, at):
        texts.append(Text(match[1].decode(), Path(os.fsdecode(unquote_to_bytes(match[2])))))
        at = match.end()
    number, changes, size, slots = 1, 0, 0, SLOTS
    if data.startswith(TITLE):
        if named := _SLOTS.match(data, at):
            slots, at = int(named[1]), named.end()
        if not (place := _SEGMENT.match(data, at)):
            return None
        (number, changes, size), at = map(int, place.groups()), place.end()
    return (
        Header(texts, number, changes, size, at + len(END_OF_HEADER), slots)
        if data.startswith(END_OF_HEADER, at)
        else None
    )


def wrong_title_text(data: bytes) -> str:
    """Describes a file that starts with these bytes and has no header of this version."""
    title = data.split(b"\n")[0]
    if re.fullmatch(rb"lefence-hub journal \d{1,9}", title) and title + b"\n" not in (TITLE, _OLD_TITLE):
        return f"`{title.decode()}`: a journal of another version, which this version cannot read"
    return "not a journal of lefence-hub, or its header is damaged"


def is_partial_header(data: bytes) -> bool:
    """Whether these bytes are an incomplete header."""
    if len(data) >= MOST_HEADER:
        return False
    *lines, last = data.rstrip(b"\0").split(b"\n")
    if not lines:
        return TITLE.startswith(last) or _OLD_TITLE.startswith(last)
    return lines[0] + b"\n" in (TITLE, _OLD_TITLE) and all(
        any(form.fullmatch(line + b"\n") for form in (_TEXT, _SLOTS, _SEGMENT)) for line in lines[1:]
    )


def frame_of(offset: int, body: bytes, when: bytes | None = None) -> bytes:
    """Formats a frame for this offset, with the given time or the present one."""
    when = when or b"%.3f" % time.time()
    return b"batch %b %d %08x\n%b" % (when, len(body), _sum(offset, when, body), body)


def body_of(records: Iterable[Record]) -> bytes:
    """Formats the lines of these changes."""
    return b"".join(b"%b\t%b\t%b\n" % (line, reply.removesuffix(b"\n"), who) for line, reply, who in records)


def _sum(offset: int, when: bytes, body: bytes) -> int:
    return zlib.crc32(body, zlib.crc32(b"%d %b" % (offset, when)))


class Reader:
    """Reads the frames of a file, which may grow meanwhile."""

    def __init__(self, descriptor: int, path: Path) -> None:
        self.path = path
        self._fd = descriptor
        self._window, self._at = b"", 0

    def _load(self, offset: int, count: int) -> int:
        """Loads `count` bytes from an offset into the window, or as many as exist; returns their position in the
        window.
        """
        if not self._at <= offset <= offset + count <= self._at + len(self._window):
            self._window, self._at = os.pread(self.descriptor(), max(count, _WINDOW), offset), offset
        return offset - self._at

    def descriptor(self) -> int:
        """The open file."""
        return self._fd

    def forget(self) -> None:
        """Frees the bytes that were read."""
        self._window, self._at = b"", 0

    def header(self) -> Header:
        """Reads the header. Raises a Fault if the file is not a journal."""
        data = header_in(os.pread(self.descriptor(), MOST_HEADER, 0))
        if data is None:
            raise Fault(REFUSED, f"{self.path}: {wrong_title_text(os.pread(self.descriptor(), MOST_HEAD, 0))}")
        return data

    def frame(self, offset: int) -> Frame | None:
        """Returns the frame at the offset, or None if it is missing or damaged."""
        at = self._load(offset, MOST_HEAD)
        head = _FRAME.match(self._window, at)
        if not head:
            return None
        when, length = head[1], int(head[2])
        start = offset + len(head[0])
        at = self._load(start, length)
        body = self._window[at : at + length]
        is_intact = len(body) == length and int(head[3], 16) == _sum(offset, when, body)
        return Frame(offset, start + length, when, body) if is_intact else None

    def frames(self, offset: int) -> Iterator[Frame]:
        """Yields the consecutive intact frames from the offset on."""
        while frame := self.frame(offset):
            yield frame
            offset = frame.end

    def end_of_frames(self) -> int:
        """Returns the end of the consecutive intact frames after the header."""
        end = self.header().length
        for frame in self.frames(end):
            end = frame.end
        return end

    def notes(self) -> list[bytes]:
        """Lists the notes of the consecutive intact frames after the header."""
        return [note for frame in self.frames(self.header().length) for note in frame.notes()]

    def frames_to(self, offset: int, end: int) -> Iterator[Frame]:
        """Yields the frames between the offset and the end. Raises a Fault if one is missing."""
        while offset < end:
            frame = self.frame(offset)
            if not frame:
                raise Fault(FAILED, f"{self.path}: the batch at byte {offset} is gone or damaged")
            yield frame
            offset = frame.end

    def next_start(self, offset: int) -> int | None:
        """Returns the start of the first intact frame after the offset, or None."""
        size = os.fstat(self.descriptor()).st_size
        while offset < size:
            piece = os.pread(self.descriptor(), _WINDOW + MOST_HEAD, offset)
            for data in _FRAME.finditer(piece):
                if data.start() < _WINDOW and self.frame(offset + data.start()):
                    return offset + data.start()
            offset += _WINDOW
        return None

    def trailing_bytes(self, offset: int) -> int:
        """Counts the bytes after the offset, without zeros at the end of the file."""
        size = os.fstat(self.descriptor()).st_size
        while size > offset:
            start = max(offset, size - _WINDOW)
            if piece := os.pread(self.descriptor(), size - start, start).rstrip(b"\0"):
                return start + len(piece) - offset
            size = start
        return 0


def refuse_damage(reader: Reader, end: int) -> None:
    """Raises a Fault if intact frames follow after the end of the consecutive ones."""
    if reader.next_start(end) is not None:
        remedies = f"`lefence-journal check {reader.path}` shows more, `lefence-journal cut` makes it usable"
        raise Fault(REFUSED, f"{reader.path}: damaged at byte {end}, and intact batches follow; {remedies}")
