"""Backups of a journal: consistent copies of its files, also while its hub runs.

A backup is a folder with a journal, its states and earlier segments, and its texts, named as they are next to the
journal. A running hub removes old files. So the files that a start needs are opened first, from the last segment back
to the state before it. If one of them is gone, the hub has gone on to another segment, and they are opened again.
"""

from __future__ import annotations

import contextlib
import os
import shutil
from pathlib import Path
from typing import NamedTuple

from ..base.atomic_file import sync_folder
from ..base.faults import FAILED, REFUSED, Fault
from .frames import Reader, Text, refuse_damage, sum_of
from .segments import Archive, Segment, State
from .texts import kept_text, texts_folder

# How often the files are opened again if a running hub has removed one of them.
_TRIES = 10
_PIECE = 1 << 20


class _Copy(NamedTuple):
    """An open file, the number of its bytes to copy, and the path of its copy."""

    descriptor: int
    size: int
    target: Path


def backup_journal(journal: Path, folder: Path) -> Path:
    """Copies a journal, whose hub may be running, into a new folder; returns the path of the copy.

    Raises a Fault if the folder has files, or the journal is damaged or lacks a file.
    """
    if folder.exists() and any(folder.iterdir()):
        raise Fault(FAILED, f"{folder} is not empty: a backup needs a folder of its own")
    folder.mkdir(mode=0o700, exist_ok=True)
    copy_journal(journal, folder / journal.name)
    # (the name of a new folder is in the folder above)
    sync_folder(folder.absolute().parent)
    return folder / journal.name


def journal_in(folder: Path) -> Path:
    """Returns the path of the journal in a backup. Raises a Fault if there is none, or more than one."""
    found = [path for path in folder.iterdir() if path.is_file() and texts_folder(path).is_dir()]
    if len(found) != 1:
        raise Fault(REFUSED, f"{folder}: not a backup of `lefence-journal backup`, which has exactly one journal")
    return found[0]


def copy_journal(source: Path, target: Path) -> None:
    """Copies a journal with the files that belong to it; its own file comes last. Its hub may be running.

    Raises a Fault, and leaves nothing, if one of the new paths exists, or the journal is damaged or lacks a file.
    """
    archive, texts, partial = Archive(target), texts_folder(target), target.with_name(f"{target.name}.partial")
    for path in (target, archive.folder, texts):
        if path.exists():
            raise Fault(FAILED, f"{path} already exists")
    with contextlib.ExitStack() as stack:
        state, segments = _open_needed(source, stack)
        try:
            _copy_texts(source, segments[-1].header.texts, target)
            archive.make()
            if state:
                _write(state._replace(target=archive.state(segments[0].number)))
            for segment in segments[:-1]:
                _write(_Copy(segment.descriptor, segment.end, archive.segment(segment.number)))
            _copy_older(Archive(source), archive, segments[0].number)
            sync_folder(archive.folder)
            _write(_Copy(segments[-1].descriptor, segments[-1].end, partial))
            os.replace(partial, target)
            sync_folder(target.absolute().parent)
        except BaseException:
            remove_journal(target)
            partial.unlink(missing_ok=True)
            raise


def remove_journal(path: Path) -> None:
    """Removes a journal with the files that belong to it."""
    path.unlink(missing_ok=True)
    for folder in (Archive(path).folder, texts_folder(path)):
        shutil.rmtree(folder, ignore_errors=True)


def _open_needed(source: Path, stack: contextlib.ExitStack) -> tuple[_Copy | None, list[Segment]]:
    """Opens the last intact state of a journal, if it has one, and the segments from there on."""
    for _ in range(_TRIES):
        with contextlib.ExitStack() as opened:
            last = _open_last(source, opened)
            try:
                found = _open_back_to_state(Archive(source), last, opened)
            except Fault:
                if os.path.samestat(os.fstat(last.descriptor), os.stat(source)):
                    raise
                continue
            stack.push(opened.pop_all())
            return found
    raise Fault(FAILED, f"{source}: its hub makes states faster than they can be opened")


def _open_last(source: Path, opened: contextlib.ExitStack) -> Segment:
    file = opened.enter_context(open(source, "rb"))
    reader, end = Reader(file.fileno(), source), _end_of(file.fileno(), source)
    header = reader.header()
    notes = [note for frame in reader.frames_to(header.length, end) for note in frame.notes()]
    return Segment(file.fileno(), source, header, end, notes)


def _end_of(descriptor: int, path: Path) -> int:
    """Returns the end of the frames. A hub may append to them: frames after a gap are damage only if that remains."""
    before = -1
    while True:
        # (a new reader, since the other one keeps bytes that it has read)
        end = Reader(descriptor, path).end_of_frames()
        if end == before:
            refuse_damage(Reader(descriptor, path), end)
        if Reader(descriptor, path).next_start(end) is None:
            return end
        before = end


def _open_back_to_state(
    archive: Archive, last: Segment, opened: contextlib.ExitStack
) -> tuple[_Copy | None, list[Segment]]:
    segments = [last]
    while True:
        first = segments[0]
        named = archive.state_named(first.number, first.notes)
        if named and (state := _open_state(named, opened)):
            return state, segments
        if first.number == 1:
            if named:
                raise Fault(REFUSED, f"{named.path} is {named.condition()}, and the journal begins with it")
            return None, segments
        segments.insert(0, archive.open_before(first))
        opened.callback(os.close, segments[0].descriptor)


def _open_state(state: State, opened: contextlib.ExitStack) -> _Copy | None:
    """Opens a state; None if it is not there or damaged."""
    try:
        descriptor = opened.enter_context(open(state.path, "rb")).fileno()
    except FileNotFoundError:
        return None
    is_whole = os.fstat(descriptor).st_size == state.size and sum_of(Path(f"/dev/fd/{descriptor}")) == state.sum
    return _Copy(descriptor, state.size, state.path) if is_whole else None


def _copy_older(source: Archive, target: Archive, number: int) -> None:
    """Copies the segments before this number and their states, back to the first segment that is gone."""
    for earlier in range(number - 1, 0, -1):
        with contextlib.ExitStack() as opened:
            # (a hub removes a segment before its state)
            state = _open_copy(source.state(earlier), target.state(earlier), opened)
            segment = _open_copy(source.segment(earlier), target.segment(earlier), opened)
            if segment is None:
                return
            for copy in (state, segment):
                if copy:
                    _write(copy)


def _open_copy(path: Path, target: Path, opened: contextlib.ExitStack) -> _Copy | None:
    try:
        descriptor = opened.enter_context(open(path, "rb")).fileno()
    except FileNotFoundError:
        return None
    return _Copy(descriptor, os.fstat(descriptor).st_size, target)


def _copy_texts(source: Path, texts: list[Text], target: Path) -> None:
    """Copies the kept files of the design."""
    folder = texts_folder(target)
    folder.mkdir(mode=0o700)
    for text in texts:
        kept = kept_text(source, text)
        if kept is None:
            raise Fault(REFUSED, f"{source}: no intact copy of {text.path} is kept next to it")
        (folder / text.sum).mkdir(mode=0o700, exist_ok=True)
        copy = folder / text.sum / kept.name
        if not copy.exists():
            with open(kept, "rb") as file:
                _write(_Copy(file.fileno(), os.fstat(file.fileno()).st_size, copy))
        sync_folder(folder / text.sum)
    sync_folder(folder)


def _write(copy: _Copy) -> None:
    """Writes a copy and syncs it to the disk."""
    with open(copy.target, "xb") as file:
        for offset in range(0, copy.size, _PIECE):
            file.write(os.pread(copy.descriptor, min(_PIECE, copy.size - offset), offset))
        file.flush()
        if file.tell() != copy.size:
            raise Fault(FAILED, f"{copy.target}: its original was truncated while it was read")
        os.fchmod(file.fileno(), os.fstat(copy.descriptor).st_mode & 0o777)
        os.fsync(file.fileno())
