"""Copies of the design's files next to the journal: without them its changes mean nothing.

A copy is `JOURNAL.texts/SHA256/NAME`. The hub runs the program only on the copies, so a changed file does not affect
it.
"""

from __future__ import annotations

import contextlib
import fcntl
import os
import re
import shutil
from collections.abc import Callable
from pathlib import Path
from typing import BinaryIO

from ..base.atomic_file import atomic_file, sync_folder
from ..base.faults import FAILED, REFUSED, Fault, as_given, reason_of
from .frames import Text, sum_of
from .journal import texts_in

# The end of the name of an incomplete copy.
_PARTIAL = re.compile(r"(\.partial\d+)+$")
# Makes a file share the bytes of another one, if the file system can.
_FICLONE = 0x40049409


def texts_folder(journal: Path) -> Path:
    """The folder with a journal's copies."""
    return Path(os.path.realpath(journal) + ".texts")


def kept_text(journal: Path, text: Text) -> Path | None:
    """Returns the intact copy of a file, or None."""
    with contextlib.suppress(FileNotFoundError):
        for path in sorted((texts_folder(journal) / text.sum).iterdir()):
            if path.is_file() and not _PARTIAL.search(path.name) and sum_of(path) == text.sum:
                return path
    return None


def resolve_texts(
    journal: Path, given: list[Path], say: Callable[[str], None], uses_kept: bool = False
) -> tuple[list[Text], list[Path]]:
    """Returns a journal's files and their copies; makes missing copies. The journal need not exist yet.

    Of a compressed file or a pipe, `given` is its plain copy, and the journal names the file itself. A journal that has
    changes or begins with a state keeps its files. Raises a Fault if other files are given, or if one has changed at
    its original path, unless `uses_kept`.
    """
    texts = texts_in(journal)
    if texts is None:
        texts = [Text(sum_of(path), _named(path)) for path in given]
    if len(texts) != len(given):
        raise Fault(REFUSED, f"{journal}: a journal of another design, which has {len(texts)} files")
    return texts, [_resolve_text(journal, text, path, say, uses_kept) for text, path in zip(texts, given)]


def _named(given: Path) -> Path:
    """The path of a file for the journal."""
    return Path(as_given(str(given))).absolute()


def _resolve_text(journal: Path, text: Text, given: Path, say: Callable[[str], None], uses_kept: bool) -> Path:
    is_there = True
    try:
        is_same = sum_of(given) == text.sum
    except OSError as error:
        is_there = is_same = False
        say(reason_of(error))
    kept = kept_text(journal, text)
    if is_same:
        return kept or _make_copy(journal, text, given)
    if kept is None:
        raise Fault(
            REFUSED, f"{journal}: a journal of another design: {given} is not its file, and no copy of that is kept"
        )
    if _named(given) != text.path:
        raise Fault(REFUSED, f"{journal}: a journal of another design: its file was {text.path}, and {given} differs")
    if is_there and not uses_kept:
        remedies = "--kept-texts goes on with the kept copy, lefence-carry and --begin with the changed design"
        raise Fault(REFUSED, f"{given} has changed since {journal} was made: {remedies}")
    say(f"{given} {'has changed' if is_there else 'is missing'} since the journal was made: using the copy {kept}")
    return kept


def remove_partial_texts(journal: Path) -> None:
    """Removes incomplete copies. The journal must be locked, so that no other hub is writing them."""
    for path in texts_folder(journal).glob("*/*"):
        if _PARTIAL.search(path.name):
            path.unlink(missing_ok=True)


def _make_copy(journal: Path, text: Text, given: Path) -> Path:
    """Makes the copy of a file and syncs it to the disk."""
    folder = texts_folder(journal)
    path = folder / text.sum / _PARTIAL.sub("", given.name)
    folder.mkdir(mode=0o700, exist_ok=True)
    path.parent.mkdir(mode=0o700, exist_ok=True)
    with open(given, "rb") as source, atomic_file(path) as copy:
        _copy(source, copy)
        copy.flush()
        if sum_of(Path(f"/dev/fd/{copy.fileno()}")) != text.sum:
            raise Fault(FAILED, f"{given} was modified while it was read")
    path.chmod(0o400)
    sync_folder(folder)
    sync_folder(folder.parent)
    return path


def _copy(source: BinaryIO, copy: BinaryIO) -> None:
    try:
        fcntl.ioctl(copy.fileno(), _FICLONE, source.fileno())
    except OSError:
        shutil.copyfileobj(source, copy, 1 << 20)
