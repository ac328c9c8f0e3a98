"""Input files of a tool. Compressed files and pipes are copied to plain files first: the program opens its files
itself, and a tool may read a file twice.

Messages show the files as they were given, not their copies.
"""

from __future__ import annotations

import argparse
import atexit
import shutil
import tempfile
from io import BufferedReader
from pathlib import Path
from typing import BinaryIO

from .compression import DAMAGED, LONGEST_MAGIC, ending_of, plain_name, unpacked
from .faults import REFUSED, Fault, as_given, show_as

_PIECE = 1 << 20


def use_plain_files(options: argparse.Namespace, *names: str) -> None:
    """Replaces the paths in these options by those of plain files. The options may be lists or None."""
    for name in names:
        given = getattr(options, name)
        if isinstance(given, list):
            setattr(options, name, [plain_file(path) for path in given])
        elif given is not None:
            setattr(options, name, plain_file(given))


def kept_file(path: Path, folder: Path) -> Path:
    """Returns the path of a plain file. In place of a copy, which is removed at the end, makes one in this folder."""
    if as_given(str(path)) == str(path):
        return path
    place = Path(tempfile.mkdtemp(prefix="text-", dir=folder))
    return Path(shutil.copy(path, place / path.name))


def plain_file(path: Path) -> Path:
    """Returns the path if it is that of a plain file, else that of a copy. Raises a Fault if compressed data is
    damaged.

    Copies are removed at the end of the process. A path without a file, or of a folder, is returned as it is: the
    program refuses it.
    """
    if not path.exists() or path.is_dir():
        return path
    with open(path, "rb") as file:
        ending = ending_of(file.peek(LONGEST_MAGIC)[:LONGEST_MAGIC])
        if ending is None and path.is_file():
            return path
        return _copy_of(path, file, ending)


def _copy_of(path: Path, file: BufferedReader, ending: str | None) -> Path:
    """Copies what a file contains. Each copy is in a folder of its own, since two files may have one name."""
    place = Path(tempfile.mkdtemp(prefix="lefence-"))
    atexit.register(shutil.rmtree, place, ignore_errors=True)
    copy = place / (plain_name(path.name) or "text")
    show_as(str(copy), str(path))
    source: BinaryIO = unpacked(file, ending) if ending else file
    try:
        with open(copy, "xb") as target:
            shutil.copyfileobj(source, target, _PIECE)
    except DAMAGED as error:
        if isinstance(error, OSError) and error.errno is not None:
            raise
        raise Fault(REFUSED, f"{path}: the compressed data is damaged: {error}") from None
    return copy
