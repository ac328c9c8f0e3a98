"""Files that are replaced as a whole, or not at all."""

from __future__ import annotations

import contextlib
import os
import sys
from collections.abc import Iterable, Iterator
from itertools import count
from pathlib import Path
from typing import BinaryIO

from .compression import packing
from .faults import FAILED, USAGE, Fault, as_given


@contextlib.contextmanager
def atomic_file(path: Path, mode: int = 0o666) -> Iterator[BinaryIO]:
    """Opens a new file, which replaces the file at the path when the block ends without an exception.

    The bytes are on the disk before the file gets its name; see `partial_file`. A pipe or a device is written directly.
    """
    if is_special(path):
        with open(path, "wb") as file:
            yield file
        return
    with partial_file(path, mode) as partial, open(partial, "wb") as file:
        yield file
        file.flush()
        os.fsync(file.fileno())


@contextlib.contextmanager
def output_file(path: Path) -> Iterator[BinaryIO]:
    """Opens a new file as `atomic_file` does. Its bytes are compressed if its name ends with .gz, .xz or .bz2."""
    with atomic_file(path) as file, packing(path, file) as packed:
        yield packed


def write_output(path: Path | None, data: bytes) -> None:
    """Writes bytes to a file as a whole, compressed by its name, or without a path to standard output."""
    if path is None:
        sys.stdout.buffer.write(data)
        sys.stdout.buffer.flush()
        return
    with output_file(path) as file:
        file.write(data)


@contextlib.contextmanager
def partial_file(path: Path, mode: int = 0o666) -> Iterator[Path]:
    """Makes an empty file `FILE.partial0` (or the next free number), which replaces FILE when the block ends.

    If FILE is new, it gets the given mode; else it gets the mode of the old file, and nobody else can read it before.
    The caller syncs the bytes; the name is on the disk when the block has ended. If the block raises, the partial file
    is removed and FILE is unchanged. Links are followed. Raises a Fault if the file cannot be made.
    """
    target = Path(os.path.realpath(path))
    try:
        partial = _create_partial(target, 0o600 if target.exists() else mode)
    except OSError as error:
        why = error.strerror if target.parent.exists() else "no such folder"
        raise Fault(FAILED, f"cannot write {path}: {why}") from None
    try:
        yield partial
        if target.exists():
            os.chmod(partial, target.stat().st_mode)
        os.replace(partial, target)
        sync_folder(target.parent)
    except BaseException:
        with contextlib.suppress(OSError):
            os.unlink(partial)
        raise


def is_special(path: Path) -> bool:
    """Whether the path is something other than a regular file, for example a pipe or a device."""
    return path.exists() and not path.is_file()


def sync_folder(path: Path) -> None:
    """Syncs the names in a folder to the disk."""
    folder = os.open(path, os.O_RDONLY | os.O_DIRECTORY | os.O_CLOEXEC)
    try:
        os.fsync(folder)
    finally:
        os.close(folder)


def _create_partial(target: Path, mode: int) -> Path:
    """Creates a new file in the same folder."""
    for number in count():
        partial = Path(f"{target}.partial{number}")
        with contextlib.suppress(FileExistsError):
            os.close(os.open(partial, os.O_CREAT | os.O_EXCL | os.O_WRONLY, mode))
            return partial
    raise AssertionError


def refuse_inputs(output: Path, inputs: Iterable[Path]) -> None:
    """Raises a Fault if the output is one of the input files, or the compressed file of one."""
    for path in (Path(as_given(str(each))) for each in inputs):
        if output.exists() and path.exists() and output.samefile(path):
            raise Fault(USAGE, f"{output} is an input file, so it cannot be the output")
