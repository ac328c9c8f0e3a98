"""Compressed files: gzip, xz and bzip2. Input is recognized by its first bytes, output by the end of its name."""

from __future__ import annotations

import bz2
import contextlib
import gzip
import lzma
import zlib
from collections.abc import Iterator
from pathlib import Path
from typing import BinaryIO, cast

# The first bytes of a compressed file, by the end of its name.
_MAGIC = {".gz": b"\x1f\x8b", ".xz": b"\xfd7zXZ\x00", ".bz2": b"BZh"}
# What the standard library raises for damaged data; an OSError only without a number of the system.
DAMAGED = (EOFError, OSError, lzma.LZMAError, zlib.error)
# The first bytes that show whether a file is compressed.
LONGEST_MAGIC = max(map(len, _MAGIC.values()))


def ending_of(first: bytes) -> str | None:
    """Returns the usual end of the name of a compressed file that starts with these bytes; None if it is plain."""
    return next((ending for ending, magic in _MAGIC.items() if first.startswith(magic)), None)


def plain_name(name: str) -> str:
    """Returns a file's name without the end that says that it is compressed."""
    return next((name.removesuffix(ending) for ending in _MAGIC if name.endswith(ending)), name)


def unpacked(file: BinaryIO, ending: str) -> BinaryIO:
    """Returns a reader of what a compressed file contains. It raises one of `DAMAGED` if that cannot be read."""
    if ending == ".gz":
        return cast(BinaryIO, gzip.GzipFile(fileobj=file))
    return cast(BinaryIO, lzma.LZMAFile(file) if ending == ".xz" else bz2.BZ2File(file))


@contextlib.contextmanager
def packing(path: Path, file: BinaryIO) -> Iterator[BinaryIO]:
    """Yields a writer into an open file, which compresses if the path's name says so."""
    if path.suffix == ".gz":
        # (the same bytes at each run: without a name and a time)
        with gzip.GzipFile("", "wb", 6, file, 0) as packed:
            yield cast(BinaryIO, packed)
    elif path.suffix == ".xz":
        with lzma.LZMAFile(file, "wb", preset=1) as packed_xz:
            yield cast(BinaryIO, packed_xz)
    elif path.suffix == ".bz2":
        with bz2.BZ2File(file, "wb") as packed_bz2:
            yield cast(BinaryIO, packed_bz2)
    else:
        yield file


def is_packed_name(path: Path) -> bool:
    """Whether a file of this name is compressed when it is written."""
    return path.suffix in _MAGIC
