"""A file without a name for what a client has not read yet."""

from __future__ import annotations

import tempfile
from pathlib import Path


class Spool:
    """Bytes that are read in the order in which they were written."""

    def __init__(self, folder: Path) -> None:
        """Makes an empty file in this folder, which disappears with the spool. Raises OSError."""
        self._file = tempfile.TemporaryFile(dir=folder, buffering=0)
        self._begin = self._end = 0

    @property
    def size(self) -> int:
        """The bytes that are not read yet."""
        return self._end - self._begin

    def write(self, data: bytes) -> None:
        """Appends bytes. Raises OSError, and appends nothing, if the disk has no room."""
        self._file.seek(self._end)
        rest = memoryview(data)
        while rest:
            rest = rest[self._file.write(rest) :]
        self._end += len(data)

    def read(self, most: int) -> bytes:
        """Takes the next bytes, at most this number; none at the end. Raises OSError if they cannot be read."""
        self._file.seek(self._begin)
        data = self._file.read(min(most, self.size))
        self._begin += len(data)
        return data

    def close(self) -> None:
        """Frees the file."""
        self._file.close()
