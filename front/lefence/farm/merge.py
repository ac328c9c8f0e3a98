"""Merges exported slices of teams back into the DEF file, as streams: no file need fit the memory.

A movable component is only in the slice of its team; FIXED and COVER components are in all. The components of each
slice have the order of the DEF file. So looking ahead by one component in each slice is enough.
"""

from __future__ import annotations

import resource
from collections.abc import Iterator
from contextlib import ExitStack
from pathlib import Path
from typing import BinaryIO

from ..base.design import Entry, map_file, section_parts, shown, statements_in
from ..base.faults import REFUSED, Fault

# Bytes written at a time.
_PIECE = 1 << 20


def merge(whole: Path, slices: list[Path], output: BinaryIO) -> int:
    """Writes the DEF file with the components of the slices; returns how many. Raises a Fault if one is not in the
    file.
    """
    # (each mapped file keeps a descriptor open)
    files = resource.getrlimit(resource.RLIMIT_NOFILE)[1]
    resource.setrlimit(resource.RLIMIT_NOFILE, (files, files))
    with ExitStack() as stack:
        text = map_file(whole, stack)
        streams = [_movable(map_file(path, stack)) for path in slices]
        # The next component of each slice, by name.
        heads: dict[bytes, tuple[Entry, int]] = {}
        for number, stream in enumerate(streams):
            _advance(heads, stream, number)
        at = count = 0
        for component in _components(text):
            if (found := heads.pop(component.name, None)) is not None:
                entry, number = found
                _copy(text, at, component.start, output)
                output.write(entry.text)
                at = component.start + len(component.text)
                count += 1
                _advance(heads, streams[number], number)
        _copy(text, at, len(text), output)
        unmatched = sorted((number, shown(entry.name)) for entry, number in heads.values())
    for number, name in unmatched:
        raise Fault(REFUSED, f"{slices[number]}: component {name} is not in {whole}, or is in another order there")
    return count


def _copy(text: bytes, start: int, stop: int, output: BinaryIO) -> None:
    for at in range(start, stop, _PIECE):
        output.write(text[at : min(stop, at + _PIECE)])


def _components(text: bytes) -> Iterator[Entry]:
    for statement in statements_in(text):
        if statement.keyword == b"COMPONENTS":
            yield from section_parts(text, statement)[2]


def _movable(text: bytes) -> Iterator[Entry]:
    return (entry for entry in _components(text) if not (entry.has(b"FIXED") or entry.has(b"COVER")))


def _advance(heads: dict[bytes, tuple[Entry, int]], stream: Iterator[Entry], number: int) -> None:
    entry = next(stream, None)
    if entry is not None:
        heads[entry.name] = entry, number
