"""DEF files, as far as slices and sockets need them: statements, sections, entries, and the team of each component.

Tokens and patterns are those of docs/PROTOCOL.md ("LEF and DEF texts"). The functions expect a text that the program
loads. For any other text they only promise to end.
"""

from __future__ import annotations

import mmap
import os
import re
from collections.abc import Iterator
from contextlib import ExitStack
from dataclasses import dataclass
from functools import cached_property, lru_cache
from pathlib import Path
from typing import cast

from .faults import REFUSED, Fault
from .protocol import GROUND

# White space and comments; then a token: a quoted text or a word. Each is an atomic group, so that matching takes
# linear time. Possessive repetitions of groups (`(..)*+`) are not used: Python 3.11.2 (Debian 12) matches them wrongly.
_SKIP = rb"(?>(?:[ \t\r\n]+|#[^\n]*)*)"
_TOKEN = rb'(?>"[^"\\]*(?:\\.[^"\\]*)*"|[^ \t\r\n]+)'
TOKENS = re.compile(_SKIP + rb"(" + _TOKEN + rb")", re.S)
# The end of a word.
_ALONE = rb"(?![^ \t\r\n])"
_SEMICOLON = rb";" + _ALONE
# An entry of a section, from `-` to its semicolon; its first word is its name.
_NAME = rb"(?:" + _SKIP + rb"(?!" + _SEMICOLON + rb")(" + _TOKEN + rb"))?"
_MORE = rb"(?>(?:" + _SKIP + rb"(?!" + _SEMICOLON + rb")" + _TOKEN + rb")*)"
# The rest of a section's head after its count, up to the first semicolon.
_HEAD = re.compile(_MORE + _SKIP + _SEMICOLON, re.S)
_ENTRY = re.compile(_SKIP + rb"-" + _ALONE + _NAME + _MORE + _SKIP + _SEMICOLON, re.S)

# Tokens matched at a time: the memory of a match grows with them.
_AT_ONCE = 1000

# A star in a pattern of names, which matches any bytes. A star after a backslash is a literal star.
STAR = re.compile(rb"(?<!\\)\*")

# Sections, which end with END and their keyword. Other statements end with a semicolon, except BEGINEXT and END DESIGN.
SECTIONS = frozenset(
    b"PROPERTYDEFINITIONS VIAS STYLES NONDEFAULTRULES PINS PINPROPERTIES SLOTS FILLS SPECIALNETS NETS SCANCHAINS "
    b"REGIONS GROUPS COMPONENTS BLOCKAGES".split()
)


@lru_cache
def _parts_of(keyword: bytes) -> tuple[re.Pattern[bytes], re.Pattern[bytes]]:
    """Returns expressions for the tokens after a keyword, many at a time, and for the end of its statement."""
    if keyword in SECTIONS:
        last = rb"END" + _ALONE + _SKIP + re.escape(keyword) + _ALONE
    else:
        last = rb"ENDEXT" + _ALONE if keyword == b"BEGINEXT" else _SEMICOLON
    tokens = rb"(?:" + _SKIP + rb"(?!" + last + rb")" + _TOKEN + rb"){1,%d}" % _AT_ONCE
    return re.compile(tokens, re.S), re.compile(_SKIP + last)


def _end_of(text: bytes, keyword: re.Match[bytes]) -> int:
    """Returns where the statement of this keyword ends."""
    if keyword[1] == b"END":
        end = TOKENS.match(text, keyword.end())
    else:
        tokens, last = _parts_of(keyword[1])
        start = keyword.end()
        while found := tokens.match(text, start):
            start = found.end()
        end = last.match(text, start)
    return end.end() if end else len(text)


@dataclass(frozen=True)
class Statement:
    """A statement or a section: its keyword, and its bytes with the white space and comments in front."""

    keyword: bytes
    start: int
    stop: int


@dataclass
class Entry:
    """An entry of a section: its name, its bytes with the white space and comments in front, and where they start."""

    name: bytes
    text: bytes
    start: int

    @cached_property
    def words(self) -> list[bytes]:
        """The entry's words between `-` and the semicolon."""
        return TOKENS.findall(self.text)[1:-1]

    def value_after(self, clause: bytes) -> bytes | None:
        """Returns the word after the first `+ CLAUSE`, or None."""
        for at in range(len(self.words) - 2):
            if self.words[at] == b"+" and self.words[at + 1] == clause:
                return self.words[at + 2]
        return None

    def has(self, clause: bytes) -> bool:
        """Whether the entry has a `+ CLAUSE`."""
        return clause in self.text and any(pair == (b"+", clause) for pair in zip(self.words, self.words[1:]))


def pattern_of(word: bytes) -> re.Pattern[bytes]:
    """Compiles a name, or a pattern with stars, for `fullmatch`."""
    return re.compile(rb".*".join(map(re.escape, STAR.split(word))), re.S)


def map_file(path: Path, stack: ExitStack) -> bytes:
    """Maps a file into memory until the stack closes. Slices of it are bytes."""
    with open(path, "rb") as file:
        if not os.fstat(file.fileno()).st_size:
            return b""
        return cast(bytes, stack.enter_context(mmap.mmap(file.fileno(), 0, access=mmap.ACCESS_READ)))


def words_in(text: bytes) -> Iterator[bytes]:
    """Yields the words and quoted texts of a DEF or LEF text, without comments."""
    at = 0
    # (`search` would try each byte of a comment at the end of the text)
    while found := TOKENS.match(text, at):
        yield found[1]
        at = found.end()


def statements(text: bytes) -> list[Statement]:
    """Lists the statements up to END DESIGN, the last one."""
    return list(statements_in(text))


def statements_in(text: bytes) -> Iterator[Statement]:
    """Yields the statements up to END DESIGN, the last one."""
    start = 0
    while first := TOKENS.match(text, start):
        stop = _end_of(text, first)
        yield Statement(first[1], start, stop)
        if first[1] == b"END":
            return
        start = stop


def section_parts(text: bytes, section: Statement) -> tuple[bytes, bytes, Iterator[Entry]]:
    """Splits a section: its bytes up to the count, those between the count and the first entry, and the entries."""
    keyword = TOKENS.match(text, section.start, section.stop)
    count = TOKENS.match(text, keyword.end() if keyword else section.stop, section.stop)
    if count is None:
        return text[section.start : section.stop], b"", iter(())
    head = _HEAD.match(text, count.end(), section.stop) if count[1] != b";" else None
    start = head.end() if head else count.end()
    return text[section.start : count.start(1)], text[count.end() : start], _entries(text, start, section.stop)


def _entries(text: bytes, start: int, stop: int) -> Iterator[Entry]:
    while found := _ENTRY.match(text, start, stop):
        yield Entry(found[1] or b"", found[0], start)
        start = found.end()


def entries(text: bytes, found: list[Statement], keyword: bytes) -> Iterator[Entry]:
    """Yields the entries of all sections with this keyword, given the statements of the text."""
    for statement in found:
        if statement.keyword == keyword:
            yield from section_parts(text, statement)[2]


def units_in(text: bytes) -> bytes:
    """Returns the database units per micron, or `0` if the text has no UNITS in a form that the program loads."""
    for statement in statements_in(text):
        if statement.keyword == b"UNITS":
            return (list(words_in(text[statement.start : statement.stop]))[3:4] or [b"0"])[0]
    return b"0"


def shown(word: bytes) -> str:
    """Decodes a word for people; other bytes than ASCII are escaped."""
    return word.decode("ascii", "backslashreplace")


def fences_in(text: bytes) -> list[str]:
    """Lists the teams of the FENCE regions of a text."""
    return [shown(fence) for fence in fences_of(text, statements(text))]


def fences_of(text: bytes, found: list[Statement]) -> list[bytes]:
    """Lists the names of the FENCE regions in the order of the text."""
    regions = entries(text, found, b"REGIONS")
    return list(dict.fromkeys(region.name for region in regions if region.value_after(b"TYPE") == b"FENCE"))


class Design:
    """A DEF text, its statements, and the team of each component."""

    def __init__(self, text: bytes) -> None:
        self.text = text
        self.statements = statements(text)
        self.fences = fences_of(text, self.statements)
        self._fences = set(self.fences)
        self._literal: dict[bytes, bytes] = {}
        # Patterns with a star, by the bytes in front of it; and the lengths of these.
        self._starred: dict[bytes, list[tuple[re.Pattern[bytes], bytes]]] = {}
        self._prefixes: set[int] = set()
        for group in self.entries(b"GROUPS"):
            self._add_group(group)

    def entries(self, keyword: bytes) -> Iterator[Entry]:
        """Yields the entries of all sections with this keyword."""
        return entries(self.text, self.statements, keyword)

    def _add_group(self, group: Entry) -> None:
        fence = self.fence_of(group)
        if fence is None:
            return
        for word in group.words[1:]:
            if word == b"+":
                break
            parts = STAR.split(word)
            if len(parts) == 1:
                self._literal.setdefault(word, fence)
            else:
                self._starred.setdefault(parts[0], []).append((pattern_of(word), fence))
                self._prefixes.add(len(parts[0]))

    def fence_of(self, group: Entry) -> bytes | None:
        """Returns the FENCE region of a group, or None."""
        region = group.value_after(b"REGION")
        return region if region in self._fences else None

    def team_of(self, component: Entry) -> bytes | None:
        """Returns the team of a component, or None if it is FIXED or COVER."""
        if component.has(b"FIXED") or component.has(b"COVER"):
            return None
        name = component.name
        if (fence := self._literal.get(name)) is not None:
            return fence
        for length in self._prefixes:
            for pattern, fence in self._starred.get(name[:length], ()):
                if pattern.fullmatch(name):
                    return fence
        return GROUND.encode()

    def cells_of(self, team: bytes) -> list[bytes]:
        """Lists the names of a team's cells in loading order."""
        return [component.name for component in self.entries(b"COMPONENTS") if self.team_of(component) == team]


def refuse_no_design(path: Path, text: bytes) -> None:
    """Raises a Fault if the text is not a DEF text."""
    if not any(statement.keyword == b"DESIGN" for statement in statements_in(text)):
        raise Fault(REFUSED, f"{path} has no DESIGN: it is not a DEF file")


def complete_design(path: Path, text: bytes) -> Design:
    """Parses the text of a file. Raises a Fault if it is not a DEF text or is truncated."""
    refuse_no_design(path, text)
    design = Design(text)
    last = design.statements[-1]
    if [*words_in(text[last.start : last.stop])] != [b"END", b"DESIGN"]:
        raise Fault(REFUSED, f"{path} ends without END DESIGN: it is truncated")
    return design
