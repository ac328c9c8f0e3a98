#!/usr/bin/env python3
"""Looks up the names that the documents have between backticks. Each name of more than one word (`team_def`, `IsApart`)
must be in a source. Each path that begins with a folder of the repository or with a crate must exist. A link must lead
to a file, and to a heading of it if it names one. No line may be a conflict marker of a merge.

usage: tools/names.py     (from the top) prints names that are not found, links that lead nowhere, and conflict markers,
                          with page and line; status 1 if there are any
"""

from __future__ import annotations

import re
import sys
from collections.abc import Iterator
from pathlib import Path

PAGES = [Path("README.md"), *sorted(Path("docs").glob("*.md")), Path("bench/RESULTS.md")]
FOLDERS = ("crates", "front", "tools", "tests", "bench")
ENDINGS = {".rt", ".antt", ".py", ".tcl", ".c", ".sh", ".rows", ".edit", ""}
CODE = re.compile(r"`([^`\n]+)`")
# A link to a file, a heading, or a heading of a file.
LINK = re.compile(r"\]\((?!\w+:)([^)#\s]*)(?:#([^)\s]+))?\)")
# A name of several words, as `team_def` or `teamDef`, or one that begins with a capital.
NAME = re.compile(r"[A-Za-z]\w*_\w*[A-Za-z0-9]|\w*[a-z][A-Z]\w*|[A-Z][a-z]\w+")
PATH = re.compile(r"(\w+)/[\w./-]*\w")
# A conflict marker of a merge.
UNMERGED = re.compile(r"(?:<{7}|\|{7}|>{7})(?: |$)|={7}$")
# A pattern that matches many names.
PATTERN = re.compile(r"\*|\bNAME\b")


def sources() -> Iterator[Path]:
    """The files of the repository's folders, without generated ones."""
    for folder in FOLDERS:
        for path in Path(folder).rglob("*"):
            if path.suffix in ENDINGS and "out" not in path.parts and path.is_file():
                yield path


def known() -> set[str]:
    """The words of all sources, and the names of the files and folders."""
    words: set[str] = set()
    for path in sources():
        words |= {part for whole in path.parts for part in (whole, whole.partition(".")[0])}
        try:
            words |= set(re.findall(r"\w+", path.read_text(encoding="utf-8")))
        except UnicodeDecodeError:
            continue
    return words


def is_there(path: str) -> bool:
    """Whether this file or folder exists. Files of crates may be written without their ending."""
    return any(Path(folder, path + ending).exists() for folder in (".", "crates") for ending in ("", ".rt", ".antt"))


def prose(page: Path) -> Iterator[tuple[int, str]]:
    """The lines of the page outside of code blocks, with their numbers."""
    is_block = False
    for at, line in enumerate(page.read_text(encoding="utf-8").split("\n"), start=1):
        if line.startswith("```"):
            is_block = not is_block
        elif not is_block:
            yield at, line


def named(page: Path) -> Iterator[tuple[int, str]]:
    """The text between backticks on the page, with its line, outside of code blocks."""
    return ((at, code) for at, line in prose(page) for code in CODE.findall(line))


def headings(page: Path) -> set[str]:
    """The headings of the page as links name them: small letters, digits, `_` and `-`, and `-` for a space."""
    titles = (line.lstrip("#").strip().lower() for _, line in prose(page) if line.startswith("#"))
    return {re.sub(r"[^\w -]", "", title).replace(" ", "-") for title in titles}


def dead_links(page: Path) -> Iterator[tuple[int, str]]:
    """The links of the page that lead nowhere, with their line numbers."""
    for at, line in prose(page):
        for file, heading in LINK.findall(line):
            target = page.parent / file if file else page
            if not target.exists() or heading and heading not in headings(target):
                yield at, f"{file}#{heading}" if heading else file


def unmerged(page: Path) -> Iterator[tuple[int, str]]:
    """The conflict markers on the page, with their line numbers."""
    lines = page.read_text(encoding="utf-8").split("\n")
    return ((at, line) for at, line in enumerate(lines, start=1) if UNMERGED.match(line))


def lacking(code: str, words: set[str], firsts: set[str]) -> list[str]:
    """The names in it that are not found."""
    if PATTERN.search(code):
        return []
    found = [path[0] for path in PATH.finditer(code) if path[1] in firsts and not is_there(path[0])]
    return found or [name for name in re.findall(r"\w+", code) if NAME.fullmatch(name) and name not in words]


def main(words: list[str]) -> int:
    if words:
        print(__doc__, file=sys.stderr)
        return 2
    there = known()
    firsts = {*FOLDERS, *(path.name for path in Path("crates").iterdir())}
    count = missing = left = dead = 0
    for page in PAGES:
        for at, line in unmerged(page):
            left += 1
            print(f"{page}:{at}: a merge left {line}")
        for at, link in dead_links(page):
            dead += 1
            print(f"{page}:{at}: the link {link} leads nowhere")
        for at, code in named(page):
            count += 1
            for name in lacking(code, there, firsts):
                missing += 1
                print(f"{page}:{at}: {name} is nowhere")
    print(f"{count} names looked up, {missing or 'none'} nowhere; dead links: {dead or 'none'}")
    return 1 if missing or left or dead else 0


if __name__ == "__main__":
    sys.exit(main(sys.argv[1:]))
