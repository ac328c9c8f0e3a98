#!/usr/bin/env python3
"""Compares the quotes of docs/THEOREM.md and docs/THEOREM-TASKS.md, and the table of depth, with the sources that they
name.

usage: tools/theorem.py            (from the top) prints each quote that differs, and whether the table does; status 1
                                   if anything differs
       tools/theorem.py --write    writes the texts of the sources into the quotes, and the table
       tools/theorem.py --read ROW    prints the definitions of this row of the table, as `--read "the headline"`: each
                                      with its comment and after those that it uses

A quote is a comment that names what is quoted, and the fenced block after it:

    <!-- crates/lf_floor/src/floor.rt: pub fn step -->                  the signature and all clauses
    <!-- crates/lf_floor/src/floor.rt: pub fn step: step, others -->    the signature and these clauses
    <!-- crates/lf_cells/src/cell.rt: pub struct Cell -->               a type, or likewise some of its fields
    <!-- crates/lf_floor_model/specs/Runs.antt: own_replies, own_state -->    definitions, with the comments above them

A row of the table says how many definitions a statement depends on, how many types of the code and names of the kit's
libraries and of ported crates these use, how many of the definitions the pages quote, and how long it takes to read the
text that `--read` prints for the row. A comment above the table names the statement's definitions, one comment for each
row. After a + the definitions of the row above are included:

    <!-- depth: one command: lf_floor_model.Steps.Step -->
    <!-- depth: the headline: + lf_floor_model.Runs.Run, lf_floor_model.Runs.IsIsolated -->
"""

from __future__ import annotations

import re
import sys
from collections.abc import Iterable
from dataclasses import dataclass
from pathlib import Path

from depth import Depth, Name, depth_of, lines_of, module, text_of

PAGES = (Path("docs/THEOREM.md"), Path("docs/THEOREM-TASKS.md"))
QUOTE = re.compile(r"<!-- (crates/\S+?):? (.*?) ?-->")
FENCE = "```"
# The head of a definition in a .antt file, and a comment of one. A line of dashes begins a part of the file.
HEAD = re.compile(r"(?:(?:abbrev|unfoldable)(?: pub)?|(?:pub )?(?:record|data)|pub) +([^\s:({]+)")
SAID = re.compile(r"--(?! ----)")
# The first line of a clause of a function, and of a field of a type.
CLAUSE = re.compile(r"\s*(?:requires|ensures)\b *(\w*)")
FIELD = re.compile(r"\s*pub (?:ghost )?(\w+):")
# The comment of a row of the table of depth, and the head of the table.
ROW = re.compile(r"<!-- depth: (.*?): (\+ )?(.*) -->")
HEADING = [
    "| what it rests on | definitions | their lines | types of the code | names of the kit | quoted | hours to read |",
    "|---|---|---|---|---|---|---|",
]
# How many words of definitions a reader understands in an hour.
WORDS_PER_HOUR = 60 * 60


class NotThere(Exception):
    """The source has nothing of this name, or more than one thing."""


@dataclass(frozen=True)
class Quote:
    """A quote of a page: the line number of its comment, what it names, and the lines of its block, which may be
    empty."""

    number: int
    file: str
    name: str
    start: int
    stop: int


def quotes_in(page: list[str]) -> list[Quote]:
    """The quotes of the page, in order. The block of a quote begins on the line after its comment."""
    found: list[Quote] = []
    for at, line in enumerate(page, start=1):
        named = QUOTE.match(line)
        if named:
            stop = at
            if at < len(page) and page[at].startswith(FENCE):
                stop = page.index(FENCE, at + 1) + 1 if FENCE in page[at + 1 :] else len(page)
            found.append(Quote(at, named[1], named[2], at, stop))
    return found


def only(places: list[int]) -> int:
    """The only place in the list."""
    if len(places) != 1:
        raise NotThere
    return places[0]


def definition(lines: list[str], name: str) -> list[str]:
    """A definition of a .antt file: the comment directly above it, its head and its clauses, up to an empty line."""
    heads = {at: head[1] for at, line in enumerate(lines) if (head := HEAD.match(line))}
    first = only([at for at, found in heads.items() if found == name])
    stop = first + 1
    while stop < len(lines) and lines[stop] and stop not in heads and not SAID.match(lines[stop]):
        stop += 1
    while first > 0 and SAID.match(lines[first - 1]):
        first -= 1
    return lines[first:stop]


def item(lines: list[str], head: str) -> list[str]:
    """A function of a .rt file without its body, or a type; moved to the left edge."""
    is_function = re.search(r"\bfn ", head) is not None
    begins = re.compile(rf"( *){re.escape(head)}\b")
    edges = {at: found[1] for at, line in enumerate(lines) if (found := begins.match(line))}
    first = only([*edges])
    stop = next((at for at in range(first, len(lines)) if not lines[at]), len(lines))
    text = [line.removeprefix(edges[first]) for line in lines[first:stop]]
    for end in ("{", "{}"):
        if is_function and end in text:
            return text[: text.index(end)]
    if is_function or "}" not in text:
        raise NotThere
    return text[: text.index("}") + 1]


def some_of(text: list[str], wanted: list[str]) -> list[str]:
    """The text of an item with only these clauses or fields, and a line that names the others."""
    is_type = text[-1] == "}"
    begins = FIELD if is_type else CLAUSE
    names = {at: found[1] for at, line in enumerate(text) if (found := begins.match(line))}
    if not set(wanted) <= set(names.values()):
        raise NotThere
    starts = [*names]
    parts: dict[str, list[str]] = {}
    for at, stop in zip(starts, [*starts[1:], len(text) - is_type]):
        parts[names[at]] = [line for line in text[at:stop] if not line.lstrip().startswith("///")]
    others = [name for name in parts if name and name not in wanted]
    signature = [line for line in text[: starts[0]] if not line.lstrip().startswith("///")]
    kept = [line for name, part in parts.items() if name in wanted for line in part]
    left = [f"    // further {'fields' if is_type else 'clauses'}: {', '.join(others)}"] if others else []
    return [*signature, *kept, *left, *(["}"] if is_type else [])]


def source_of(quote: Quote) -> list[str]:
    """The lines of the source that the quote must have."""
    try:
        lines = Path(quote.file).read_text(encoding="utf-8").split("\n")
    except OSError as error:
        raise NotThere from error
    if quote.file.endswith(".rt"):
        head, _, clauses = quote.name.partition(": ")
        text = item(lines, head)
        return some_of(text, clauses.split(", ")) if clauses else text
    texts = [definition(lines, name) for name in quote.name.split(", ")]
    return [line for text in texts for line in ["", *text]][1:]


def depths_in(page: list[str]) -> dict[str, Depth]:
    """The depth of each row of the table, by the comments above it."""
    found: dict[str, Depth] = {}
    roots: list[Name] = []
    for row in filter(None, map(ROW.match, page)):
        roots = [*(roots if row[2] else []), *(Name(*name.split(".")) for name in row[3].split(", "))]
        if any(root.name not in module(root.crate, root.module).texts for root in roots):
            raise NotThere
        found[row[1]] = depth_of(roots)
    return found


def readable(title: str, depth: Depth) -> list[str]:
    """The lines that `--read` prints for a row."""
    return [f"-- {title}: {len(depth.definitions):,} definitions of {depth.lines:,} lines", *text_of(depth)]


def row_of(title: str, depth: Depth, quoted: set[Name]) -> str:
    """A row of the table of depth. `quoted` are the definitions that the pages quote."""
    here = depth.definitions & quoted
    counts = [len(depth.definitions), depth.lines, len(depth.types), len(depth.borrowed)]
    words = sum(len(line.split()) for line in readable(title, depth))
    cells = [title, *(f"{count:,}" for count in counts), f"{len(here):,} ({sum(map(lines_of, here)):,} lines)"]
    return f"| {' | '.join([*cells, f'{words / WORDS_PER_HOUR:.1f}'])} |"


def quoted_on(page: list[str]) -> set[Name]:
    """The definitions that the page quotes."""
    quoted: set[Name] = set()
    for quote in quotes_in(page):
        _, crate, folder, file = quote.file.split("/", 3)
        if folder == "specs":
            quoted |= {Name(crate, file.removesuffix(".antt"), name) for name in quote.name.split(", ")}
    return quoted


def tabled(page: list[str], quoted: set[Name]) -> list[str]:
    """The page with the correct table of depth, if it has one. `quoted` are the definitions that the pages quote."""
    rows = [at for at, line in enumerate(page) if ROW.match(line)]
    if not rows:
        return page
    start = stop = rows[-1] + 1
    while stop < len(page) and page[stop].startswith("|"):
        stop += 1
    made = [row_of(title, depth, quoted) for title, depth in depths_in(page).items()]
    return [*page[:start], *HEADING, *made, *page[stop:]]


def read(pages: Iterable[list[str]], title: str) -> int:
    """Prints the definitions of this row. Returns the exit status."""
    depths = {row: depth for page in pages for row, depth in depths_in(page).items()}
    if title not in depths:
        print(f"the rows are: {', '.join(depths)}", file=sys.stderr)
        return 1
    print("\n".join(readable(title, depths[title])))
    return 0


def with_quotes(path: Path, page: list[str], is_writing: bool) -> tuple[list[str], int, int]:
    """The page with the texts of the sources in its quotes if `is_writing`, and as it is otherwise. Prints each quote
    that differs. Returns the page, how many quotes agree, and how many differ."""
    written: list[str] = []
    done = agree = differ = 0
    for quote in quotes_in(page):
        had = page[quote.start : quote.stop]
        written += page[done : quote.start]
        done = quote.stop
        try:
            block = [FENCE + ("rust" if quote.file.endswith(".rt") else ""), *source_of(quote), FENCE]
        except NotThere:
            block, said = had, "names nothing of"
        else:
            said = "" if is_writing or had == block else "differs from"
        written += block if is_writing else had
        if said:
            differ += 1
            print(f"{path}:{quote.number}: {said} {quote.file}: {quote.name}")
        else:
            agree += 1
    return [*written, *page[done:]], agree, differ


def main(words: list[str]) -> int:
    pages = {path: path.read_text(encoding="utf-8").split("\n") for path in PAGES}
    if len(words) == 2 and words[0] == "--read":
        return read(pages.values(), words[1])
    if words not in ([], ["--write"]):
        print(__doc__, file=sys.stderr)
        return 2
    is_writing = bool(words)
    quoted = {name for page in pages.values() for name in quoted_on(page)}
    agree = differ = 0
    for path, page in pages.items():
        written, agreeing, differing = with_quotes(path, page, is_writing)
        agree += agreeing
        differ += differing
        try:
            whole = tabled(written, quoted)
        except NotThere:
            whole = written
            differ += 1
            print(f"{path}: the table of depth names a definition that is not there")
        if is_writing:
            path.write_text("\n".join(whole), encoding="utf-8")
        elif whole != written:
            differ += 1
            print(f"{path}: the table of depth differs from the sources")
    print(f"{agree} quotes agree, {differ} differ")
    return 1 if differ else 0


if __name__ == "__main__":
    sys.exit(main(sys.argv[1:]))
