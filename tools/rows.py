#!/usr/bin/env python3
"""Compares the worked rows with the input and output on which the gate runs the program lefence_rows.

In crates/lefence_rows/rows/*.rows each request has its reply below it. '# ' begins a row with its heading, '= ' a
setting of its design, and '> ' a request. Every other line is the program's output, and empty lines separate rows. So
stdin must have the headings, settings and requests, and stdout the headings and the output, file by file in the order
of their names.

usage: tools/rows.py            (from the top) prints the lines that differ, and finally 'N rows agree'; status 1 if one
                                differs
       tools/rows.py --write    writes stdin and stdout
"""

from __future__ import annotations

import difflib
import sys
from pathlib import Path

CRATE = Path("crates/lefence_rows")


def text_of(path: Path) -> str:
    """The text of a file with every byte unchanged: a request may contain a carriage return."""
    return path.read_bytes().decode("utf-8")


def split(lines: list[str]) -> tuple[list[str], list[str]]:
    """The lines that rows give to stdin, with an empty one between rows, and those that they give to stdout."""
    requests: list[str] = []
    written: list[str] = []
    for line in lines:
        if line.startswith("# "):
            requests += ["", line] if requests else [line]
            written.append(line)
        elif line.startswith("= "):
            requests.append(line)
        elif line.startswith("> "):
            requests.append(line[2:])
        elif line:
            written.append(line)
    return requests, written


def main(words: list[str]) -> int:
    if words not in ([], ["--write"]):
        print(__doc__, file=sys.stderr)
        return 2
    files = sorted((CRATE / "rows").glob("*.rows"))
    requests, written = split([line for path in files for line in text_of(path).split("\n")])
    differing = 0
    for name, lines in (("stdin", requests), ("stdout", written)):
        path = CRATE / name
        text = "\n".join(lines) + "\n"
        if words:
            path.write_bytes(text.encode("utf-8"))
        elif text != text_of(path):
            differing += 1
            found = text_of(path).split("\n")
            print("\n".join(difflib.unified_diff(found, text.split("\n"), str(path), "the rows", n=0, lineterm="")))
    rows = sum(line.startswith("# ") for line in written)
    print(f"{rows} rows; {differing} files differ: tools/rows.py --write" if differing else f"{rows} rows agree")
    return 1 if differing else 0


if __name__ == "__main__":
    sys.exit(main(sys.argv[1:]))
