#!/usr/bin/env python3
"""Prints what each crate promises, from the sources: its first lines, and then its public items. Of each item it prints
the declaration, the conditions (`requires`) and the comment. What an item ensures is in the source;
`tools/definitions.py` prints the definitions.

usage: tools/contracts.py            (from the top) prints all crates, as Markdown, in the order of crates.txt
       tools/contracts.py NAME..     prints these crates
       tools/contracts.py --list     prints each crate with its first sentence, sorted by name
       tools/contracts.py --check    prints what lacks a comment, and what is wrong with the first lines of a crate;
                                     finally 'N items of M crates'; status 1 if anything else is printed

The first lines (`//!`) of a crate's root file, `lib.rt` or `main.rt`, begin with a paragraph of one sentence. After
`Modules, in reading order:` a list names each module of the file once; it is missing if there is no module. The
examples name only what some crate declares.
"""

from __future__ import annotations

import re
import signal
import sys
from collections.abc import Iterator
from pathlib import Path
from typing import NamedTuple

from libraries import lines_of

HEAD = """# Contracts

What each crate promises. A function is printed with its conditions (`requires`), which the caller must show, and a law
with its theorem. Comments state what a function ensures: *if and only if* holds both ways unless an allocation fails. A
call may fail because an allocation fails if its error has `AllocError` or out of memory among its cases. The comment
states what is then unchanged, if a clause does. Every function is proved safe (no index out of range, no sum that
wraps, no lossy cast) and proved to return.

A *model* is what contracts see of a value in place of its fields. What a type *keeps*, here or by a `ghost` field, is
true of each of its values, so no caller has to show it. A *law* is a public function with an empty body whose contract
is a theorem.
"""
ITEM = re.compile(r"pub (?:const )?(fn|struct|enum|trait|type|const|static) (\w+)")
USE = re.compile(r"^pub use ([\w:]+?)(?:::\{([^}]*)\}| as (\w+))?;", re.M)
CLAUSE = re.compile(r"\s*(requires|ensures)\b")
# The model of a type, which contracts see, and its invariant.
SEEN = re.compile(r"ghost (Value|invariant) = \{ (.*?) \};", re.S)
SAYS = {"Value": "Model", "invariant": "It keeps"}
ENDS = ("{", "{}")
# The modules of a crate's root file, and its list of them.
MODULE = re.compile(r"^(?:pub )?mod (\w+);", re.M)
LIST = "Modules, in reading order:"
ENTRY = re.compile(r"^- `(\w+)`: ", re.M)
# The names in the example of a crate's first lines: functions, types, variants, fields.
CODE = re.compile(r"^```\n(.*?)^```", re.M | re.S)
QUOTED = re.compile(r'b?"[^"]*"|//.*')
NAMED = re.compile(r"\b([a-z]\w+)(?=\()|\.([a-z]\w+)\b|\b([A-Z]\w+)")
STD = {"Vec", "Some", "None", "Ok", "Err", "Global", "is_none"}
DECLARED = re.compile(r"\b(?:fn|struct|enum|trait|type|const) (\w+)|^ *(?:pub(?:\(crate\))? )?(\w+)\s*(?=[:,({])", re.M)


class Item(NamedTuple):
    """A public item: its name (of a method, with its type), its place, and the lines of its declaration and of its
    comment."""

    name: str
    place: str
    text: list[str]
    said: list[str]


class Source(NamedTuple):
    """The root of a crate: its first lines, its modules, its public names, each with the file or library that declares
    it, and its files, of which the first is the root file."""

    head: list[str]
    modules: list[str]
    exported: dict[str, Path | str]
    files: list[Path]


def source_of(crate: str) -> Source:
    """Reads the root of the crate."""
    folder = Path("crates", crate, "src")
    root = next(path for name in ("lib.rt", "main.rt") if (path := folder / name).exists())
    text = root.read_text(encoding="utf-8")
    head = [line.removeprefix("//!").removeprefix(" ") for line in text.splitlines() if line.startswith("//!")]
    modules = [
        path for name in re.findall(r"^mod (\w+);", text, flags=re.M) if (path := folder / f"{name}.rt").exists()
    ]
    exported: dict[str, Path | str] = {
        name: root for _, name in ITEM.findall("\n".join(line for line in text.splitlines() if line.startswith("pub ")))
    }
    for named, several, renamed in USE.findall(text):
        names = re.findall(r"\w+", several) if several else [renamed or named.rpartition("::")[2]]
        module = named.split("::")[0]
        exported |= {name: path if (path := folder / f"{module}.rt") in modules else module for name in names}
    return Source(head, MODULE.findall(text), exported, [root, *modules])


def comment(lines: list[str], at: int) -> list[str]:
    """The comment above a line, without attributes."""
    said: list[str] = []
    while at > 0 and lines[at - 1].lstrip().startswith(("///", "#[")):
        at -= 1
        line = lines[at].strip()
        if line.startswith("///"):
            said.insert(0, line.removeprefix("///").removeprefix(" "))
    return said


def is_whole(text: list[str]) -> bool:
    """Whether the lines of a declaration close all parentheses and brackets."""
    joined = " ".join(text)
    return joined.count("(") == joined.count(")") and joined.count("[") == joined.count("]")


def function(lines: list[str], at: int) -> list[str]:
    """A function without its body, with its `requires` clauses alone; a law with all clauses."""
    text = [lines[at].rstrip()]
    while not is_whole(text) or not text[-1].endswith(("{", "{}", ";")):
        if is_whole(text) and at + 1 < len(lines) and (CLAUSE.match(lines[at + 1]) or lines[at + 1].strip() in ENDS):
            break
        at += 1
        text.append(lines[at].rstrip())
    text[-1] = text[-1].removesuffix("{}").removesuffix("{").removesuffix(";").rstrip()
    clauses: list[list[str]] = []
    for line in lines[at + 1 :]:
        if CLAUSE.match(line):
            clauses.append([line])
        elif not clauses or line.strip() in ENDS or clauses[-1][-1].endswith(";"):
            break
        elif line.startswith(" " * (indent(lines[at]) + 4)):
            clauses[-1].append(line)
        else:
            break
    is_law = line.strip() == "{}" if clauses else False
    kept = [clause for clause in clauses if is_law or clause[0].lstrip().startswith("requires")]
    return [*text, *(line.removesuffix(";") for clause in kept for line in clause)]


def indent(line: str) -> int:
    """The indentation of the line."""
    return len(line) - len(line.lstrip())


def block(lines: list[str], at: int) -> list[str]:
    """The lines of a block up to the line that closes it; of a declaration without a block, up to its end."""
    stop = at
    while not lines[stop].rstrip().endswith((";", "{}")) and lines[stop] != "}" and stop + 1 < len(lines):
        stop += 1
        if lines[at].rstrip().endswith("{"):
            stop = next(end for end in range(stop, len(lines)) if lines[end] == "}")
    return lines[at : stop + 1]


def type_of(lines: list[str], at: int, kind: str) -> list[str]:
    """A type with its public parts; a trait with its methods, each with its `requires` clauses alone."""
    if kind in ("const", "static"):
        return [f"{lines[at].partition(' =')[0]};"]
    whole = block(lines, at)
    if len(whole) < 3:
        return whole
    found: list[str] = []
    for here, line in enumerate(whole[1:-1], start=1):
        is_shown = indent(line) == 4 and not line.lstrip().startswith(("///", "#[", "}", ")", "ghost use"))
        is_shown = is_shown and (kind != "struct" or line.startswith("    pub ")) and not (line.startswith("    //"))
        if is_shown:
            declared = function(whole, here) if line.startswith("    fn ") else through(whole[here:])
            found += [f"    /// {said}".rstrip() for said in comment(whole, here)] + declared
    return [whole[0], *found, "}"] if found else [f"{whole[0].rstrip().removesuffix('{').rstrip()};"]


def through(lines: list[str]) -> list[str]:
    """The first line, the more indented lines after it, and the line that closes them."""
    stop = 1
    while stop < len(lines) and indent(lines[stop]) > indent(lines[0]):
        stop += 1
    closes = stop < len(lines) and stop > 1 and lines[stop].strip().startswith(("}", ")"))
    return lines[: stop + closes]


def items_of(crate: str, source: Source) -> list[Item]:
    """The public items of a crate, file by file: those that its root exports, and the public methods of these types."""
    found: list[Item] = []
    facts: dict[str, list[str]] = {}
    for path in source.files:
        lines = path.read_text(encoding="utf-8").split("\n")
        owner = ""
        for at, line in enumerate(lines):
            if line.startswith("impl"):
                owner = owner_of(lines, at, facts)
            elif line == "}":
                owner = ""
            item = ITEM.match(line.removeprefix("    ") if owner else line)
            origin = source.exported.get(owner or item[2]) if item else None
            if not item or not isinstance(origin, Path) or origin != path and not owner:
                continue
            text = function(lines, at) if item[1] == "fn" else type_of(lines, at, item[1])
            text = [line.removeprefix("    ") for line in text] if owner else text
            found.append(
                Item(f"{owner}::{item[2]}" if owner else item[2], f"{path}:{at + 1}", text, comment(lines, at))
            )
    return [item._replace(said=[*item.said, *facts.get(item.name, [])]) for item in found]


def owner_of(lines: list[str], at: int, facts: dict[str, list[str]]) -> str:
    """The type of an impl block with its own methods. For the impl of a trait, adds a line about the type to
    `facts`."""
    head, bare = lines[at], ""
    while head != bare:
        head, bare = re.sub(r"<[^<>]*>", "", head), head
    words = head.split("{")[0].split()
    if words[2:3] != ["for"]:
        return words[1]
    seen = [f"{SAYS[what]}: `{' '.join(said.split())}`." for what, said in SEEN.findall("\n".join(block(lines, at)))]
    facts.setdefault(words[3], []).extend(
        line for fact in seen or [f"It implements `{words[1]}`."] for line in ("", fact)
    )
    return ""


def print_crate(crate: str) -> None:
    """Prints the crate's first lines, its re-exported names, and its items."""
    source = source_of(crate)
    print(f"\n## {crate}\n\n" + "\n".join(source.head))
    for library in dict.fromkeys(of for of in source.exported.values() if isinstance(of, str)):
        names = ", ".join(f"`{name}`" for name, of in source.exported.items() if of == library)
        print(f"\nIt also exports, from {library}: {names}.")
    for item in items_of(crate, source):
        said = ["", *item.said] if item.said else []
        print("\n".join([f"\n### {crate}: {item.name}\n", "```rust", *item.text, "```", *said]))


def first_sentence(head: list[str]) -> str:
    """The first sentence of a crate's first lines, without its full stop."""
    paragraph = " ".join(line.strip() for line in "\n".join(head).split("\n\n")[0].splitlines())
    return re.split(r"\.(?:\s|$)", paragraph)[0]


def print_list(crates: list[str]) -> int:
    """Prints each crate with its first sentence, sorted by name. Returns the status."""
    print("\n".join(f"{crate}: {first_sentence(source_of(crate).head)}" for crate in sorted(crates)))
    return 0


def wrong_head(source: Source) -> Iterator[str]:
    """What is wrong with the first lines of a crate."""
    text = "\n".join(source.head)
    first = " ".join(text.split("\n\n")[0].split())
    if not re.fullmatch(r"[A-Z`].*\.", first) or re.search(r"\.\s", first):
        yield "the first paragraph is not one sentence"
    entries = ENTRY.findall(text.partition(f"{LIST}\n\n")[2].split("\n\n")[0])
    yield from (f"the list of modules lacks `{module}`" for module in source.modules if module not in entries)
    yield from (f"the list has `{entry}`, which is not a module" for entry in entries if entry not in source.modules)
    yield from (f"the list has `{entry}` twice" for entry in sorted(set(entries)) if entries.count(entry) > 1)


def lacking(crates: list[str]) -> list[str]:
    """First lines that are wrong, items that lack a comment, and public names that are not found."""
    said: list[str] = []
    for crate in crates:
        source = source_of(crate)
        items = items_of(crate, source)
        said += [f"{source.files[0]}:1: {text}" for text in wrong_head(source)]
        said += [f"{item.place}: {item.name} has no comment" for item in items if not any(item.said)]
        said += [f"{item.place}: {what} has no comment" for item in items for what in methods_without(item)]
        missing = {name for name, of in source.exported.items() if isinstance(of, Path)} - {item.name for item in items}
        said += [f"crates/{crate}/src: {name} is made public, and not found" for name in sorted(missing)]
    return said


def unknown(crates: list[str]) -> list[str]:
    """Names in the examples of the crates' first lines that neither a crate nor the list STD declares."""
    texts = [
        path.read_text(encoding="utf-8") for crate in crates for path in Path("crates", crate, "src").rglob("*.rt")
    ]
    known = {name for text in texts for pair in DECLARED.findall(text) for name in pair} | STD
    shown = {crate: QUOTED.sub("", "".join(CODE.findall("\n".join(source_of(crate).head)))) for crate in crates}
    named = {
        crate: {name for several in NAMED.findall(text) for name in several if name} for crate, text in shown.items()
    }
    missing = [(crate, name) for crate in crates for name in sorted(named[crate] - known)]
    return [f"crates/{crate}/src: its first lines call {name}, which is not there" for crate, name in missing]


def methods_without(item: Item) -> list[str]:
    """The methods of a trait that have no comment."""
    inner = [(before, line) for before, line in zip(item.text, item.text[1:]) if line.startswith("    fn ")]
    return [
        f"{item.name}::{line.split('(')[0].split()[-1]}" for before, line in inner if not before.startswith("    ///")
    ]


def check(crates: list[str]) -> int:
    """Prints what is wrong with first lines, and what lacks a comment. Returns the status."""
    said = [*lacking(crates), *unknown(crates)]
    count = sum(len(items_of(crate, source_of(crate))) for crate in crates)
    print("\n".join([*said, f"{count} items of {len(crates)} crates"]))
    return 1 if said else 0


def main(words: list[str]) -> int:
    crates = [*lines_of(Path("crates.txt").read_text(encoding="utf-8"))]
    if words == ["--check"]:
        return check(crates)
    signal.signal(signal.SIGPIPE, signal.SIG_DFL)
    if words == ["--list"]:
        return print_list(crates)
    if not set(words) <= set(crates):
        print(__doc__, file=sys.stderr)
        return 2
    if not words:
        print(HEAD.rstrip())
    for crate in words or crates:
        print_crate(crate)
    return 0


if __name__ == "__main__":
    sys.exit(main(sys.argv[1:]))
