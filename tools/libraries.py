#!/usr/bin/env python3
"""Checks which crates depend on which. It compares three things with the sources:

- crates.txt: the line of a crate names exactly the libraries that its files name
- GROUPS and RULES below: every crate is in one group, and no crate breaks a rule
- docs/ARCHITECTURE.md: its tables of groups and rules are those of this file, and its map has every crate that is not a
  test above all crates that it names

usage: tools/libraries.py            (from the top) prints differences and broken rules; status 1 if there are any
       tools/libraries.py --table    prints the tables of groups and rules, as Markdown
       tools/libraries.py --write    rewrites the lines of crates.txt, in their present order, and the page's tables
"""

from __future__ import annotations

import re
import sys
from collections.abc import Iterable, Iterator
from enum import Enum
from functools import lru_cache
from pathlib import Path
from typing import NamedTuple

LISTING = Path("crates.txt")
PAGE = Path("docs/ARCHITECTURE.md")
# A path that begins with a library, in a .rt file and in a .antt file or a ghost import.
RUST = re.compile(r"(?<![\w:.])([a-z][a-z0-9_]*)::")
ANTT = re.compile(r"\bRattle\.([a-z][a-z0-9_]*)\.")
# The same with the items that are named of the library: one, or a list in braces.
ITEMS = re.compile(r"(?<![\w:.])([a-z][a-z0-9_]*)::(?:\{([^}]*)\}|(\w+))")
COMMENT = {".rt": re.compile(r"//.*"), ".antt": re.compile(r"--.*")}
# The tables are between these lines of the page, and the map is the block of code after its heading.
BEGIN = "<!-- tools/libraries.py --write makes the two tables from its GROUPS and RULES -->"
END = "<!-- end of the two tables -->"
MAP = re.compile(r"^## Map of crates\n.*?^```\n(.*?)^```$", re.M | re.S)


class Group(NamedTuple):
    """Crates that belong together: their names, where a `*` ends the prefix of several names, and what they are for."""

    crates: str
    purpose: str


# Every crate is in exactly one of these groups.
GROUPS = {
    "geometry": Group(
        "lf_units lf_gaps lf_orient lf_floorplan",
        "spans, numbers, boxes, orientations, and the types of a frame",
    ),
    "texts": Group(
        "lf_lex lf_names lf_lef lf_def lf_team_def lf_write lf_describe",
        "tokens, names, the readers of LEF and DEF, and what is written of a design",
    ),
    "loading": Group(
        "lf_frame",
        "the claims of fences, the refusals of designs, the frame and the cells of a design",
    ),
    "placement": Group(
        "lf_segments lf_density lf_rules lf_cells lf_undo lf_occupancy lf_legalize lf_reports lf_placement",
        "the usable spans of rows and their index by position, how full they are, the rules, the cells, and the search"
        " for best places",
    ),
    "protocol": Group(
        "lf_cli lf_proto lf_sessions lf_server",
        "the command line, requests and replies, session slots, connections",
    ),
    "hub": Group(
        "lf_hub lf_hub_*",
        "many clients over one floor. `_clients` has the lines and replies of connections, `_turns` says whose line is"
        " next, and `lf_hub` joins them and has the laws. `_lines` reads the lines that the hub answers itself,"
        " `_floor` says how the floor answers the others, `_wire` is its sockets, and `_serve` has the rounds over a"
        " wire and a journal; the others know no socket and no disk. `_host` has what `lefence hub` needs of the"
        " system. The hub of the front is `front/lefence/hub`",
    ),
    "floor": Group(
        "lf_floor lf_floor_*",
        "the state of all teams. `lf_floor_model` defines outcomes and proves laws, and has no code. `lf_floor_verbs`"
        " changes the tables. `lf_floor` finds the team, saves and restores",
    ),
    "state": Group("lf_state_text", "the text of a saved state, written and read"),
    "journal": Group(
        "lf_journal lf_journal_*",
        "the journal of a hub. `_text` is its text, `lf_journal` puts batches on a disk, `_file` is a file as a disk,"
        " and `_run` runs the records of a journal on a floor, for `replay --journal` and `hub`. The journal of the hub"
        " of the front is `front/lefence/journal`",
    ),
    "repairs": Group(
        "lf_repair_*",
        "legal places for many cells. `_planner` plans the places of a team's cells, `_strategy` lists edits, `_team`"
        " sends them to a floor. `_bounds` computes how far cells must move at least, and which macros have no place",
    ),
    "wires": Group(
        "lf_wire_*",
        "nets and their lengths. `_nets` reads pins and nets and finds the cells of pins, `_length` measures,"
        " `_density` counts pins in bins, and `_targets` says where cells without a place are near their nets",
    ),
    "improvements": Group(
        "lf_improve_*",
        "shorter wires. `_strategy` looks for moves that make nets shorter, and `_team` sends them to a floor",
    ),
    "io": Group(
        "lf_io",
        "outputs, which take a text; devices, which give and take bytes; and files, which are replaced as a whole",
    ),
    "laws": Group("lf_laws_*", "theorems over several crates, without code"),
    "tasks": Group(
        "lf_task_* lf_app lefence",
        "tasks over files. `_usage` prints help and messages about wrong words, `_faults` prints faults, `_designs`"
        " opens designs, `_files` has `check`, `describe` and what the other tasks share, `_reports` makes the reports"
        " of wire lengths, repairs and improvements, `_journal` makes the floor with which lines begin, and `_run` runs"
        " a work on a floor. `_wires`, `_serve`, `_hub`, `_repair` and `_improve` are the other tasks. `lf_app` does"
        " what the words of a command line request, and `lefence` is the program",
    ),
    "tests": Group("lf_tests_* lefence_rows lefence_bench", "tests in code, worked rows, and the bench of loading"),
}
# More names for the rules, of parts of these groups.
PARTS = {
    "readers": Group("lf_lef lf_def", "the part of texts that reads designs"),
    "files": Group(
        "lf_io::OutputFiles lf_io::FsOutputFiles lf_io::TextSource lf_io::WriteFailure lf_io::WriteFailureKind",
        "the part of io that writes files",
    ),
    "devices": Group(
        "lf_io::Source lf_io::Sink lf_io::FromRead lf_io::ToWrite lf_io::DeviceFault lf_io::send",
        "the part of io without files and outputs",
    ),
    "sockets": Group(
        "std::net lf_server::Acceptor lf_task_serve::PortListener lf_hub_wire::Sockets",
        "what listens and accepts clients",
    ),
}


class Kind(Enum):
    """What a rule asks of its crates. The value is its wording in the table of docs/ARCHITECTURE.md, which says what it
    means."""

    INDEPENDENT = "independent of"
    UNNAMED = "does not name"
    RESERVED = "named only by"
    ORDERED = "in this order"


class Rule(NamedTuple):
    """A rule on crates. Crates and others are words: a group, a name of PARTS, a crate, a prefix with `*`, an item such
    as `lf_io::Sink`, or `all`. A word after `-` is left out."""

    crates: str
    kind: Kind
    others: str
    reason: str


RULES = (
    Rule(
        "geometry",
        Kind.INDEPENDENT,
        "lf_lex lf_rules lf_cells",
        "Spans and boxes mean the same to all groups, so they know neither texts nor rules nor cells.",
    ),
    Rule(
        "texts",
        Kind.INDEPENDENT,
        "lf_occupancy lf_legalize lf_placement floor",
        "What a text says of a design does not depend on where its cells may go.",
    ),
    Rule(
        "texts -lf_describe",
        Kind.INDEPENDENT,
        "lf_rules devices",
        "Texts are read from memory and written to an output. Only `lf_describe` reports broken rules, and it writes"
        " line by line to a device, since its text may be large.",
    ),
    Rule(
        "loading",
        Kind.INDEPENDENT,
        "lf_rules lf_legalize lf_cells lf_proto floor",
        "Whether a design loads depends on its texts alone.",
    ),
    Rule(
        "placement",
        Kind.INDEPENDENT,
        "lf_lex readers loading lf_proto floor io",
        "A verdict or a search needs a frame and cells, wherever they come from.",
    ),
    Rule(
        "hub -lf_hub_lines -lf_hub_floor",
        Kind.INDEPENDENT,
        "texts loading placement protocol floor state io",
        "What a hub does with lines does not depend on what they mean, nor on sockets and disks. Only `lf_hub_lines`"
        " and `lf_hub_floor` read lines.",
    ),
    Rule(
        "lf_hub_lines",
        Kind.INDEPENDENT,
        "floor lf_server",
        "The lines that a hub answers itself are read without a floor.",
    ),
    Rule(
        "protocol",
        Kind.INDEPENDENT,
        "readers loading files tasks repairs",
        "Lines and replies are the same for every design and every task.",
    ),
    Rule(
        "protocol -lf_server",
        Kind.INDEPENDENT,
        "floor",
        "Lines are parsed and printed without a floor. Only `lf_server` has one answer them.",
    ),
    Rule(
        "floor",
        Kind.INDEPENDENT,
        "readers loading devices files lf_server repairs",
        "The theorem is on the floor alone, so nothing from outside it may decide a reply.",
    ),
    Rule(
        "lf_floor_verbs",
        Kind.RESERVED,
        "lf_floor lf_task_files",
        "Every change passes `Floor::step`. `lf_task_files` borrows `is_cell_legal` to test the committed places.",
    ),
    Rule(
        "state",
        Kind.INDEPENDENT,
        "readers loading devices files lf_floor lf_floor_verbs lf_cells lf_placement",
        "The text is read and written by the names of a design (`DesignSchema`), without its tables. `lf_floor` saves"
        " and restores by this crate, so the crate is below it.",
    ),
    Rule("laws", Kind.INDEPENDENT, "files tasks repairs", "The laws are on what the tasks are built of."),
    Rule(
        "lf_repair_planner lf_repair_strategy lf_repair_team",
        Kind.ORDERED,
        "",
        "Each crate of a repair uses the ones before it.",
    ),
    Rule(
        "lf_repair_planner",
        Kind.INDEPENDENT,
        "all",
        "The planner knows sites and widths alone, so that it can be tried without a design.",
    ),
    Rule(
        "lf_repair_strategy lf_repair_bounds",
        Kind.INDEPENDENT,
        "floor lf_proto",
        "A plan is made of places. It knows neither a floor nor a request.",
    ),
    Rule(
        "repairs improvements -lf_repair_team",
        Kind.UNNAMED,
        "lf_proto",
        "Only `lf_repair_team` makes requests; `lf_improve_team` sends them through it.",
    ),
    Rule(
        "repairs improvements",
        Kind.UNNAMED,
        "readers loading files lf_server",
        "They work on a floor, wherever it comes from, and write to a device.",
    ),
    Rule(
        "lf_improve_strategy lf_improve_team",
        Kind.ORDERED,
        "",
        "Each crate of an improvement uses the ones before it.",
    ),
    Rule(
        "lf_improve_strategy",
        Kind.INDEPENDENT,
        "floor lf_proto",
        "A plan is made of places. Only `lf_improve_team` has a floor run commands.",
    ),
    Rule(
        "wires",
        Kind.INDEPENDENT,
        "floor files",
        "Nets are looked at over a whole design, and no reply has them.",
    ),
    Rule("wires", Kind.INDEPENDENT, "lf_rules", "A length does not depend on legality."),
    Rule(
        "wires -lf_wire_targets",
        Kind.RESERVED,
        "lf_wire_targets improvements lf_task_reports lf_task_wires lf_task_improve tests",
        "No verb may pay for nets, or depend on them: a reply would then depend on other teams' cells.",
    ),
    Rule(
        "lf_wire_targets",
        Kind.RESERVED,
        "lf_task_repair tests",
        "Nets only advise a repair where its cells without a place may go.",
    ),
    Rule(
        "journal -lf_journal_run",
        Kind.INDEPENDENT,
        "all -lf_journal -lf_journal_text",
        "A journal keeps lines and replies, whatever they mean, so a crash is understood without a floor.",
    ),
    Rule(
        "lf_journal_run",
        Kind.INDEPENDENT,
        "readers loading files tasks repairs wires",
        "A journal is run on any floor, wherever it comes from.",
    ),
    Rule("io", Kind.INDEPENDENT, "all", "Devices and files are at the bottom, and any group may name `Output`."),
    Rule(
        "files",
        Kind.RESERVED,
        "lf_task_* lf_app tests",
        "Only tasks write files, so what a task writes can be said in one place.",
    ),
    Rule(
        "sockets",
        Kind.RESERVED,
        "lf_server lf_task_serve lf_hub_host lf_app tests",
        "A command is answered the same over a socket, a pipe or a file.",
    ),
    Rule(
        "lf_task_usage lf_task_faults lf_task_designs lf_task_files lf_task_wires lf_task_journal lf_task_run"
        " lf_task_serve lf_task_repair lf_task_improve lf_app lefence",
        Kind.ORDERED,
        "",
        "What tasks share is below them. `lf_task_repair` and `lf_task_improve` are works that `lf_task_run` runs.",
    ),
    Rule(
        "lf_task_* -lf_task_files -lf_task_reports",
        Kind.UNNAMED,
        "lf_floor_verbs lf_placement",
        "Tasks reach the tables through a floor. Only `lf_task_files` tests places that no command asks for, and"
        " `lf_task_reports` measures gaps and density in a placement.",
    ),
    Rule(
        "lf_task_serve",
        Kind.UNNAMED,
        "repairs lf_wire_*",
        "A service answers commands and does nothing else.",
    ),
    Rule(
        "lf_task_repair",
        Kind.UNNAMED,
        "lf_server wires -lf_wire_targets",
        "A repair is complete without connections, and all that it knows of nets is the targets that they give.",
    ),
    Rule(
        "lf_task_run",
        Kind.UNNAMED,
        "lf_server wires lf_task_serve lf_task_wires",
        "A task on a floor is complete without connections, and only its work knows what is opened with the floor.",
    ),
    Rule("lf_tests_*", Kind.RESERVED, "tests", "No code of the program is there for tests."),
)


def lines_of(listing: str) -> dict[str, list[str]]:
    """The crates of crates.txt in order, each with the libraries that its line names."""
    found: dict[str, list[str]] = {}
    for line in listing.splitlines():
        name, colon, libraries = line.split("#")[0].partition(":")
        if colon:
            found[name.strip()] = libraries.split()
    return found


def below(crates: list[str], listing: str) -> list[str]:
    """These crates and all crates of the repository that they depend on, each after those that it names."""
    listed, found = lines_of(listing), []

    def visit(crate: str) -> None:
        if crate in listed and crate not in found:
            for library in listed[crate]:
                visit(library)
            found.append(crate)

    for crate in crates:
        visit(crate)
    return found


def texts_of(crate: str, folders: Iterable[str]) -> Iterator[tuple[str, str]]:
    """The texts of the crate's files in these folders without comments, each with the ending of its file."""
    for folder in folders:
        for path in sorted(Path("crates", crate, folder).rglob("*")):
            if path.suffix in COMMENT:
                yield path.suffix, COMMENT[path.suffix].sub("", path.read_text(encoding="utf-8"))


def named_by(crate: str) -> set[str]:
    """The first words of all paths in the files of a crate."""
    words: set[str] = set()
    for ending, text in texts_of(crate, ("src", "specs", "proofs")):
        words |= set(ANTT.findall(text))
        if ending == ".rt":
            words |= set(RUST.findall(text))
    return words - {crate}


@lru_cache(maxsize=None)
def named_in_code(crate: str) -> frozenset[str]:
    """The libraries that the crate's code names outside ghost imports, and their items, as `lf_io::Sink`."""
    words: set[str] = set()
    for _, text in texts_of(crate, ("src",)):
        for library, several, single in ITEMS.findall(text):
            items = [single] if single else re.findall(r"\w+", several)
            words |= {library, *(f"{library}::{item}" for item in items)}
    return frozenset(words)


def members(words: str, crates: Iterable[str]) -> list[str]:
    """The crates and items that the words of a rule mean."""
    found: list[str] = []
    for word in words.split():
        bare = word.removeprefix("-")
        if group := GROUPS.get(bare) or PARTS.get(bare):
            some = members(group.crates, crates)
        elif bare.endswith("*"):
            some = [crate for crate in crates if crate.startswith(bare.removesuffix("*"))]
        else:
            some = [crate for crate in crates if bare in ("all", crate)] or [bare] * ("::" in bare)
        found = [it for it in found if it not in some] if word != bare else [*found, *some]
    return list(dict.fromkeys(found))


def path_to(target: str, crate: str, listed: dict[str, list[str]]) -> list[str]:
    """The shortest list of crates from this one to the target, each named by the one before; empty if there is none.
    The target is a crate that is named anywhere in a crate's files, or an item that is named in its code."""
    paths, seen = [[crate]], {crate}
    for path in paths:
        named = named_in_code(path[-1]) if "::" in target else listed.get(path[-1], [])
        if target in named:
            return [*path, target]
        for library in listed.get(path[-1], []):
            if library in listed and library not in seen:
                seen.add(library)
                paths.append([*path, library])
    return []


def broken(rule: Rule, listed: dict[str, list[str]]) -> Iterator[str]:
    """For each crate that breaks the rule, a line with the crate and how it comes to what the rule forbids. A path
    through another crate of the rule is left out, since the rest of it has a line of its own."""
    crates, others = members(rule.crates, listed), members(rule.others, listed)
    if rule.kind is Kind.RESERVED:
        free = {*crates, *others}
        for user in listed:
            yield from (
                f"{user} names {it}, which only {wording(rule.others)} may name"
                for it in crates
                if user not in free and it in named_in_code(user)
            )
        return
    for at, crate in enumerate(crates):
        for other in crates[at + 1 :] if rule.kind is Kind.ORDERED else others:
            if rule.kind is Kind.UNNAMED and other in named_in_code(crate):
                yield f"{crate} names {other} in its code"
            elif rule.kind is not Kind.UNNAMED and other != crate:
                path = path_to(other, crate, listed)
                if path and not {*path[1:-1]} & {*crates, *others}:
                    yield f"{crate} depends on {other}: {' -> '.join(path)}"


def unknown(listed: dict[str, list[str]]) -> Iterator[str]:
    """Words of groups and rules that mean nothing, and crates that are not in exactly one group."""
    said = [group.crates for group in (*GROUPS.values(), *PARTS.values())]
    said += [f"{rule.crates} {rule.others}" for rule in RULES]
    words = dict.fromkeys(word.removeprefix("-") for text in said for word in text.split())
    for word in words:
        if not members(word, listed):
            yield f"tools/libraries.py: a rule or a group has {word}, which is not a crate"
    for crate in listed:
        groups = [name for name in GROUPS if crate in members(name, listed)]
        if len(groups) != 1:
            yield f"tools/libraries.py: {crate} is in {' and '.join(groups) or 'none'} of GROUPS"


def broken_rules(listed: dict[str, list[str]]) -> list[str]:
    """All lines about groups and rules."""
    return [*unknown(listed), *(f"{line}. {rule.reason}" for rule in RULES for line in broken(rule, listed))]


def wording(words: str) -> str:
    """The words of a rule for the table."""
    kept = [written(word) for word in words.split() if word[0] != "-"]
    left = [written(word[1:]) for word in words.split() if word[0] == "-"]
    return ", ".join(kept) + (f" except {', '.join(left)}" if left else "")


def written(word: str) -> str:
    """One word of a rule for the table."""
    if word == "all":
        return "all other crates"
    return word if word in GROUPS or word in PARTS else f"`{word}`"


def tables() -> list[str]:
    """The lines of the tables of groups and rules."""
    lines = ["| group | crates | what they are for |", "|---|---|---|"]
    for name, group in {**GROUPS, **PARTS}.items():
        lines.append(f"| {name} | {wording(group.crates)} | {group.purpose} |")
    lines += ["", "| crates | rule | crates | reason |", "|---|---|---|---|"]
    for crates, kind, others, reason in RULES:
        lines.append(f"| {wording(crates)} | {kind.value} | {wording(others)} | {reason} |")
    return lines


def with_tables(page: str) -> str:
    """The page with the tables between their marks."""
    before, _, rest = page.partition(f"{BEGIN}\n")
    _, _, after = rest.partition(f"{END}\n")
    return "\n".join([before + BEGIN, "", *tables(), "", END, after])


def wrong_map(page: str, listed: dict[str, list[str]]) -> Iterator[str]:
    """What is wrong with the map of the page: a crate that it lacks, or one that is not above a crate that it names."""
    found = MAP.search(page)
    rows = found[1].split("\n") if found else []
    row_of = {name: at for at, row in enumerate(rows) for name in row.split()}
    for crate in listed:
        if crate in members("tests", listed):
            continue
        if crate not in row_of:
            yield f"{PAGE}: the map lacks {crate}"
        yield from (
            f"{PAGE}: the map has {crate} not above {library}, which it names"
            for library in listed[crate]
            if row_of.get(library, len(rows)) <= row_of.get(crate, -1)
        )


def main(words: list[str]) -> int:
    if words not in ([], ["--write"], ["--table"]):
        print(__doc__, file=sys.stderr)
        return 2
    if words == ["--table"]:
        print("\n".join(tables()))
        return 0
    text, page = LISTING.read_text(encoding="utf-8"), PAGE.read_text(encoding="utf-8")
    if not 0 <= page.find(f"{BEGIN}\n") < page.find(f"{END}\n"):
        print(f"{PAGE} lacks the lines {BEGIN} and {END}, between which its tables are")
        return 1
    listed = lines_of(text)
    libraries = [*listed, *sorted({it for found in listed.values() for it in found} - set(listed))]
    said: list[str] = []
    for crate, present in listed.items():
        named = named_by(crate)
        wanted = [it for it in libraries if it in named]
        if set(present) != set(wanted):
            said.append(f"{LISTING}: {crate} names {' '.join(present)}; its sources name {' '.join(wanted)}")
            text = re.sub(rf"^{crate}:.*$", f"{crate}: {' '.join(wanted)}".rstrip(), text, flags=re.M)
    if words:
        LISTING.write_text(text, encoding="utf-8")
        PAGE.write_text(with_tables(page), encoding="utf-8")
        return 0
    said += broken_rules(listed)
    said += wrong_map(page, listed)
    if page != with_tables(page):
        said.append(f"{PAGE}: its tables of groups and rules differ: tools/libraries.py --write")
    print("\n".join([*said, f"{len(RULES)} rules on {len(listed)} crates; findings: {len(said) or 'none'}"]))
    return 1 if said else 0


if __name__ == "__main__":
    sys.exit(main(sys.argv[1:]))
