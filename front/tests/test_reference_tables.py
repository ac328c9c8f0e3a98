"""The tables of docs/HUB.md, CLIENTS.md and TOOLS.md have each option, key and tool that there is, and no other."""

from __future__ import annotations

import importlib
import inspect
import re
import subprocess
import tomllib
import unittest

from support import FRONT, HubCase, tool_words

from lefence.base.protocol import HUB_REFUSALS
from lefence.hub.metrics import prometheus
from lefence.hub.status import read_status

DOCS = FRONT.parent / "docs"
PAGES = {name: (DOCS / name).read_text(encoding="utf-8") for name in ("HUB.md", "CLIENTS.md", "TOOLS.md")}
# The keys of the status of a program, and of a slow line.
PROGRAM_KEYS = {"pid", "bytes", "restores", "batch_seconds_p50", "batch_seconds_p99", "teams", "cells"}
OPTION = re.compile(r"(?<![\w-])--[a-z][a-z-]*")
# Options that each tool has.
COMMON = {"--help", "--version", "--program"}


def options_of(tool: str, *verb: str) -> set[str]:
    """The options in the usage of a tool, or of one of its verbs."""
    done = subprocess.run([*tool_words(tool), *verb, "--help"], capture_output=True, text=True, check=True)
    return set(OPTION.findall(done.stdout.partition("\noptions:\n")[2].partition("\nexample:\n")[0]))


def tables_in(page: str, heading: str) -> list[list[list[str]]]:
    """The tables of the section with this heading, each a list of rows of cells."""
    text = "\n" + PAGES[page]
    start = text.index(f"\n{heading}\n") + 1
    level = heading.partition(" ")[0]
    end = re.compile(rf"^#{{1,{len(level)}}} ", re.M).search(text, start + len(heading))
    tables: list[list[list[str]]] = []
    before = ""
    for line in text[start : end.start() if end else len(text)].splitlines():
        if line.startswith("|"):
            if not before.startswith("|"):
                tables.append([])
            tables[-1].append([cell.strip() for cell in line.strip("|").split(" | ")])
        before = line
    return tables


def keys_in(table: list[list[str]]) -> set[str]:
    """The names between backticks in the first cells of a table's rows."""
    return {key for row in table[2:] for key in re.findall(r"`(\w+)`", row[0])}


def verbs_in(cell: str) -> list[str]:
    """The words between backticks in a cell."""
    return re.findall(r"`([a-z-]+)`", cell)


class Tables(HubCase):
    def test_each_option_of_the_hub_is_in_the_table(self) -> None:
        [table] = tables_in("HUB.md", "### Options")
        found = {option for row in table for option in OPTION.findall(row[0])}
        self.assertEqual(found, options_of("lefence-hub") - {"--help", "--version"})

    def test_each_verb_of_the_journal_and_its_options_are_in_the_tables(self) -> None:
        commands, options = tables_in("HUB.md", "### The tool `lefence-journal`")
        verbs = {row[0].split()[1] for row in commands[2:]}
        usage = subprocess.run([*tool_words("lefence-journal"), "--help"], capture_output=True, text=True).stdout
        self.assertEqual(verbs, set(re.findall(r"^    ([a-z-]+)(?: |$)", usage, re.M)))
        found = {(verb, option) for row in options for option in OPTION.findall(row[0]) for verb in verbs_in(row[1])}
        known = {(verb, option) for verb in verbs for option in options_of("lefence-journal", verb)}
        self.assertEqual(found, {(verb, option) for verb, option in known if option != "--help"})

    def test_each_key_of_the_status_is_in_a_table(self) -> None:
        self.start("--slow", "1e-9", "--programs", "2")
        self.talk("f0").ask("open f0", "place f0 0 f0c1 0 0 N")
        status = read_status(self.folder / "s")
        whole, team, program, slow = tables_in("HUB.md", "### Keys of the status")
        self.assertEqual(keys_in(whole), set(status))
        self.assertEqual(keys_in(team), set(status["teams"][0]))
        self.assertEqual((keys_in(program), PROGRAM_KEYS), (set(status["programs"][0]), set(status["programs"][0])))
        self.assertEqual(keys_in(slow), set(status["slow_lines"][0]))
        # Their last column has the kind of the metric, if there is one; a team's name is a label.
        metrics = dict(re.findall(r"^# TYPE (\w+) (\w+)$", prometheus(status), re.M))
        for table, prefix in ((whole, "lefence_"), (team, "lefence_team_")):
            for row in table[2:]:
                for key in keys_in([[], [], row]):
                    kind = row[3].partition(":")[0].removeprefix("label")
                    self.assertEqual(metrics.get(prefix + key, ""), kind, key)

    def test_each_tool_is_on_a_page(self) -> None:
        project = tomllib.loads((FRONT / "pyproject.toml").read_text(encoding="utf-8"))["project"]
        tools = tables_in("TOOLS.md", "# Tools")[0]
        found = {name for row in tools for name in re.findall(r"`(lefence-\w+)`", row[0])}
        self.assertEqual(found, set(project["scripts"]))

    def test_options_in_tables_are_those_of_the_tools(self) -> None:
        for page, heading, tool, is_whole in (
            ("CLIENTS.md", "## The shell", "lefence-shell", True),
            ("CLIENTS.md", "### Work on a slice", "lefence-slice", True),
            ("CLIENTS.md", "### Places of a DEF text", "lefence-push", True),
            ("TOOLS.md", "## From your flow", "lefence-prepare", False),
            ("TOOLS.md", "## Filler cells", "lefence-fill", False),
            ("TOOLS.md", "## The next netlist", "lefence-carry", True),
            ("TOOLS.md", "## Repairs", "lefence-repair", True),
            ("TOOLS.md", "## Improvements", "lefence-improve", True),
            ("TOOLS.md", "## Slices and farms", "lefence-farm", True),
        ):
            with self.subTest(tool):
                rows = [row for table in tables_in(page, heading) for row in table]
                # (the table of lefence-prepare has them in the second column)
                found = {option for row in rows for option in OPTION.findall(" ".join(row[: 1 if is_whole else None]))}
                known = options_of(tool)
                self.assertLessEqual(found, known)
                if is_whole:
                    # (--out is another name of --output)
                    self.assertEqual(known - found - COMMON, {"--out"} & known)

    def test_each_refusal_of_the_hub_is_on_its_page(self) -> None:
        for number, name in HUB_REFUSALS.items():
            self.assertIn(f"`no {number} {name}`", PAGES["HUB.md"])

    def test_each_method_of_a_session_is_on_the_page(self) -> None:
        session = importlib.import_module("lefence").Session
        names = {name for name, _ in inspect.getmembers(session, callable) if not name.startswith("_")}
        methods = next(table for table in tables_in("CLIENTS.md", "## Python") if table[0][0] == "method")
        found = set(re.findall(r"`(\w+)\(", " ".join(row[0] for row in methods)))
        # (its `with` block calls the others)
        self.assertEqual(names - found, {"open", "close", "ask", "pipeline"})


if __name__ == "__main__":
    unittest.main()
