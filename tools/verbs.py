#!/usr/bin/env python3
"""Makes the table of commands of docs/PROTOCOL.md, and the tables of the front, from the sources of the program.

A row has a verb's name, the fields of its shape, and the comment at its variant of Action or Change in
lf_proto/src/verb.rt. That comment says what the verb does, then its reply and the numbers of its refusals. The rows are
in the order of VERBS. The row of open comes first and the row of bye last; both are made from the comments in
src/request.rt.

front/lefence/base/tables.py has the verbs of the same sources. A verb changes the floor if it is no query by
`is_query` of lf_floor_model, and makes a revision if it is a Change. The table also has the refusals of src/reply.rt,
with the numbers and names of src/reply_words.rt, the rules of lf_rules, and the orientations. front/tcl/tables.tcl has
the verbs for Tcl.

usage: tools/verbs.py            (from the top) prints the table
       tools/verbs.py --check    prints the lines in which the page and the front's tables differ, and verbs or refusals
                                 that the client library lacks; finally 'N commands agree'; status 1 if anything differs
       tools/verbs.py --write    writes the table into the page, and the front's tables
"""

from __future__ import annotations

import ast
import difflib
import re
import sys
from dataclasses import dataclass
from pathlib import Path

SOURCES = Path("crates/lf_proto/src")
RULES = Path("crates/lf_rules/src/rule.rt")
ORIENTS = Path("crates/lf_orient/src/lib.rt")
LOOKS = Path("crates/lf_floor_model/specs/Journals.antt")
PAGE = Path("docs/PROTOCOL.md")
TABLES = Path("front/lefence/base/tables.py")
TCL = Path("front/tcl/tables.tcl")
CLIENT = Path("front/lefence/client/verbs.py")
REFUSALS = Path("front/lefence/client/refusals.py")
HEAD = ["| line | reply | what it does | refusals |", "|---|---|---|---|"]
# A line of an enum that begins a variant, and the last paragraph of a command's comment.
VARIANT = re.compile(r"    (\w+)\b")
ANSWERS = re.compile(r"Reply: (.*?)\.(?: Refusals: ([\d, ]+)\.)?")
# The words after `ok` of a reply.
WORDS = re.compile(r"`ok((?: [A-Z]+)*)`")
# A line of is_query: a command of a session, with named operands, is a query.
LOOK = re.compile(r"is_query \(To team \(Within session \(?(\w+)(?: \w+)*\)?\)\) = true")
# The number and the name of a refusal, as put_refusal has them.
NUMBERED = re.compile(r'b"(\d+)"\)?,\s*(?:Word::Text\()?b"(\w+)"')
HEADING = '''"""The verbs, refusals, rules and orientations of the program.

tools/verbs.py --write generates this file from the program's sources: edit those.
"""

from __future__ import annotations

# A verb of a team: its name, its fields after TEAM (and N), the words of its reply after `ok`, whether an accepted one
# changes later replies, whether it makes a revision of the team, and what it does.'''
# The most columns of a line of the front.
WIDEST = 120


class NotThere(Exception):
    """A source lacks a part of a row."""


@dataclass(frozen=True)
class Verb:
    """A verb of a session: its variant, its name, and the fields of its shape, with a space in front, or an empty
    text."""

    variant: str
    name: str
    fields: str


def comments(text: str, name: str) -> dict[str, list[str]]:
    """The paragraphs of the comment of each variant of an enum."""
    body = re.search(rf"enum {name}\b.*?\{{\n(.*?)\n\}}", text, flags=re.S)
    if not body:
        raise NotThere(f"no enum {name}")
    found: dict[str, list[str]] = {}
    said: list[str] = []
    for line in body[1].split("\n"):
        if line.startswith("    ///"):
            said.append(line.removeprefix("    ///").strip())
        elif variant := VARIANT.match(line):
            found[variant[1]] = [paragraph.replace("\n", " ") for paragraph in "\n".join(said).split("\n\n")]
            said = []
    return found


def verbs_of(text: str) -> list[Verb]:
    """The verbs of a session in the order of VERBS."""
    names: dict[str, str] = dict(re.findall(r'Verb::(\w+) => b"(\w+)"', text))
    shapes: dict[str, str] = dict(re.findall(r"Verb::(\w+) => Shape::(\w+)", text))
    fields = {shape: "".join(re.findall("`(.*)`", said[0])) for shape, said in comments(text, "Shape").items()}
    listed = re.search(r"const VERBS: .*?= \[(.*?)\];", text, flags=re.S)
    if not listed:
        raise NotThere("no list VERBS")
    found: list[Verb] = []
    for variant in re.findall(r"Verb::(\w+)", listed[1]):
        if variant not in names or shapes.get(variant) not in fields:
            raise NotThere(f"no name or no shape of {variant}")
        found.append(Verb(variant, names[variant], f" {fields[shapes[variant]]}".rstrip()))
    return found


def row(line: str, said: list[str]) -> str:
    """The row of a command, from its line and the paragraphs of its comment."""
    answers = ANSWERS.fullmatch(said[-1])
    if len(said) != 2 or not answers:
        raise NotThere(f"no reply of {line}")
    what = said[0][0].lower() + said[0][1:].removesuffix(".")
    return f"| `{line}` | {answers[1]} | {what} | {answers[2] or ''} |"


def table() -> list[str]:
    """The lines of the table, from the sources."""
    text = (SOURCES / "verb.rt").read_text(encoding="utf-8")
    request = (SOURCES / "request.rt").read_text(encoding="utf-8")
    said = comments(text, "Action") | comments(text, "Change")
    rows = [row("open TEAM", comments(request, "TeamCommand").get("Open", [""]))]
    rows += [row(f"{verb.name} TEAM N{verb.fields}", said.get(verb.variant, [""])) for verb in verbs_of(text)]
    return [*HEAD, *rows, row("bye", comments(request, "Command").get("Bye", [""]))]


def looks(text: str) -> set[str]:
    """The variants of Action that change nothing, by the lines of is_query. Each line must have a known form."""
    lines = re.findall(r"^is_query .*", text, flags=re.M)
    found = {look[1] for line in lines if (look := LOOK.fullmatch(line))}
    if len(found) != len(lines) - 2 or lines[0] != "is_query Bye = true" or lines[-1] != "is_query _ = false":
        raise NotThere(f"lines of is_query in {LOOKS} are of a form that is not known")
    return found


def front_verbs(request: str, verb_text: str) -> list[str]:
    """The lines of the verbs in the front's table."""
    enums = ((verb_text, "Change"), (verb_text, "Action"), (request, "TeamCommand"))
    changes, actions, orders = (comments(text, name) for text, name in enums)
    unchanging = looks(LOOKS.read_text(encoding="utf-8"))
    if not unchanging <= actions.keys() - {"Change"}:
        raise NotThere(f"a query of {LOOKS} is no action that changes nothing")
    verbs = [Verb("Open", "open", ""), *verbs_of(verb_text)]
    said = orders | actions | changes
    if left := (said.keys() - {verb.variant for verb in verbs}) - {"Within", "Change"}:
        raise NotThere(f"VERBS lacks {', '.join(sorted(left))}")
    lines: list[str] = []
    for verb in verbs:
        is_change, makes_revision = verb.variant not in unchanging, verb.variant in changes
        lines += front_verb(verb, said.get(verb.variant, [""]), is_change, makes_revision)
    return lines


def front_verb(verb: Verb, said: list[str], is_change: bool, makes_revision: bool) -> list[str]:
    """The line of a verb in the front's table, or two lines if it is too long."""
    answers = ANSWERS.fullmatch(said[-1])
    reply = WORDS.match(answers[1]) if answers else None
    if len(said) != 2 or not reply:
        raise NotThere(f"no reply of {verb.name}")
    if makes_revision and not reply[1].startswith(" REV"):
        raise NotThere(f"the reply of {verb.name} does not begin with its revision")
    what = said[0][0].lower() + said[0][1:].removesuffix(".")
    fields, replied = listed(verb.fields.split()), listed(reply[1].split())
    words = (quoted(verb.name), fields, replied, str(is_change), str(makes_revision))
    line = f"    ({', '.join(words)}, {quoted(what)}),"
    return [line] if len(line) <= WIDEST else [f"    ({', '.join(words)},", f"     {quoted(what)}),"]


def quoted(text: str) -> str:
    """The text in quotes, as in Python."""
    return '"' + text.replace("\\", "\\\\").replace('"', '\\"') + '"'


def listed(words: list[str]) -> str:
    """The words as a Python tuple."""
    return "(" + ", ".join(map(quoted, words)) + ("," if len(words) == 1 else "") + ")"


def refusals() -> dict[int, str]:
    """The refusals of the program by their numbers, which begin at 1 and have no gap."""
    variants = list(comments((SOURCES / "reply.rt").read_text(encoding="utf-8"), "Refusal"))
    words = (SOURCES / "reply_words.rt").read_text(encoding="utf-8")
    found = {int(number): name for number, name in NUMBERED.findall(words)}
    if [found[number] for number in sorted(found)] != variants or sorted(found) != list(range(1, len(found) + 1)):
        raise NotThere("the refusals of reply.rt are not those that reply_words.rt numbers")
    return dict(sorted(found.items()))


def rules() -> dict[int, str]:
    """The rules by their numbers."""
    text = RULES.read_text(encoding="utf-8")
    found = {int(number): name for name, number in re.findall(r"Rule::(\w+) => (\d+)", text)}
    if [found[number] for number in sorted(found)] != list(comments(text, "Rule")):
        raise NotThere(f"the rules of {RULES} are not those that it numbers")
    return found


def front_tables() -> list[str]:
    """The lines of the front's tables."""
    verb_text, request = ((SOURCES / name).read_text(encoding="utf-8") for name in ("verb.rt", "request.rt"))
    orients = re.findall(r'Orient::\w+ => b"(\w+)"', ORIENTS.read_text(encoding="utf-8"))
    if len(orients) != 8:
        raise NotThere(f"not eight orientations in {ORIENTS}")
    lines = [*HEADING.split("\n")]
    lines += ["VERBS: tuple[tuple[str, tuple[str, ...], tuple[str, ...], bool, bool, str], ...] = ("]
    lines += [*front_verbs(request, verb_text), ")", ""]
    for what, name, table in (("refusals", "REFUSALS", refusals()), ("rules of a place", "RULES", rules())):
        entries = (f"    {number}: {quoted(it)}," for number, it in table.items())
        lines += [f"# The names of the {what} by their number.", f"{name} = {{", *entries, "}", ""]
    return [*lines, f"ORIENTS = {listed(orients)}", ""]


def tcl_tables(tables: list[str]) -> list[str]:
    """The lines of the Tcl table, made from the front's tables: what a proc needs of each verb."""
    body = ast.parse("\n".join(tables)).body
    [verbs] = [each.value for each in body if isinstance(each, ast.AnnAssign) and each.value]
    rows = ast.literal_eval(verbs)
    head = "the fields after TEAM and N, the words of the reply after ok, and what the verb does."
    lines = [f"# The verbs of the program: {head}"]
    lines += ["# tools/verbs.py --write generates this file from the program's sources: edit those.", ""]
    lines += ["namespace eval lefence {", "    variable VERBS {"]
    for name, fields, reply, _, _, text in rows:
        if set(text) & set("{}\\"):
            raise NotThere(f"the comment of {name} has braces or backslashes, which the table of Tcl cannot have")
        head = f"        {name} {{fields {{{' '.join(fields)}}} reply {{{' '.join(reply)}}}"
        line = f"{head} does {{{text}}}}}"
        lines += [line] if len(line) <= WIDEST else [head, f"            does {{{text}}}}}"]
    return [*lines, "    }", "}", ""]


def lacking() -> list[str]:
    """What the client library lacks: functions of CLIENT that make a verb's line, and classes of REFUSALS with a
    refusal's number."""
    client = CLIENT.read_text(encoding="utf-8")
    pairs = set(re.findall(r'scope\.line\("(\w+)"|f"(\w+) \{name\(team\)\}', client))
    names = {first or second for first, second in pairs}
    verb_text = (SOURCES / "verb.rt").read_text(encoding="utf-8")
    wanted = ["open", *(verb.name for verb in verbs_of(verb_text))]
    said = [f"{CLIENT} has no request of {name}" for name in wanted if name not in names]
    kinds = [node for node in ast.parse(REFUSALS.read_text(encoding="utf-8")).body if isinstance(node, ast.ClassDef)]
    classes = [(kind.name, number) for kind in kinds for number in numbers_of(kind)]
    numbers = [number for _, number in classes]
    twice = [number for number in dict.fromkeys(numbers) if numbers.count(number) > 1]
    missing = [(number, name) for number, name in refusals().items() if (name, number) not in classes]
    said += [f"{REFUSALS} has two classes of number {number}" for number in twice]
    return said + [f"{REFUSALS} has no class {name} of number {number}" for number, name in missing]


def numbers_of(kind: ast.ClassDef) -> list[object]:
    """The values that the class assigns to `number`."""
    assigned = (node for node in kind.body if isinstance(node, ast.Assign))
    values = (node.value for node in assigned if ast.unparse(node.targets[0]) == "number")
    return [value.value for value in values if isinstance(value, ast.Constant)]


def differing(had: list[str], made: list[str], path: Path, what: str) -> bool:
    """Whether a file's lines differ from the generated ones. Prints the differences."""
    if had != made:
        print("\n".join(difflib.unified_diff(had, made, str(path), "the sources", n=0, lineterm="")))
        print(f"{what}: tools/verbs.py --write")
    return had != made


def main(words: list[str]) -> int:
    if words not in ([], ["--check"], ["--write"]):
        print(__doc__, file=sys.stderr)
        return 2
    page = PAGE.read_text(encoding="utf-8").split("\n")
    try:
        made, tables, lacks = table(), front_tables(), lacking()
        tcl = tcl_tables(tables)
    except NotThere as error:
        print(f"{SOURCES}: {error}")
        return 1
    if not words:
        print("\n".join(made))
        return 0
    start = page.index(HEAD[0]) if HEAD[0] in page else len(page)
    stop = next((at for at in range(start, len(page)) if not page[at].startswith("|")), len(page))
    if words == ["--write"]:
        PAGE.write_text("\n".join([*page[:start], *made, *page[stop:]]), encoding="utf-8")
        TABLES.write_text("\n".join(tables), encoding="utf-8")
        TCL.write_text("\n".join(tcl), encoding="utf-8")
    else:
        differs = [differing(page[start:stop], made, PAGE, "the table of commands differs")]
        generated = ((TABLES, tables, "the front's tables differ"), (TCL, tcl, "the table of Tcl differs"))
        for path, lines, what in generated:
            had = path.read_text(encoding="utf-8").split("\n") if path.exists() else []
            differs.append(differing(had, lines, path, what))
        if any(differs):
            return 1
    print("\n".join(lacks) or f"{len(made) - len(HEAD)} commands agree")
    return 1 if lacks else 0


if __name__ == "__main__":
    sys.exit(main(sys.argv[1:]))
