"""Lines and replies of docs/PROTOCOL.md: fields, verbs, and the numbers of refusals and rules.

This module knows only their form. The program defines what a command does; `tables` is generated from its sources.
"""

from __future__ import annotations

import string
from dataclasses import dataclass

from . import tables

# The most bytes of a line with a carriage return at its end. A longer line is one bad request.
MOST_LINE = 4096
# The most lines that one run of `lefence replay` answers; the hub requests this many.
MOST_LINES = 4_294_967_295
# The default number of session slots of a team, and the most.
SLOTS, MOST_SLOTS = 8, 64
# The greatest number of a session and of a revision.
MOST_NUMBER = 4_294_967_295
ORIENTS = tables.ORIENTS
# The orientations as OpenAccess and many Tcl tools spell them. Replies use the first spelling of each.
OPENACCESS = {
    "R0": "N",
    "R90": "W",
    "R180": "S",
    "R270": "E",
    "MY": "FN",
    "MXR90": "FW",
    "MX": "FS",
    "MYR90": "FE",
    "MX90": "FW",
    "MY90": "FE",
}
# The ground team, outside all fences.
GROUND = "-"

_LINE_BYTES = bytes([9, 32, *range(33, 127)])
# The most digits of the length of a text.
_MOST_DIGITS = 18
_PLAIN_BYTES = (string.ascii_letters + string.digits + "_-").encode()


class ProtocolError(Exception):
    """A reply that does not have the form of PROTOCOL. The other end is not lefence, or has another version."""


@dataclass(frozen=True)
class Verb:
    """A verb of a team, with its fields after TEAM (and N), and the words of its reply.

    `is_change`: an accepted one may change later replies. `makes_revision`: it makes a revision of the team. `text`:
    what it does.
    """

    name: str
    fields: tuple[str, ...]
    reply: tuple[str, ...]
    is_change: bool
    makes_revision: bool
    text: str


VERBS = {row[0]: Verb(*row) for row in tables.VERBS}

# Verbs that, if accepted, may change later replies. The journal keeps only these. The program's theorem
# (docs/THEOREM.md) allows to leave out the others.
CHANGE_VERBS = frozenset(name.encode() for name, verb in VERBS.items() if verb.is_change)
# Verbs that, if accepted, make a revision of the team, the first word of the reply.
REVISIONS = frozenset(name.encode() for name, verb in VERBS.items() if verb.makes_revision)
# Verbs whose replies may have any length: those with other words than these, which are short.
_SHORT = frozenset("N REV X Y O MOVED".split())
UNBOUNDED = frozenset(name.encode() for name, verb in VERBS.items() if not _SHORT.issuperset(verb.reply))

# Refusals of the hub; then all refusals by number.
HUB_REFUSALS = {13: "NotExported", 14: "Frozen", 15: "QueriesOnly"}
REFUSALS = {**tables.REFUSALS, **HUB_REFUSALS}
# The names of the rules of a place by number.
RULES = tables.RULES


def fields_of(line: bytes) -> list[bytes]:
    """Returns the fields of a line without its line feed; an empty list if the line is a bad request or is blank."""
    body = line.removesuffix(b"\r")
    return [] if len(line) > MOST_LINE or body.translate(None, _LINE_BYTES) else body.split()


def is_number(word: bytes) -> bool:
    """Whether a field is a number of a session or a revision."""
    return word.isdigit() and len(word) <= len(str(MOST_NUMBER)) and int(word) <= MOST_NUMBER


def is_accepted(reply: bytes) -> bool:
    """Whether a reply accepts its command."""
    return reply == b"ok\n" or reply.startswith(b"ok ")


def on_one_line(text: str) -> bytes:
    """Escapes what is not printable, for the end of a reply."""
    return "".join(each if " " <= each <= "~" else each.encode("unicode_escape").decode() for each in text).encode()


def is_change(fields: list[bytes], reply: bytes) -> bool:
    """Whether a line with this reply may have changed later replies."""
    return bool(fields) and fields[0] in CHANGE_VERBS and is_accepted(reply)


def text_length(line: bytes, reply: bytes) -> int:
    """Returns the bytes of text after the line feed of a reply: not 0 only for an accepted `def`."""
    if line.split(maxsplit=1)[:1] != [b"def"] or not reply.startswith(b"ok "):
        return 0
    length = reply[3:].strip()
    if not length.isdigit() or len(length) > _MOST_DIGITS:
        raise ProtocolError(f"unexpected reply {reply!r} to {line!r}")
    return int(length)


def socket_name(team: str | None) -> str:
    """Returns the file name of a team's socket, or of the operator's if `team` is None.

    Bytes other than letters, digits, `_` and `-` become %XX. A team named operator gets %6Fperator.sock, so that all
    names differ.
    """
    if team is None:
        return "operator.sock"
    plain = "".join(chr(byte) if byte in _PLAIN_BYTES else f"%{byte:02X}" for byte in team.encode())
    return ("%6Fperator" if plain == "operator" else plain) + ".sock"


def query_socket_name(team: str) -> str:
    """Returns the file name of a team's query socket."""
    return socket_name(team).removesuffix("sock") + "query.sock"


def team_of_query_socket(name: str) -> str | None:
    """Returns the team whose query socket has this file name, or None if it is not one."""
    return team_of_socket(name.removesuffix("query.sock") + "sock") if name.endswith(".query.sock") else None


def team_of_socket(name: str) -> str | None:
    """Returns the team whose socket has this file name, or None if it is the operator's or not a team's."""
    stem, dot, ending = name.rpartition(".")
    if not dot or ending != "sock" or stem == "operator":
        return None
    try:
        head, *rest = stem.split("%")
        team = head + "".join(chr(int(piece[:2], 16)) + piece[2:] for piece in rest)
    except ValueError:
        return None
    return team if team and socket_name(team) == name else None
