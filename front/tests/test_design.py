"""The front's reader of DEF files: tokens, statements and entries, on any Python."""

from __future__ import annotations

import random
import unittest

from support import SEED

from lefence.base.design import entries, section_parts, statements, words_in

WHITE = b" \t\r\n"
# The parts of random texts: white space, comments, complete and incomplete quotes, and words that contain them.
PIECES = (
    *(
        b" ",
        b"\t",
        b"\n",
        b"\r\n",
        b'# x ; " END\n',
        b"#\n",
        b'"a b"',
        b'" ; # \n"',
        b'"\\""',
        b'"\\\\"',
        b'"',
        b"\\",
        b";",
        b" ; ",
        b"- ",
    ),
    *(
        b"a",
        b"x;",
        b";x",
        b'x"y',
        b"a#b",
        b"END",
        b" END DESIGN ",
        b"COMPONENTS 1 ;",
        b" END COMPONENTS ",
        b"+ FIXED ",
        b"ENDEXT",
        b"BEGINEXT",
    ),
)


def plain_tokens(text: bytes) -> list[bytes]:
    """Splits a text into tokens, byte by byte."""
    found, at = [], 0
    while at < len(text):
        if text[at] in WHITE:
            at += 1
        elif text[at : at + 1] == b"#":
            at = text.find(b"\n", at) if b"\n" in text[at:] else len(text)
        else:
            word_end = next((end for end in range(at, len(text)) if text[end] in WHITE), len(text))
            stop = quote_end(text, at) or word_end
            found.append(text[at:stop])
            at = stop
    return found


def quote_end(text: bytes, start: int) -> int | None:
    """The end of the quoted text that starts here; None if there is none or it does not end."""
    at = start + 1
    while text[start : start + 1] == b'"' and at < len(text):
        if text[at : at + 1] == b'"':
            return at + 1
        at += 2 if text[at : at + 1] == b"\\" else 1
    return None


def plain_statement(tokens: list[bytes]) -> int:
    """The number of tokens in the first statement; all if it does not end."""
    section = tokens[0] in (b"COMPONENTS", b"REGIONS")
    last = [b"END", tokens[0]] if section else [b"ENDEXT"] if tokens[0] == b"BEGINEXT" else [b";"]
    if tokens[0] == b"END":
        return min(2, len(tokens))
    ends = (at + len(last) for at in range(1, len(tokens)) if tokens[at : at + len(last)] == last)
    return next(ends, len(tokens))


class Texts(unittest.TestCase):
    def texts(self) -> list[bytes]:
        rng = random.Random(f"{SEED} {self.id()}")
        return [b"".join(rng.choices(PIECES, k=rng.randrange(60))) for _ in range(3000)]

    def test_tokens_are_those_that_are_found_byte_by_byte(self) -> None:
        for text in self.texts():
            self.assertEqual(list(words_in(text)), plain_tokens(text), text)

    def test_statements_end_where_their_tokens_say(self) -> None:
        for text in self.texts():
            tokens = plain_tokens(text)
            found: list[list[bytes]] = []
            while tokens and (not found or found[-1][0] != b"END"):
                count = plain_statement(tokens)
                found.append(tokens[:count])
                tokens = tokens[count:]
            self.assertEqual([list(words_in(text[each.start : each.stop])) for each in statements(text)], found, text)

    def test_entries_have_their_words(self) -> None:
        text = b'COMPONENTS 4 ; # ; END COMPONENTS\n- a INV ; - b;\n"; - x" x ;\n- # -\n; - ; -c ;\n'
        text += b"END COMPONENTS END DESIGN"
        found = list(entries(text, statements(text), b"COMPONENTS"))
        words = [(b"a", [b"a", b"INV"]), (b"b;", [b"b;", b'"; - x"', b"x"]), (b"", []), (b"", [])]
        self.assertEqual([(each.name, each.words) for each in found], words)

    def test_the_head_of_a_section_ends_with_its_first_semicolon(self) -> None:
        for head, rest, names in (
            (b"COMPONENTS 2 ;", b" ;", [b"a", b"b"]),
            (b"COMPONENTS 2 entries ; # ;", b" entries ;", [b"a", b"b"]),
            (b"COMPONENTS 2;", b"\n- a INV ;", [b"b"]),
            (b"COMPONENTS ;", b"", [b"a", b"b"]),
        ):
            text = head + b"\n- a INV ;\n- b INV ;\nEND COMPONENTS\nEND DESIGN"
            _, found, entries_found = section_parts(text, statements(text)[0])
            self.assertEqual((found, [each.name for each in entries_found]), (rest, names), head)

    def test_long_texts_take_time_and_memory_in_proportion(self) -> None:
        many = 200_000
        for text in (
            b'"' + b"a " * many,
            b'"' + b"\\a" * many,
            b"- " + b'"a" ' * many,
            b"# \n" * many,
            b"COMPONENTS 1 ; - a " + b"b " * many,
        ):
            self.assertLessEqual(len(statements(text)), 2)
            self.assertLessEqual(len(list(words_in(text))), many + 10)


if __name__ == "__main__":
    unittest.main()
