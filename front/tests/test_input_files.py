"""Compressed files and pipes: each tool takes them as plain files, and compresses what it writes by its name."""

from __future__ import annotations

import bz2
import gzip
import lzma
import subprocess
from collections.abc import Callable
from pathlib import Path
from unittest import main

from support import PATIENCE, PROGRAM, FrontCase, Hub, HubCase, tool_words

from lefence.base.design import Design
from lefence.hub.status import read_status

Coding = dict[str, Callable[[bytes], bytes]]
PACKERS: Coding = {".gz": gzip.compress, ".xz": lzma.compress, ".bz2": bz2.compress}
UNPACKERS: Coding = {".gz": gzip.decompress, ".xz": lzma.decompress, ".bz2": bz2.decompress}


class Tools(FrontCase):
    def packed(self, path: Path, ending: str) -> Path:
        """A compressed copy of a file in a folder of its own; its name says nothing of that if there is no ending."""
        copy = self.folder / "packed" / f"{path.name}{ending}"
        copy.parent.mkdir(exist_ok=True)
        copy.write_bytes(PACKERS[ending or ".gz"](path.read_bytes()))
        return copy

    def test_each_tool_takes_compressed_files(self) -> None:
        for ending in (*PACKERS, ""):
            design, lef = self.packed(self.design, ending), self.packed(self.lef, ending)
            for tool, before, after in (
                ("lefence-slice", (), ("--team", "f1")),
                ("lefence-prepare", (), ("--look",)),
                ("lefence-repair", (), ("--dry-run", "--team", "f1")),
                ("lefence-summary", (self.design,), ("--json",)),
                ("lefence-picture", (), ()),
            ):
                plain = self.tool(tool, *before, self.design, self.lef, *after, "--program", PROGRAM)
                done = self.tool(tool, *before, design, lef, *after, "--program", PROGRAM)
                self.assertEqual((done.returncode, done.stdout), (plain.returncode, plain.stdout), (tool, done.stderr))

    def test_outputs_are_compressed_by_their_names(self) -> None:
        self.assertEqual(self.tool("lefence-repair", self.design, self.lef, "-o", "plain.def").returncode, 0)
        expected = (self.folder / "plain.def").read_bytes()
        for ending in PACKERS:
            target = self.folder / f"new.def{ending}"
            source = self.packed(self.design, ending)
            self.assertEqual(self.tool("lefence-repair", source, self.lef, "-o", target).returncode, 0)
            self.assertEqual(UNPACKERS[ending](target.read_bytes()), expected)
            # (the input itself may be replaced)
            self.assertEqual(self.tool("lefence-repair", source, self.lef, "-o", source).returncode, 0)
            self.assertEqual(UNPACKERS[ending](source.read_bytes()), expected)

    def test_a_compressed_input_is_not_replaced(self) -> None:
        source = self.packed(self.design, ".gz")
        before = source.read_bytes()
        done = self.tool("lefence-slice", source, self.lef, "--team", "f1", "-o", source)
        self.assertEqual(
            (done.returncode, done.stderr.decode()),
            (2, f"lefence-slice: {source} is an input file, so it cannot be the output\n"),
        )
        self.assertEqual(source.read_bytes(), before)

    def test_messages_name_the_given_file(self) -> None:
        self.design.write_bytes(self.design.read_bytes().replace(b"f1c3 BUF", b"f1c3 NAND"))
        source = self.packed(self.design, ".gz")
        for words in (("lefence-slice", "--team", "f1"), ("lefence-repair", "--dry-run")):
            done = self.tool(words[0], source, self.lef, *words[1:])
            self.assertEqual(done.returncode, 1)
            self.assertIn(f"DEF file {source}, line ", done.stderr.decode())
            self.assertNotIn("/lefence-", done.stderr.decode().replace(str(self.folder), ""))

    def test_damaged_data_is_refused(self) -> None:
        for ending in PACKERS:
            source = self.packed(self.design, ending)
            whole = source.read_bytes()
            for damaged in (whole[: len(whole) // 2], whole[: len(whole) // 2] + b"\xff" * 40 + whole[-60:]):
                source.write_bytes(damaged)
                done = self.tool("lefence-repair", source, self.lef, "--dry-run")
                self.assertEqual(done.returncode, 1, done.stderr)
                self.assertIn(f"lefence-repair: {source}: the compressed data is damaged: ", done.stderr.decode())

    def test_a_pipe_is_read_once(self) -> None:
        plain = self.tool("lefence-slice", self.design, self.lef, "--team", "f1")
        packed = self.packed(self.design, ".gz")
        words = [*tool_words("lefence-slice"), "/dev/stdin", str(self.lef), "--team", "f1"]
        unpacking = subprocess.Popen(["gzip", "-dc", str(packed)], stdout=subprocess.PIPE)
        with unpacking:
            done = subprocess.run(words, stdin=unpacking.stdout, capture_output=True, check=False)
        self.assertEqual((done.returncode, done.stdout), (0, plain.stdout), done.stderr)
        # a compressed stream, too
        done = subprocess.run(words, input=packed.read_bytes(), capture_output=True, check=False)
        self.assertEqual((done.returncode, done.stdout), (0, plain.stdout), done.stderr)


class Hubs(HubCase):
    def test_a_hub_takes_and_exports_compressed_files(self) -> None:
        source, target = self.folder / "t.def.gz", self.folder / "new.def.gz"
        source.write_bytes(gzip.compress(self.design.read_bytes()))
        words = [str(source), str(self.lef), "--sockets", str(self.folder / "s"), "--journal", str(self.journal)]
        hub = Hub(self.folder, [*words, "--export", str(target), "--program", PROGRAM])
        self.addCleanup(hub.kill)
        self.assertIn(": ready:", hub.wait_ready())
        self.assertEqual(hub.end(), 0, hub.log_text())
        self.assertEqual(gzip.decompress(target.read_bytes()), self.design.read_bytes())
        self.assertEqual([*self.folder.glob("*.partial*")], [])
        # the kept copy is the plain text, and the next start finds it
        again = Hub(self.folder, [*words, "--program", PROGRAM], "log2")
        self.addCleanup(again.kill)
        self.assertIn(": ready:", again.wait_ready())
        kept = [path for path in self.folder.glob("journal.texts/*/*") if path.name == "t.def"]
        self.assertEqual(len(Design(kept[0].read_bytes()).fences), 8)

    def test_the_kept_text_of_a_compressed_file_is_used(self) -> None:
        source = self.folder / "t.def.gz"
        source.write_bytes(gzip.compress(self.design.read_bytes()))
        words = [str(source), str(self.lef), "--sockets", str(self.folder / "s"), "--journal", str(self.journal)]
        words += ["--program", PROGRAM, "--programs", "1"]

        def started(*extra: str) -> Hub:
            hub = Hub(self.folder, [*words, *extra])
            self.addCleanup(hub.kill)
            hub.wait_ready()
            return hub

        hub = started()
        self.assertEqual(self.talk("f0").ask("open f0", "pad f0 0 1"), ["ok 0 0", "ok 1"])
        self.assertEqual(read_status(self.folder / "s")["texts"][0]["path"], str(source))
        refused = f"no 13 NotExported {source} is the journal or a file of the design"
        self.assertEqual(self.talk("operator").ask(f"export {source}"), [refused])
        self.assertEqual(hub.end(), 0, hub.log_text())
        source.write_bytes(gzip.compress(self.design.read_bytes().replace(b"DESIGN t ;", b"DESIGN u ;")))
        hub = started()
        self.assertEqual(hub.process.wait(PATIENCE), 1)
        self.assertIn(f"{source} has changed since {self.journal} was made", hub.log_text())
        for is_missing in (False, True):
            if is_missing:
                source.unlink()
            hub = started("--kept-texts")
            self.assertEqual(self.talk("f0").ask("open f0"), ["ok 0 1"], hub.log_text())
            self.assertEqual(hub.end(), 0, hub.log_text())


if __name__ == "__main__":
    main()
