"""Files that are replaced as a whole, or not at all."""

from __future__ import annotations

import os
import shlex
import signal
import subprocess
import unittest
from pathlib import Path
from unittest import mock

from support import PATIENCE, PROGRAM, FrontCase, tool_words, wait_until

from lefence.base.atomic_file import atomic_file


class WholeFiles(FrontCase):
    def test_the_file_gets_its_name_at_the_end(self) -> None:
        target, link = self.folder / "x", self.folder / "link"
        link.symlink_to(target)
        with atomic_file(link, 0o600) as file:
            self.assertEqual((self.folder / "x.partial0").stat().st_mode & 0o777, 0o600)
            file.write(b"one")
            self.assertFalse(target.exists())
        target.chmod(0o640)
        (self.folder / "x.partial0").write_bytes(b"another's")
        with atomic_file(link) as file:
            file.write(b"two")
            self.assertEqual(
                (target.read_bytes(), (self.folder / "x.partial1").stat().st_mode & 0o777), (b"one", 0o600)
            )
        self.assertEqual((target.read_bytes(), target.stat().st_mode & 0o777, link.is_symlink()), (b"two", 0o640, True))
        self.assertEqual(sorted(os.listdir(self.folder)), ["link", "t.def", "t.lef", "x", "x.partial0"])

    def test_the_bytes_are_synced_before_the_file_gets_its_name(self) -> None:
        steps, sizes = mock.Mock(), []
        steps.replace.side_effect = os.rename
        steps.fsync.side_effect = lambda end: sizes.append(os.fstat(end).st_size)
        with mock.patch("os.fsync", steps.fsync), mock.patch("os.replace", steps.replace), atomic_file(
            self.folder / "x"
        ) as file:
            file.write(b"one")
        self.assertEqual(([call[0] for call in steps.mock_calls], sizes[0]), (["fsync", "replace", "fsync"], 3))

    def test_an_exception_keeps_the_old_file(self) -> None:
        target = self.folder / "x"
        listings: tuple[list[str], ...] = ([], ["x"])
        for before in listings:
            with self.assertRaises(KeyError), atomic_file(target) as file:
                file.write(b"half")
                raise KeyError
            self.assertEqual(sorted(os.listdir(self.folder)), ["t.def", "t.lef", *before])
            target.write_bytes(b"old")
        self.assertEqual(target.read_bytes(), b"old")

    def test_a_full_disk_keeps_the_old_file(self) -> None:
        target = self.folder / "x.svg"
        for words in (
            ["slice", "t.def", "--team", "f0", "--output"],
            *([tool, "t.def", "t.lef", "-o"] for tool in ("picture", "report")),
        ):
            target.write_bytes(b"old")
            tool = shlex.join([*tool_words(f"lefence-{words[0]}"), *words[1:], str(target), *["--program", PROGRAM]])
            done = subprocess.run(
                ["sh", "-c", f"ulimit -f 1; {tool}"], cwd=self.folder, capture_output=True, text=True, timeout=PATIENCE
            )
            self.assertEqual(
                (done.returncode, "File too large" in done.stderr, target.read_bytes()), (3, True, b"old"), done.stderr
            )
            self.assertEqual(sorted(os.listdir(self.folder)), ["t.def", "t.lef", "x.svg"])

    def test_a_terminated_tool_leaves_no_partial_file(self) -> None:
        words = ["t.def", "t.lef", "--output", "x", "--program", self.describing("exec sleep 3600")]
        before = sorted(os.listdir(self.folder))
        with subprocess.Popen([*tool_words("lefence-markers"), *words], cwd=self.folder) as tool:
            wait_until((self.folder / "x.partial0").exists)
            tool.terminate()
        self.assertEqual((tool.returncode, sorted(os.listdir(self.folder))), (128 + signal.SIGTERM, before))

    def test_a_device_is_written_directly(self) -> None:
        reader, writer = os.pipe()
        with atomic_file(Path(f"/dev/fd/{writer}")) as file:
            file.write(b"x")
        os.close(writer)
        self.assertEqual(os.read(reader, 9), b"x")
        os.close(reader)


if __name__ == "__main__":
    unittest.main()
