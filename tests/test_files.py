"""Where `--export` writes: the bytes, the mode, other files in the folder, the status and the message.

No contract knows the contents of files.
"""

from __future__ import annotations

import os
import signal
import stat
import subprocess
import unittest
from pathlib import Path
from typing import IO

from program import DEF, DESIGN, LEF, InFolder, Service, Session, Start, free_port, preloading, run, small_files

# A session that places and commits the three cells of team A, and its replies.
LINES = "open A\nplace A 0 a1 0 0 N\nplace A 0 a2 400 0 N\nplace A 0 a3 800 0 N\ncommit A 0\n"
REPLIES = "ok 0 0\nok 1\nok 2\nok 3\nok 4\n"
# The text that is then exported.
EXPORTED = (
    DEF.read_text()
    .replace("- a1 INV + SOURCE DIST ;", "- a1 INV + SOURCE DIST + PLACED ( 0 0 ) N ;")
    .replace("- a2 INV + UNPLACED ;", "- a2 INV + PLACED ( 400 0 ) N ;")
    .replace("- a3 DBL + WEIGHT 3 ;", "- a3 DBL + WEIGHT 3 + PLACED ( 800 0 ) N ;")
)
DONE = (0, REPLIES, "")


NO_FOLDER = ": there is no such folder"


def unwritten(target: Path | str, why: str) -> str:
    """The message about a path to which no text can be written."""
    return f"lefence: File\nlefence: export file {target} cannot be written{why}\n"


class Exports(InFolder):
    """Exports of the small design, in their own folder."""

    def setUp(self) -> None:
        super().setUp()
        self.target = self.folder / "new.def"

    def export(self, target: Path | str, start: Start = Start()) -> tuple[int, str, str]:
        return run(["replay", *DESIGN, "--export", str(target)], LINES, start)

    def mode(self, path: Path) -> int:
        return stat.S_IMODE(path.stat().st_mode)


class Exported(Exports):
    """Exports that are written."""

    def test_to_a_new_file(self) -> None:
        self.assertEqual(self.export(self.target, Start(umask=0o027)), DONE)
        self.assertEqual(self.target.read_text(), EXPORTED)
        self.assertEqual(self.mode(self.target), 0o640)
        self.assertEqual(self.names(), ["new.def"])

    def test_over_files_that_are_longer_shorter_or_empty(self) -> None:
        for older in ("older\n" * 1_000, "o", ""):
            with self.subTest(len(older)):
                self.target.write_text(older)
                self.assertEqual(self.export(self.target), DONE)
                self.assertEqual(self.target.read_text(), EXPORTED)
                self.assertEqual(self.names(), ["new.def"])

    def test_over_a_file_that_keeps_its_mode(self) -> None:
        for mode in (0o640, 0o600, 0o664):
            with self.subTest(oct(mode)):
                self.target.write_text("older")
                self.target.chmod(mode)
                self.assertEqual(self.export(self.target, Start(umask=0o022)), DONE)
                self.assertEqual((self.target.read_text(), self.mode(self.target)), (EXPORTED, mode))

    def test_over_the_def_text_itself(self) -> None:
        self.target.write_bytes(DEF.read_bytes())
        ran = run(["replay", str(self.target), str(LEF), "--export", str(self.target)], LINES)
        self.assertEqual(ran, DONE)
        self.assertEqual(self.target.read_text(), EXPORTED)
        self.assertEqual(self.names(), ["new.def"])

    def test_by_a_relative_path(self) -> None:
        self.assertEqual(self.export("new.def", Start(folder=self.folder)), DONE)
        self.assertEqual(self.target.read_text(), EXPORTED)
        self.assertEqual(self.names(), ["new.def"])

    def test_through_a_link_replaces_the_file_that_it_names(self) -> None:
        within = self.folder / "within"
        within.mkdir()
        (within / "real.def").write_text("older")
        (within / "real.def").chmod(0o640)
        self.target.symlink_to("within/real.def")
        self.assertEqual(self.export(self.target), DONE)
        self.assertTrue(self.target.is_symlink())
        self.assertEqual(os.readlink(self.target), "within/real.def")
        self.assertFalse((within / "real.def").is_symlink())
        self.assertEqual(((within / "real.def").read_text(), self.mode(within / "real.def")), (EXPORTED, 0o640))
        self.assertEqual((self.names(), os.listdir(within)), (["new.def", "within"], ["real.def"]))

    def test_through_links_to_no_file_makes_the_file_that_they_name(self) -> None:
        within = self.folder / "within"
        within.mkdir()
        self.target.symlink_to("within/next.def")
        (within / "next.def").symlink_to("made.def")
        self.assertEqual(self.export(self.target), DONE)
        self.assertEqual((os.readlink(self.target), os.readlink(within / "next.def")), ("within/next.def", "made.def"))
        self.assertEqual((within / "made.def").read_text(), EXPORTED)
        self.assertEqual((self.names(), sorted(os.listdir(within))), (["new.def", "within"], ["made.def", "next.def"]))

    def test_through_a_long_chain_of_links(self) -> None:
        chain = [self.target, *(self.folder / f"link{number}" for number in range(20)), self.folder / "made.def"]
        for link, named in zip(chain, chain[1:]):
            link.symlink_to(named.name)
        for older in (None, "older"):
            with self.subTest(older):
                self.assertEqual(self.export(self.target), DONE)
                self.assertEqual([link.is_symlink() for link in chain], [True] * 21 + [False])
                self.assertEqual(chain[-1].read_text(), EXPORTED)
                chain[-1].write_text("older")

    def test_next_to_temporary_files_of_other_runs(self) -> None:
        left = [self.folder / f"new.def.partial{number}" for number in (0, 1, 2, 3, 4, 6)]
        for path in left:
            path.write_text("left")
        self.assertEqual(self.export(self.target), DONE)
        self.assertEqual((self.target.read_text(), [path.read_text() for path in left]), (EXPORTED, ["left"] * 6))
        self.assertEqual(self.names(), ["new.def", *(path.name for path in left)])

    def test_what_holds_the_older_file_keeps_the_older_text(self) -> None:
        self.target.write_text("older")
        os.link(self.target, self.folder / "second.def")
        with open(self.target) as held:
            self.assertEqual(self.export(self.target), DONE)
            self.assertEqual(held.read(), "older")
        self.assertEqual((self.target.read_text(), (self.folder / "second.def").read_text()), (EXPORTED, "older"))

    def calls(self, path: Path | str, stdout: int | IO[bytes] = subprocess.PIPE) -> list[str]:
        """Exports to this path. Returns the calls that fill, store and rename files."""
        calls = self.folder / "calls"
        calls.write_text("")
        environment = {**preloading("record.c", self.folder), "RECORD": str(calls)}
        done = DONE if stdout == subprocess.PIPE else (0, "", "")
        self.assertEqual(self.export(path, Start(stdout=stdout, environment=environment)), done)
        return calls.read_text().split()

    def test_is_stored_before_it_takes_the_older_files_name(self) -> None:
        self.assertEqual(self.calls(self.target), ["write", "fsync", "rename"])

    def test_has_the_mode_of_a_private_file_before_its_text_is_in_it(self) -> None:
        self.target.write_text("older")
        self.target.chmod(0o600)
        self.assertEqual(self.calls(self.target), ["fchmod", "write", "fsync", "rename"])

    def test_is_stored_in_the_file_of_standard_output(self) -> None:
        with open(self.target, "wb") as output:
            self.assertEqual(self.calls("/dev/stdout", output), ["write", "fsync"])

    def test_over_a_file_of_three_gigabytes(self) -> None:
        # (a file without blocks on the disk)
        self.target.touch()
        os.truncate(self.target, 3_000_000_000)
        with open(self.target) as held:
            self.assertEqual(self.export(self.target), DONE)
            self.assertEqual(os.fstat(held.fileno()).st_size, 3_000_000_000)
        self.assertEqual(self.target.stat().st_size, len(EXPORTED))
        self.assertEqual(self.target.read_text(), EXPORTED)

    def test_to_a_pipe(self) -> None:
        os.mkfifo(self.target)
        reader = os.open(self.target, os.O_RDONLY | os.O_NONBLOCK)
        try:
            self.assertEqual(self.export(self.target), DONE)
            self.assertEqual(os.read(reader, 65_536).decode(), EXPORTED)
        finally:
            os.close(reader)
        self.assertTrue(stat.S_ISFIFO(self.target.stat().st_mode))
        self.assertEqual(self.names(), ["new.def"])

    def test_to_the_device_that_drops_all(self) -> None:
        self.assertEqual(self.export("/dev/null"), DONE)
        self.assertTrue(stat.S_ISCHR(os.stat("/dev/null").st_mode))

    def test_to_standard_output_that_is_a_pipe_after_the_replies(self) -> None:
        self.assertEqual(self.export("/dev/stdout"), (0, REPLIES + EXPORTED, ""))

    def test_to_the_file_of_standard_output_after_the_replies(self) -> None:
        for path in ("/dev/stdout", str(self.target)):
            for mode, before in (("ab", "older\n"), ("wb", "")):
                with self.subTest(path=path, mode=mode):
                    self.target.write_text("older\n")
                    with open(self.target, mode) as output:
                        self.assertEqual(self.export(path, Start(stdout=output)), (0, "", ""))
                    self.assertEqual(self.target.read_text(), before + REPLIES + EXPORTED)
                    self.assertEqual(self.names(), ["new.def"])

    def test_without_a_commit_is_the_text_itself(self) -> None:
        ran = run(["replay", *DESIGN, "--export", str(self.target)], "open A\nplace A 0 a1 0 0 N\n")
        self.assertEqual(ran, (0, "ok 0 0\nok 1\n", ""))
        self.assertEqual(self.target.read_bytes(), DEF.read_bytes())


class NotExported(Exports):
    """Exports that are not written: older files are unchanged, and no other file is left."""

    def refused(self, target: Path | str, why: str = "", start: Start = Start()) -> None:
        """The fault is noticed only when the text is written."""
        self.assertEqual(self.export(target, start), (3, REPLIES, unwritten(target, why)))

    def refused_early(self, target: Path | str, why: str = "") -> None:
        """The fault is noticed before the first line is read."""
        self.assertEqual(self.export(target), (3, "", unwritten(target, why)))

    def test_into_a_folder_that_is_missing(self) -> None:
        missing = self.folder / "missing" / "new.def"
        self.refused_early(missing, NO_FOLDER)
        bounds = ["--port", str(free_port()), "--connections", "1"]
        self.assertEqual(
            run(["serve", *DESIGN, *bounds, "--export", str(missing)]), (3, "", unwritten(missing, NO_FOLDER))
        )
        self.assertEqual(self.names(), [])

    def test_to_a_folder(self) -> None:
        self.target.mkdir()
        self.refused_early(self.target, ": it is a folder")
        self.assertEqual((self.names(), os.listdir(self.target)), (["new.def"], []))

    def test_through_links_that_go_round(self) -> None:
        self.target.symlink_to("second.def")
        (self.folder / "second.def").symlink_to("new.def")
        self.refused_early(self.target)
        self.assertEqual((os.readlink(self.target), self.names()), ("second.def", ["new.def", "second.def"]))

    def test_into_a_folder_where_no_file_can_be_made(self) -> None:
        # (as the system reports it)
        self.refused_early("/proc/new.def", NO_FOLDER)

    @unittest.skipIf(os.geteuid() == 0, "root may write to any folder")
    def test_into_a_folder_without_write_permission(self) -> None:
        self.target.write_text("older")
        self.folder.chmod(0o555)
        try:
            self.refused_early(self.target, ": permission denied")
            self.refused_early(self.folder / "other.def", ": permission denied")
        finally:
            self.folder.chmod(0o755)
        self.assertEqual((self.target.read_text(), self.names()), ("older", ["new.def"]))

    def test_beyond_a_limit_on_file_size(self) -> None:
        self.refused(self.target, start=Start(first=small_files))
        self.assertEqual(self.names(), [])
        for older in ("older", "older\n" * 1_000):
            with self.subTest(len(older)):
                self.target.write_text(older)
                self.target.chmod(0o640)
                self.refused(self.target, start=Start(first=small_files))
                self.assertEqual((self.target.read_text(), self.mode(self.target)), (older, 0o640))
                self.assertEqual(self.names(), ["new.def"])

    def test_to_a_device_that_is_full(self) -> None:
        self.refused("/dev/full", ": the disk is full")

    def test_after_a_fault_of_the_replies(self) -> None:
        self.target.write_text("older")
        with open("/dev/full", "wb") as full:
            ran = self.export(self.target, Start(stdout=full))
        self.assertEqual(ran, (3, "", "lefence: WriteFault\n"))
        self.assertEqual((self.target.read_text(), self.names()), ("older", ["new.def"]))

    def test_after_a_fault_of_the_input(self) -> None:
        folder = os.open(self.folder, os.O_RDONLY)
        try:
            ran = self.export(self.target, Start(stdin=folder))
        finally:
            os.close(folder)
        self.assertEqual(ran, (3, "", "lefence: ReadFault\n"))
        self.assertEqual(self.names(), [])

    def test_after_one_line_too_many(self) -> None:
        words = ["replay", *DESIGN, "--export", str(self.target)]
        bounds: list[tuple[list[str], int]] = [([], 1_000_000), (["--lines", "3"], 3)]
        for bound, most in bounds:
            ran = run([*words, *bound], b"\n" * (most + 1), Start(stdout=subprocess.DEVNULL))
            self.assertEqual(ran, (3, "", "lefence: TooManyLines\n"))
            self.assertEqual(self.names(), [])

    def test_after_the_requested_number_of_lines(self) -> None:
        words = ["replay", *DESIGN, "--export", str(self.target), "--lines", "1000001"]
        ran = run(words, b"\n" * 1_000_001, Start(stdout=subprocess.DEVNULL))
        self.assertEqual((ran, self.target.read_bytes()), ((0, "", ""), DEF.read_bytes()))

    def test_after_a_signal(self) -> None:
        words = [*DESIGN, "--export", str(self.target)]
        for number in (signal.SIGTERM, signal.SIGINT, signal.SIGHUP):
            # The caller of the tests may have it ignored, which a program would inherit.
            self.addCleanup(signal.signal, number, signal.signal(number, signal.SIG_DFL))
            with self.subTest(number.name):
                session = Session(["replay", *words])
                self.assertEqual([session.ask(line) for line in LINES.split("\n")[:-1]], REPLIES.split("\n")[:-1])
                session.process.send_signal(number)
                self.assertEqual(session.end(), (-number, ""))
                with Service(2, words) as service:
                    with service.client() as client:
                        self.assertEqual(client.ask_all(LINES.split("\n")[:-1]), REPLIES.split("\n")[:-1])
                        service.process.send_signal(number)
                        self.assertEqual(service.end(), (-number, "listening\n", ""))
                self.assertEqual(self.names(), [])


if __name__ == "__main__":
    unittest.main()
