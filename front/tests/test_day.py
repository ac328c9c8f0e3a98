"""The day of two teams, front/examples/day.sh: the script must print what its comments say."""

from __future__ import annotations

import contextlib
import gzip
import os
import re
import shutil
import signal
import subprocess
import sys
import unittest
from pathlib import Path

from support import FRONT, PATIENCE, PROGRAM, PROGRESS, FrontCase

SCRIPT = FRONT / "examples/day.sh"
# A command that needs KLayout, and what it prints.
KLAYOUT = re.compile(r"^(?:klayout|lefence-view) .*\n(?:#> .*\n)+", re.M)
PRINTED = re.compile(r"^#> (.*\n)", re.M)


class Day(FrontCase):
    def run_script(self, text: str, script: Path = SCRIPT, **environment: str) -> str:
        """Runs the text of a script in the folder of the test; returns both output streams without progress, after all
        its processes have ended.
        """
        environment = {**os.environ, "QT_QPA_PLATFORM": "offscreen", **environment}
        with subprocess.Popen(
            ["bash", "-c", text, str(script)],
            stdout=subprocess.PIPE,
            stderr=subprocess.STDOUT,
            cwd=self.folder,
            env=environment,
            start_new_session=True,
        ) as process:
            try:
                return PROGRESS.sub(b"", process.communicate(timeout=10 * PATIENCE)[0]).decode()
            finally:
                with contextlib.suppress(ProcessLookupError):
                    os.killpg(process.pid, signal.SIGKILL)

    def text(self) -> str:
        """The script, as far as its tools are there."""
        self.maxDiff = None
        text = SCRIPT.read_text()
        self.assertEqual(len(KLAYOUT.findall(text)), 3)
        return text if shutil.which("klayout") else KLAYOUT.sub("", text)

    def test_the_script_of_the_day_prints_what_it_says(self) -> None:
        tools = self.folder / "bin"
        tools.mkdir()
        (tools / "lefence").symlink_to(PROGRAM)
        (tools / "python3").symlink_to(sys.executable)
        text, path = self.text(), f"{tools}:{os.environ['PATH']}"
        self.assertEqual(self.run_script(text, PATH=path), "".join(PRINTED.findall(text)))

    @unittest.skipUnless(shutil.which("dpkg-deb"), "dpkg-deb is not here")
    def test_the_day_of_a_debian_package(self) -> None:
        head = subprocess.check_output(["git", "rev-parse", "HEAD"], cwd=FRONT, text=True).strip()
        made = subprocess.run(
            [sys.executable, FRONT.parent / "tools/package.py", "--program", PROGRAM, self.folder],
            check=True,
            capture_output=True,
            text=True,
        )
        root = self.folder / "root"
        self.unpack(made.stdout.strip(), root)
        text, path = self.text(), f"{root}/usr/bin:{os.environ['PATH']}"
        packages = str(root / "usr/lib/python3/dist-packages")
        script = root / "usr/share/doc/lefence/examples/day.sh"
        self.assertEqual(self.run_script(text, script, PATH=path, PYTHONPATH=packages), "".join(PRINTED.findall(text)))
        # what it is made from
        documents = root / "usr/share/doc/lefence"
        fields = subprocess.check_output(["dpkg-deb", "--field", made.stdout.strip()], text=True)
        for text in (fields, (documents / "copyright").read_text()):
            self.assertIn(f"commit {head}", text.lower())
        self.assertEqual(
            gzip.decompress((documents / "changelog.gz").read_bytes()), (FRONT.parent / "CHANGELOG.md").read_bytes()
        )
        self.assertTrue((documents / "examples/soc.def").exists())
        # manual pages and completion
        for name in ("lefence", "lefence-hub", "lefence-carry"):
            page = gzip.decompress((root / f"usr/share/man/man1/{name}.1.gz").read_bytes()).decode()
            self.assertIn(f".SH NAME\n{name} \\- ", page)
            self.assertIn("\\-\\-help" if name != "lefence" else "repair", page)
        words = "COMP_WORDS=(lefence-hub --jou); COMP_CWORD=1; _lefence; echo ${COMPREPLY[@]}"
        source = f". {root}/usr/share/bash-completion/completions/lefence; {words}"
        self.assertEqual(subprocess.check_output(["bash", "-c", source], text=True), "--journal\n")

    def unpack(self, package: str, root: Path) -> None:
        """Installs a package in a fresh root."""
        if os.geteuid():
            subprocess.run(["dpkg-deb", "-x", package, root], check=True)
            return
        for name in ("info", "updates", "triggers"):
            (root / "var/lib/dpkg" / name).mkdir(parents=True)
        (root / "var/lib/dpkg/status").touch()
        words = ["dpkg", f"--root={root}", "--force-depends", "--install", package]
        subprocess.run(words, check=True, capture_output=True)


if __name__ == "__main__":
    unittest.main()
