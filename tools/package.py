#!/usr/bin/env python3
"""Makes a Debian package of the program and the front: lefence_VERSION_ARCHITECTURE.deb.

usage: tools/package.py [--program PATH] [FOLDER]    into FOLDER, else the present one; PATH is the program, else the
                                                     one that ./lefence has proved and built

The package needs Debian 12 with its python3, and no kit. It has the program, the tools, the Python and Tcl libraries, a
unit of systemd, the documents, examples, manual pages made of the texts of `--help`, and completion for bash. It names
the commit from which it is made. Its maintainer is who made that commit, or whom DEBFULLNAME and DEBEMAIL name. It is
made by dpkg-deb, which each Debian has.
"""

from __future__ import annotations

import argparse
import gzip
import os
import re
import shutil
import subprocess
import sys
import tempfile
import tomllib
from collections.abc import Iterator
from pathlib import Path

TOP = Path(__file__).resolve().parent.parent
FRONT = TOP / "front"
EXAMPLES = TOP / "examples"
PROGRAM = TOP / "crates/lefence/out/lefence"
CONTROL = """Package: lefence
Version: {version}
Architecture: {architecture}
Maintainer: {maintainer}
Section: electronics
Priority: optional
Depends: libc6, python3 (>= 3.11)
Suggests: klayout, tcl
Installed-Size: {size}
Description: placement and legalization of standard cells for several teams
 lefence is a server for the placement and legalization of standard cells over
 LEF and DEF 5.8. Several teams work on one floorplan at the same time, each on
 its own cells in its own fence.
 .
 Made from commit {commit}.
"""
COPYRIGHT = """lefence, made from commit {commit} of its repository.

The owner of lefence has not chosen a licence. Until then nobody has a right to copy, change or distribute it beyond
what the law grants.

The program contains parts of the Rattle kit: its standard library and the ported crates {crates}.
Their licences are in the folder `licences`, as far as the kit has them.
"""
WRAPPER = "#!/usr/bin/python3\nfrom {module} import main\n\nraise SystemExit(main())\n"
# An option in a text of --help, and the subcommands in that of the program.
OPTION = re.compile(r"(?<![\w-])(--?[a-z][a-z-]*)")
SUBCOMMAND = re.compile(r"^ +lefence ([a-z]+)\b", re.M)


def tools() -> dict[str, str]:
    """The names of the tools, each with the module of its function `main`, as front/pyproject.toml has them."""
    project = tomllib.loads((FRONT / "pyproject.toml").read_text(encoding="utf-8"))["project"]
    scripts: dict[str, str] = project["scripts"]
    return {name: module.removesuffix(":main") for name, module in scripts.items()}


def version() -> str:
    """The version of the front."""
    found = re.search(r'^__version__ = "(.*)"$', (FRONT / "lefence/__init__.py").read_text(encoding="utf-8"), re.M)
    assert found
    return found[1]


def of_git(*words: str) -> str | None:
    """What git prints of the repository; None without git, or outside a clone."""
    try:
        done = subprocess.run(["git", *words], cwd=TOP, capture_output=True, text=True)
    except OSError:
        return None
    return done.stdout.strip() if done.returncode == 0 else None


def commit() -> str:
    """The commit of the repository, with `-dirty` if files have changed since."""
    return of_git("describe", "--always", "--abbrev=40", "--dirty", "--exclude", "*") or "unknown"


def maintainer() -> str:
    """The name and the address of the maintainer."""
    name, address = os.environ.get("DEBFULLNAME"), os.environ.get("DEBEMAIL")
    if name and address:
        return f"{name} <{address}>"
    return of_git("log", "-1", "--format=%an <%ae>") or "The lefence project <lefence@localhost>"


def ported_crates() -> list[str]:
    """The names of the kit's libraries that crates of the program use, as crates.txt lists them."""
    lines = (TOP / "crates.txt").read_text(encoding="utf-8").splitlines()
    used = [line.partition(":")[2].split() for line in lines if not line.startswith("#")]
    return sorted({name for names in used for name in names if not name.startswith(("lf_", "lefence"))})


def licences() -> Iterator[Path]:
    """The licences of the ported crates in the kit whose `rt` is on the PATH; nothing without it."""
    if found := shutil.which("rt"):
        libraries = Path(found).resolve().parent.parent / "rattle"
        yield from (path for name in ported_crates() for path in sorted((libraries / name).glob("LICENSE*")))


def help_of(words: list[str]) -> str:
    """What a command prints for --help."""
    environment = {"PYTHONPATH": str(FRONT), "PATH": "/usr/bin:/bin", "COLUMNS": "90"}
    return subprocess.run([*words, "--help"], capture_output=True, text=True, check=True, env=environment).stdout


def manual_page(name: str, text: str) -> bytes:
    """A manual page of a text of --help, whose lines stay as they are. Its first paragraph but the usage says what the
    command is for.
    """
    paragraphs = [part for part in text.split("\n\n") if not part.lower().startswith("usage")]
    what = " ".join(paragraphs[0].split()).split(". ")[0].removesuffix(".") if paragraphs else name
    lines = text.replace("\\", "\\e").replace("-", "\\-").splitlines()
    body = "\n".join(f"\\&{line}" if line.startswith((".", "'")) else line for line in lines)
    head = f'.TH {name.upper()} 1 "" "lefence {version()}"\n.SH NAME\n{name} \\- {what}\n.SH DESCRIPTION\n.nf\n'
    return gzip.compress(f"{head}{body}\n.fi\n".encode(), mtime=0)


def completion(helps: dict[str, str]) -> str:
    """A script that completes subcommands and options for bash, and file names."""
    lines = ["# bash completion of lefence and its tools", "_lefence() {", "  local words"]
    lines.append("  case ${COMP_WORDS[0]##*/} in")
    for name, text in helps.items():
        options = sorted(set(OPTION.findall(text)))
        subcommands = sorted(set(SUBCOMMAND.findall(text))) if name == "lefence" else []
        lines.append(f"  {name}) words='{' '.join([*subcommands, *options])}' ;;")
    return "\n".join(
        [
            *lines,
            "  esac",
            '  mapfile -t COMPREPLY < <(compgen -W "$words" -- "${COMP_WORDS[COMP_CWORD]}")',
            "}",
            f"complete -o default -F _lefence {' '.join(helps)}",
            "",
        ]
    )


def put(path: Path, data: bytes | str, mode: int = 0o644) -> None:
    """Writes a file of the package."""
    path.parent.mkdir(parents=True, exist_ok=True)
    path.write_bytes(data if isinstance(data, bytes) else data.encode())
    path.chmod(mode)


def lay_out(root: Path, program: Path) -> None:
    """Writes all files of the package below `root`."""
    put(root / "usr/bin/lefence", program.read_bytes(), 0o755)
    helps = {"lefence": help_of([str(program)])}
    for name, module in tools().items():
        put(root / "usr/bin" / name, WRAPPER.format(module=module), 0o755)
        helps[name] = help_of([sys.executable, "-c", f"import {module} as it; it.main()"])
    package = root / "usr/lib/python3/dist-packages/lefence"
    shutil.copytree(FRONT / "lefence", package, ignore=shutil.ignore_patterns("__pycache__"))
    for path in sorted((FRONT / "tcl").glob("*.tcl")):
        put(root / "usr/share/tcltk/lefence" / path.name, path.read_bytes())
    unit = (FRONT / "lefence-hub.service").read_text(encoding="utf-8").replace("/usr/local/bin/", "/usr/bin/")
    put(root / "usr/share/doc/lefence/examples/lefence-hub.service", unit)
    documents = root / "usr/share/doc/lefence"
    examples = (FRONT / "examples/day.sh", *sorted((FRONT / "tests/data").glob("day*")), *sorted(EXAMPLES.iterdir()))
    for path in examples:
        put(documents / "examples" / path.name, path.read_bytes())
    pages = (TOP / "README.md", *sorted((TOP / "docs").glob("*.md")), TOP / "bench/RESULTS.md")
    for path in (*pages, *sorted((TOP / "docs").glob("*.svg")), *sorted((TOP / "docs").glob("*.png"))):
        put(documents / path.relative_to(TOP), path.read_bytes())
    put(documents / "changelog.gz", gzip.compress((TOP / "CHANGELOG.md").read_bytes(), mtime=0))
    put(documents / "copyright", COPYRIGHT.format(commit=commit(), crates=", ".join(ported_crates())))
    for path in licences():
        put(documents / "licences" / path.parent.name / path.name, path.read_bytes())
    for name, text in helps.items():
        put(root / f"usr/share/man/man1/{name}.1.gz", manual_page(name, text))
        put(root / f"usr/share/bash-completion/completions/{name}", completion(helps))


def make(program: Path, folder: Path) -> Path:
    """Makes the package in a folder; returns its path."""
    architecture = subprocess.run(
        ["dpkg", "--print-architecture"], capture_output=True, text=True, check=True
    ).stdout.strip()
    target = folder / f"lefence_{version()}_{architecture}.deb"
    with tempfile.TemporaryDirectory(prefix="lefence-package-") as name:
        root = Path(name)
        root.chmod(0o755)
        lay_out(root, program)
        size = sum(path.stat().st_size for path in root.rglob("*") if path.is_file()) // 1024 + 1
        facts = {"version": version(), "architecture": architecture, "size": size}
        put(root / "DEBIAN/control", CONTROL.format(**facts, maintainer=maintainer(), commit=commit()))
        words = ["dpkg-deb", "--root-owner-group", "-Zgzip", "--build", str(root), str(target)]
        subprocess.run(words, check=True, stdout=subprocess.DEVNULL)
    return target


def main() -> int:
    parser = argparse.ArgumentParser(description="Makes a Debian package of the program and the front.")
    parser.add_argument("--program", metavar="PATH", type=Path, default=PROGRAM, help="the proved program")
    parser.add_argument("folder", metavar="FOLDER", type=Path, nargs="?", default=Path(), help="its folder")
    options = parser.parse_args()
    if not options.program.is_file():
        print(f"tools/package.py: {options.program} is not there: ./lefence proves and builds it", file=sys.stderr)
        return 1
    print(make(options.program, options.folder))
    return 0


if __name__ == "__main__":
    sys.exit(main())
