"""Trials of commands with a Python that is too old for them: each ends with status 127 and one line that says which Python is needed. The files that such a
Python reads before it is refused have no syntax that it can't parse. A Python of the machine that is older is asked too, if there is one."""
import ast
import os
import shutil
import subprocess
import sys
from collections.abc import Iterator
from pathlib import Path

import shared
from shared.programs import TOP

# The oldest Python that has to be able to say so, and how the needed one is named.
PARSES, NEEDED = (3, 6), ".".join(map(str, shared.OLDEST))
OLD = (3, 10, 9)
# What runs a command as an older Python does, as far as the command can see.
POSES = f"import runpy, sys\nsys.version_info = {OLD}\nsys.argv = sys.argv[1:]\nsys.path.insert(0, {{folder!r}})\nrunpy.run_path(sys.argv[0], run_name='__main__')"
# Pythons that may be on the machine and are too old.
OTHERS = ("python3.6", "python3.7", "python3.8", "python3.9", "python3.10", "pypy3")


def commands() -> list[Path]:
    """The tools that are called by hand, and the commands that are installed."""
    folders = (TOP / "tools", TOP / "tools" / "installed")
    return [path for folder in folders for path in sorted(folder.iterdir()) if path.is_file() and os.access(path, os.X_OK)]


def read_first() -> Iterator[tuple[str, bool]]:
    """Whether an old Python can parse what it reads of a command before it is refused."""
    first = TOP / "tools" / "shared" / "__init__.py"
    for path in (first, *commands()):
        text = path.read_text(encoding="utf-8")
        try:
            ast.parse(text, feature_version=PARSES)
            wrong = "" if path == first or "from shared" in text else "it imports nothing of shared"
        except SyntaxError as error:
            wrong = f"line {error.lineno}: {error.msg}"
        yield f"{path.relative_to(TOP)} in Python {PARSES[0]}.{PARSES[1]}: {wrong}", not wrong


def refuses(words: list[object], old: str) -> tuple[str, bool]:
    """Whether a command says in one line that it needs another Python than this old one."""
    result = subprocess.run(list(map(str, words)), cwd=TOP, stdin=subprocess.DEVNULL, capture_output=True, text=True, check=False)
    lines = result.stderr.splitlines()
    says = len(lines) == 1 and f"Python {NEEDED} or later is needed" in lines[0] and f"is Python {old}" in lines[0]
    return f"{words[-2]} in Python {old}: {result}", (result.returncode, result.stdout) == (127, "") and says


def of_root(root: Path) -> list[Path]:
    """The commands that are installed below a folder."""
    return [path for path in sorted((root / "bin").iterdir()) if path.read_bytes().startswith(b"#!/usr/bin/env python3")]


def posed(root: Path) -> Iterator[tuple[str, bool]]:
    """Whether each command refuses this Python once it poses as an old one, before it does what its words ask."""
    for path in [*(path for path in commands() if path.parent.name == "tools"), *of_root(root)]:
        yield refuses([sys.executable, "-c", POSES.format(folder=str(path.parent)), path, "--help"], f"{OLD[0]}.{OLD[1]}")


def others(root: Path) -> Iterator[tuple[str, bool]]:
    """The same with old Pythons that are there."""
    for python in filter(shutil.which, OTHERS):
        asked = subprocess.run([python, "-c", "import sys; print(*sys.version_info[:2], sep='.')"], capture_output=True, text=True, check=False)
        old = asked.stdout.strip()
        if asked.returncode == 0 and tuple(map(int, old.split("."))) < shared.OLDEST:
            for path in [*(path for path in commands() if path.parent.name == "tools"), *of_root(root)]:
                yield refuses([python, path, "--help"], old)


def page_says() -> Iterator[tuple[str, bool]]:
    """Whether the first page names the Python that is needed."""
    yield f"README.md: Python {NEEDED}", f"Python {NEEDED}" in (TOP / "README.md").read_text(encoding="utf-8")


def tried(root: Path) -> Iterator[tuple[str, bool]]:
    """All trials."""
    for part in (read_first(), posed(root), others(root), page_says()):
        yield from part
