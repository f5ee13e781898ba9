"""Trials of the modes of what is installed and written: `make install` under a umask that shuts others out, what `make uninstall` leaves, and the mode of a
file that is written anew."""
import os
import shutil
import stat
import subprocess
from collections.abc import Iterator
from pathlib import Path

from gate import installing
from shared.programs import TOP

INSTALL, WATCH = TOP / "tools" / "install", TOP / "examples" / "watch"


def mode_of(path: Path) -> int:
    """The mode of a file or a folder."""
    return stat.S_IMODE(path.stat().st_mode)


def shut() -> None:
    """Shuts everybody else out of what this process makes."""
    os.umask(0o077)


def install(root: Path, *words: str) -> int:
    """Installs below a root under such a umask, or takes away what is there."""
    kind = [] if installing.are_proved() or words else ["--not-proved"]
    return subprocess.run([INSTALL, *words, *kind, root], preexec_fn=shut, capture_output=True, check=False).returncode


def of_umask(top: Path) -> Iterator[tuple[str, bool]]:
    """Whether others can read what is installed, and nothing is left of it, with folders above the root that were there and that weren't."""
    (top / "there").mkdir(mode=0o750)
    (top / "there").chmod(0o750)
    before = sorted(top.rglob("*"))
    for root in (top / "there" / "root", top / "new" / "deep" / "root", top / "link" / "root"):
        if root.parent.name == "link":
            (top / "link").symlink_to(top / "there")
            before = sorted(top.rglob("*"))
        for turn in ("an install", "a second install"):
            yield f"{turn} into {root.relative_to(top)}", install(root) == 0
            made = [path for path in top.rglob("*") if path not in before and not path.is_symlink()]
            wrong = [str(path) for path in made if mode_of(path) != (0o755 if path.is_dir() or path.parent.name == "bin" else 0o644)]
            yield f"others can't read after {turn} into {root.relative_to(top)}: {wrong[:3]}", bool(made) and not wrong
        yield "the mode of a folder that was there", mode_of(top / "there") == 0o750
        status = install(root, "--remove")
        left = [str(path) for path in sorted(top.rglob("*")) if path not in before]
        yield f"what an uninstall leaves of {root.relative_to(top)}: {status}, {left}", status == 0 and not left


def of_kept_folders(top: Path) -> Iterator[tuple[str, bool]]:
    """Folders above a root that others use, and a tree that was moved, keep what the install didn't make."""
    install(top / "new" / "root")
    (top / "new" / "other").write_text("x")
    install(top / "new" / "root", "--remove")
    yield "a folder above that others use", sorted(path.name for path in (top / "new").iterdir()) == ["other"]
    install(top / "first" / "root")
    (top / "second").mkdir()
    shutil.move(top / "first" / "root", top / "second" / "root")
    install(top / "second" / "root", "--remove")
    yield "a tree that was moved", (top / "second").is_dir() and not [*(top / "second").iterdir()]


def of_written(top: Path) -> Iterator[tuple[str, bool]]:
    """Whether a file that is written anew keeps its mode, and its link."""
    target = top / "draft.json"
    for tool in ("draft", "mgtool"):
        words = [TOP / "tools" / tool, *(["draft"] if tool == "mgtool" else []), WATCH / "script.toml", "-o"]
        for mode in (0o600, 0o664, 0o640):
            target.write_text("")
            target.chmod(mode)
            (top / "link").unlink(missing_ok=True)
            (top / "link").symlink_to(target)
            result = subprocess.run([*words, top / "link"], capture_output=True, check=False)
            holds = result.returncode == 0 and target.stat().st_size > 0 and (top / "link").is_symlink()
            yield f"{tool} -o, mode {mode:o}: {mode_of(target):o}, {result.stderr}", holds and mode_of(target) == mode
        target.unlink()
        subprocess.run([*words, target], preexec_fn=shut, capture_output=True, check=False)
        yield f"{tool} -o of a new file under a umask: {mode_of(target):o}", mode_of(target) == 0o600


def tried(top: Path) -> Iterator[tuple[str, bool]]:
    """All trials, each part in a folder of its own."""
    for part in (of_umask, of_kept_folders, of_written):
        (top / part.__name__).mkdir(parents=True)
        yield from part(top / part.__name__)
