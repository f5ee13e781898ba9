"""The files of this checkout that belong to the repository, and copies of them."""
import shutil
import subprocess

from shared.crates import TOP


class NotListed(SystemExit):
    """Git doesn't list the files. Where nobody takes it up, one line says so; a tool that is called by hand ends with this status."""

    status = 3


def known():
    """The files that git knows, or would take up, by their paths."""
    words = ["git", "ls-files", "-z", "--cached", "--others", "--exclude-standard"]
    listed = subprocess.run(words, cwd=TOP, capture_output=True, check=False)
    if listed.returncode:
        raise NotListed(f"git doesn't list the files of this checkout: {listed.stderr.decode(errors='replace').strip()}")
    return sorted(name for name in listed.stdout.decode().split("\0") if name and (TOP / name).is_file())


def copy_to(folder):
    """Copies these files into a folder."""
    for name in known():
        (folder / name).parent.mkdir(parents=True, exist_ok=True)
        shutil.copy(TOP / name, folder / name)
