"""The inputs that are stored with their lines: those of gallery, examples, tests/cases and tests/runs, put together from files where they stand in files."""
import csv
import re
from collections import namedtuple

from shared import programs

TOP = programs.TOP
# The name that a document of each format has in a folder.
FILES = {"script": "script.toml", "certificate": "certificate.json", "plan": "plan.toml"}
FORMATS = tuple(FILES)
# An input that is stored: its name, its sections, and its line, or its report.
Stored = namedtuple("Stored", "name sections line")


def divided(text):
    """The sections of an input."""
    return re.split(rb"^%%\r?(?:\n|\Z)", text, flags=re.MULTILINE)


def of_folder(folder):
    """What a folder of gallery or examples stores: an input, or files that are put together."""
    line = (folder / "expected").read_text()
    if (folder / "input").is_file():
        yield Stored(folder / "input", divided((folder / "input").read_bytes()), line)
    files = [folder / name for name in FILES.values()]
    if all(path.is_file() for path in files[:2]):
        yield Stored(folder, [path.read_bytes() for path in files[:2]], line)
    if files[2].is_file():
        yield Stored(files[2], [path.read_bytes() for path in files], (folder / "report").read_text())


def of_cases():
    """What stands in tests/cases and in tests/runs."""
    cases = TOP / "tests" / "cases"
    for name, _, line in csv.reader((cases / "index.tsv").read_text().splitlines(), delimiter="\t", quoting=csv.QUOTE_NONE):
        yield Stored(cases / name, divided((cases / name).read_bytes()), line)
    for path in sorted((TOP / "tests" / "runs").glob("*.in")):
        told = next(path.with_suffix(suffix) for suffix in (".out", ".rel") if path.with_suffix(suffix).is_file())
        yield Stored(path, divided(path.read_bytes()), told.read_text())


def inputs():
    """All inputs that are stored with their lines."""
    for top in ("gallery", "examples"):
        for path in sorted((TOP / top).rglob("expected")):
            yield from of_folder(path.parent)
    yield from of_cases()
