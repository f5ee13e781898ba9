"""The crates of `crates.txt`: their neighbourhoods and names, the libraries that each uses, what is below it, how the prover is called for it, and what a
crate above can see of it: its items without the bodies of functions, its definitions and its lemmas."""
import functools
import re
import shutil
from collections import namedtuple
from pathlib import Path

TOP = Path(__file__).resolve().parents[2]
FUNCTION = re.compile(r"([ \t]*)(?:pub(?:\([^)]*\))? )?(?:unsafe )?fn \w")
CLAUSE = re.compile(r"^\s*((?:requires|ensures|ghost) .*?)[ ;]*$", re.MULTILINE)


# A section of crates.txt: its name, what is said of it, and its crates with the libraries that they use.
Neighbourhood = namedtuple("Neighbourhood", "name said uses_of")


class Unusable(Exception):
    """A library that can't be used: what the prover says of it."""


class NoToolchain(SystemExit):
    """`rt` isn't on the path. Where nobody takes it up, one line says so; a tool that is called by hand ends with this status."""

    status = 127

    def __init__(self):
        super().__init__("rt isn't on the path: README.md names the toolchain that has to be there")


@functools.cache
def kit():
    """The folder of the toolchain."""
    if found := shutil.which("rt"):
        return Path(found).resolve().parents[1]
    raise NoToolchain


def neighbourhoods():
    """The neighbourhoods in the order of the file, each with its crates in that order. Crates before the first stand in one without a name."""
    found = [Neighbourhood("", "", {})]
    for line in (TOP / "crates.txt").read_text().splitlines():
        if line.startswith("## "):
            name, _, said = line.removeprefix("## ").partition(": ")
            found.append(Neighbourhood(name, said, {}))
        elif line := line.partition("#")[0].strip():
            name, _, uses = line.partition(":")
            found[-1].uses_of[name.split()[0]] = uses.split()
    return found


def libraries():
    """The crates with the libraries that they use, in the order of the file."""
    return {name: uses for neighbourhood in neighbourhoods() for name, uses in neighbourhood.uses_of.items()}


def below(name, uses_of):
    """The crates of the repository that a crate stands on, by way of others too."""
    own = [use for use in uses_of[name] if use in uses_of]
    return sorted({*own, *(further for use in own for further in below(use, uses_of))})


def folder(name):
    """The folder of a crate."""
    return TOP / "crates" / name


def library(name):
    """The library of a crate, where `rt ci` leaves it."""
    return folder(name) / "out" / "rlib" / f"{name}.rlib"


def is_program(name):
    """Whether a crate is a program, of which `rt ci` leaves no library."""
    return (folder(name) / "src" / "main.rt").is_file()


def call(name, uses_of):
    """The prover's call for a crate, over the libraries that `rt ci` left."""
    top = "src/main.rt" if is_program(name) else "src/lib.rt"
    words = [kit() / "bin" / "rattle", "check", "--crate-name", name, top]
    for use in ["std", *uses_of[name]]:
        words += ["--extern", f"{use}={library(use) if use in uses_of else kit() / 'rlibs' / f'{use}.rlib'}"]
    words += ["-L", f"dependency={kit()}/rlibs"]
    words += [word for use in below(name, uses_of) for word in ("-L", f"dependency={library(use).parent}")]
    words += ["--antt-project", kit() / "rattle" / "logic" / "antt-project.json", "--logic-built", kit() / "logic_built"]
    return [*words, "--jobs", "1", "--links", f"{name}="]


def contracts(text):
    """What stands in a file without remarks, and without the bodies of its functions, with their closures, and of its tests. It goes by the layout
    of `rt fmt`: a body begins in the first line of the function's own indentation that ends with a brace, and ends in the line that is the other
    brace alone. What isn't of that layout stays; so does a function that constants may be made by, and a file with macros."""
    if "macro_rules!" in text:
        return text
    kept, begins, ends = [], None, None
    for line in text.splitlines():
        if ends is not None:
            ends = None if line == ends else ends
            continue
        if not line.lstrip().startswith("//"):
            kept.append(line)
        if found := FUNCTION.match(line):
            begins = found[1]
        if begins is None or not line.startswith(begins) or line[len(begins) :].startswith((" ", "\t")):
            continue
        if line.endswith("{"):
            begins, ends = None, f"{begins}}}"
        elif line.endswith((";", "}")):
            begins = None
    return "\n".join(kept)


def interface(name):
    """What a crate above sees of a crate, as pairs of a file and a text: contracts, definitions and lemmas. The lemmas stand in files whose folders
    begin with a capital letter; what is shown of a function stands below its own name, which doesn't."""
    root = folder(name)
    code = [(path, contracts(path.read_text())) for path in sorted((root / "src").rglob("*.rt"))]
    rest = [(path, path.read_text()) for part in ("specs", "proofs") for path in sorted((root / part).rglob("*.antt"))]
    files = [(path.relative_to(root), text) for path, text in code + rest]
    return [(str(file), text) for file, text in files if file.suffix == ".rt" or all(part[0].isupper() for part in file.parts[1:-1])]


def clauses(text):
    """The clauses of a text, each without what ends it."""
    return sorted(found[1] for found in CLAUSE.finditer(text))


def is_built(name):
    """Whether the library of a crate is there, with the definitions, lemmas and clauses of the crate's files."""
    if not library(name).is_dir():
        return False
    of_library = "\n".join(path.read_text() for path in (library(name) / "lang" / "src").rglob("*.rt"))
    files = interface(name)
    code = "\n".join(text for file, text in files if file.startswith("src/"))
    rest = {file: text for file, text in files if not file.startswith("src/") and not file.endswith("/Lib.antt")}
    paths = [(file, library(name) / "lang" / "antt" / file) for file in rest]
    return clauses(code) == clauses(of_library) and all(path.is_file() and path.read_text() == rest[file] for file, path in paths)


def lacking(names, uses_of):
    """The crates at or below these whose library isn't there as their files have it; a program needs none."""
    wanted = {*names, *(use for name in names for use in below(name, uses_of))}
    return sorted(name for name in wanted if not is_program(name) and not is_built(name))
