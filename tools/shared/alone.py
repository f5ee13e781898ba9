"""Crates proved once more, as they stand now, over the libraries that a whole run left. What was proved of a crate alone is kept for the next time, so after an
edit only what changed is proved. A crate on which another one stands that is named with it is proved from nothing and leaves its library, as a whole run does,
and a program is built. A library goes with the very builds of those below it, so each crate between two that are named has to be named too."""
import os
import re
import shutil
import subprocess
import tempfile

from shared import crates

KEPT = "out/kept"
# What the prover says that tells nothing of the crate: what it loaded, and each item that is proved.
QUIET = re.compile(r"(statements|libraries|logic) |\w+ \S+: proved$")
# What a check takes, and no build of what it proved.
OF_A_CHECK = "--logic-built", "--jobs"
SYSTEM = "x86_64-unknown-linux-gnu"


def lacking(names, uses_of):
    """The crates below these whose library isn't there as their files have it, but for those that are proved with them."""
    return crates.lacking({use for name in names for use in crates.below(name, uses_of)} - {*names}, uses_of)


def call(name, uses_of):
    """The prover's call for a crate, with a job for each processor."""
    words = crates.call(name, uses_of)
    words[words.index("--jobs") + 1] = len(os.sched_getaffinity(0))
    return [str(word) for word in words]


def said(name, words):
    """Runs the prover in the folder of a crate, and prints what it says but of what is proved; whether all is well."""
    how = {"cwd": crates.folder(name), "stdout": subprocess.PIPE, "stderr": subprocess.STDOUT, "text": True, "errors": "replace"}
    with subprocess.Popen([str(word) for word in words], **how) as process:
        for line in process.stdout:
            if not QUIET.match(line):
                print(line, end="", flush=True)
    return process.returncode == 0


def library(name, words):
    """Proves a library from nothing, and puts it in the place of the one that is there."""
    place = crates.library(name)
    new = place.with_suffix(".new")
    place.parent.mkdir(parents=True, exist_ok=True)
    shutil.rmtree(new, ignore_errors=True)
    if not said(name, [words[0], "build", *words[2:], "--statements", "-o", new]):
        return False
    shutil.rmtree(place, ignore_errors=True)
    new.rename(place)
    return True


def program(name, words):
    """Proves a program from nothing, and builds it as LLVM does."""
    kit, made = crates.kit(), crates.folder(name) / "out" / name
    of_check = [place for flag in OF_A_CHECK for place in range(words.index(flag), words.index(flag) + 2)]
    rest = [word for place, word in enumerate(words) if place > 1 and place not in of_check]
    made.parent.mkdir(exist_ok=True)
    with tempfile.TemporaryDirectory() as room:
        checked, built = f"{room}/checked", f"{room}/made.o"
        build = [words[0], "build", *rest, "--crate-checked", checked, "--toolchain", kit / "toolchain", "--backend", "llvm", "-o", built]
        link = [kit / "bin" / "rattle-link", "--target", SYSTEM, "--toolchain", kit / "toolchain", "-o", made, built]
        link += [kit / "c" / f"lib{part}_c.a" for part in ("os", "libc")]
        return said(name, [*words, "-o", checked]) and said(name, build) and said(name, link)


def prove(name, names, uses_of):
    """Proves a crate of those that are named, and prints what is said of it but of what is proved; whether it is proved."""
    words = call(name, uses_of)
    if crates.is_program(name):
        return program(name, words)
    if any(name in crates.below(other, uses_of) for other in names):
        return library(name, words)
    (crates.folder(name) / KEPT).mkdir(parents=True, exist_ok=True)
    return said(name, [*words, "--incremental", crates.folder(name) / KEPT])
