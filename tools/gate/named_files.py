"""What `mgexplain` says of files that its words name, for `tools/gate/explain`: it is what it says of them on standard input, and their length counts alike."""
import subprocess
import tempfile
from pathlib import Path

from gate.told_words import asked
from shared.mistakes.told import MOST_BYTES
from shared.programs import TOP

SHOWN, SHOWN_RUN = "gallery/first/12_quiet_after_tone", "gallery/patterns/armed_for/without"


def files_are_read(program):
    """What is wrong with what is said of files that words name: it has to be what is said of them on standard input."""
    for folder, names, words in (
        (SHOWN, ("script.toml", "certificate.json"), ()),
        (SHOWN, ("script.toml", "certificate.json"), ("--json",)),
        (SHOWN_RUN, ("script.toml", "certificate.json", "plan.toml"), ("--json", "--call", "0")),
        (SHOWN, ("certificate.json", "script.toml"), ()),
    ):
        paths = [TOP / folder / name for name in names]
        joined = b"%%\n".join(path.read_bytes() for path in paths)
        if asked(program, b"", *paths, *words) != asked(program, joined, *words):
            yield f"{' '.join(names)} of {folder} {' '.join(words)}: not as on standard input"
    for name in ("not_there.json", "."):
        result = subprocess.run([program, TOP / SHOWN / "script.toml", TOP / SHOWN / name], stdin=subprocess.DEVNULL, capture_output=True, check=False)
        if (result.returncode, result.stdout, result.stderr.decode()) != (6, b"", f"mgexplain: {TOP / SHOWN / name} can't be read\n"):
            yield f"{name}: {result}"


def of_full_length(program):
    """What is wrong with what is said of files that are as long together as an input may be, with the line between them, and of a byte more. They are read to
    their sections, of which there are too many: reading documents of that length takes a program without proofs minutes."""
    divided = b"%%\n%%\n"
    with tempfile.TemporaryDirectory() as name:
        paths = [Path(name) / part for part in ("script.toml", "certificate.json")]
        paths[1].write_bytes(b"{}\n")
        length = MOST_BYTES - len(b"\n%%\n") - len(paths[1].read_bytes())
        for more, line in ((0, "input fault 1 Sections"), (1, "input fault 2 TooLong")):
            paths[0].write_bytes(divided + b"#" * (length - len(divided) + more))
            status, text = asked(program, b"", *paths)
            if (status, text.partition("\n")[0]) != (3, line):
                yield f"files of {MOST_BYTES + more} bytes together: {status} {text[:80]!r}, in place of {line}"
