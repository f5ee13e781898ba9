"""The crates that mgcall consists of by name, and the libraries that have to be used, by `crates.txt` and by a `use` in the sources. Merging
crates or replacing a library by own code must not lose one of them."""
import re
from collections.abc import Iterator

from shared import crates

CRATES = (
    "mg_names", "digits", "scriptreader", "terminations", "contexts", "line_events", "delivery", "gateway", "agent", "configuration", "certificate",
    "closure", "parcheck", "composition", "runner", "mgcall",
)  # fmt: skip
# Each library with the crates that use it.
LIBRARIES = {
    "toml": ("typed_values", "scriptreader", "plans"),
    "serde_json": ("certificate",),
    "rayon": ("parcheck",),
    "crossbeam_queue": ("handover",),
    "slab": ("identifiers",),
    "thiserror": ("digits", "scriptreader", "certificate", "contexts", "gateway", "agent", "composition"),
    "clap": ("program_rim",),
}


def has_sources(name: str) -> bool:
    """Whether a crate has a library or a program."""
    return any((crates.folder(name) / "src" / file).is_file() for file in ("lib.rt", "main.rt"))


def is_used(library: str, name: str) -> bool:
    """Whether a source of a crate has a `use` of a library, or names an item of it."""
    texts = (path.read_text() for path in (crates.folder(name) / "src").rglob("*.rt"))
    return any(re.search(rf"^(?!//).*\b{library}::", text, re.MULTILINE) for text in texts)


def looked() -> Iterator[tuple[str, bool]]:
    """For each required crate and each required use of a library: what is wrong if it is missing, and whether it is there."""
    uses_of = crates.libraries()
    for name in CRATES:
        yield f"the required crate {name} is missing in crates.txt or has no sources", name in uses_of and has_sources(name)
    for library, users in LIBRARIES.items():
        for name in users:
            yield f"crates.txt has no {library} for {name}", library in uses_of.get(name, ())
            yield f"no source of {name} uses {library}", is_used(library, name)
