"""The line of `mgcall check` for long documents with mistakes, without the program: built without proofs, it takes minutes for a few megabytes. It is installed
too, so it knows nothing of this repository."""
from __future__ import annotations

import json
import tomllib
from collections.abc import Sequence

from shared.door.inputs import CERTIFICATE, SCRIPT, Given
from shared.mistakes.told import Mistake

# From how many bytes on a document is long. No script of the most states and commands comes near it by its own parts.
LONG = 262_144
# How a document is no TOML or no JSON, and the libraries that say so too.
NO_TEXT = ("NotToml", "NotJson")
READERS = {SCRIPT: lambda text: tomllib.loads(text.decode("utf-8-sig")), CERTIFICATE: json.loads}


def is_read(document: Given) -> bool:
    """Whether a library that shares nothing with the view of mistakes reads a document as TOML or JSON."""
    try:
        READERS[document.kind](document.text)
    except (RecursionError, ValueError):
        return False
    return True


def lowest(found: Sequence[Mistake], kind: str) -> Mistake | None:
    """The mistake of a document with the lowest number: its fault is the one that the program names."""
    return min((one for one in found if one.of == kind), key=lambda one: one.fault_number, default=None)


def line_of(found: Sequence[Mistake], given: Sequence[Given], least: int = LONG) -> str | None:
    """The line for documents with these mistakes. None if no document is long, or it isn't certain what the program says: then the program is asked."""
    if max(len(one.text) for one in given) < least or any(one.of == "input" for one in found):
        return None
    for document in given:
        first = lowest(found, document.kind)
        if is_read(document) != (first is None or first.fault_name not in NO_TEXT):
            return None
        if first is not None:
            return f"{first.of} fault {first.fault_number} {first.fault_name}"
    return None
