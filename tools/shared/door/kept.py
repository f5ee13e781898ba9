"""The certificate of a script: the one that is named, or the one that is kept beside the script, which is drafted where none is there, or the script is
another one than that for which it was drafted. The checksums of both stand in a file of their own, since a certificate has no key for them. It is
installed too, so it knows nothing of this repository."""
import hashlib
import os
from collections import namedtuple
from pathlib import Path

from shared import asking, certificates, drafting, progress, streams
from shared.door import inputs
from shared.door.inputs import CERTIFICATE, Given
from shared.mistakes import told

SUFFIX, CERTIFIED, DIGESTS, SCENARIOS = ".toml", ".certificate.json", ".certificate.digest", ".scenarios.toml"
# How a draft is named that is kept nowhere, and the text of a certificate without entries.
NOWHERE, EMPTY = "<draft>", certificates.text([]).encode()
# What of a yes shows that a draft has what no call comes to.
TOO_MUCH = ("entry_unreached", "entry_held", "point_unreached")
OWN = "it is taken as it stands, since it wasn't drafted here or was changed by hand; where it is taken away, one is drafted"
# What drafting came to: the certificate's text, what became of it, and the status of its page.
Draft = namedtuple("Draft", "text became status")


class Beside:
    """What is kept beside a script of this name."""

    def __init__(self, name):
        path = Path(name)
        stem = path.name.removesuffix(SUFFIX)
        self.script, self.certificate, self.digests = path, path.with_name(stem + CERTIFIED), path.with_name(stem + DIGESTS)
        self.scenarios = path.with_name(stem + SCENARIOS)

    def rows(self, script, certificate):
        """The checksums as `sha256sum` writes them."""
        pairs = ((script, self.script), (certificate, self.certificate))
        return "".join(f"{hashlib.sha256(text).hexdigest()}  {path.name}\n" for text, path in pairs)

    def is_drafted(self, certificate):
        """Whether a certificate is the one that was drafted here."""
        return self.kept_rows()[1:] == self.rows(b"", certificate).splitlines()[1:]

    def is_for(self, script):
        """Whether the draft was made for this script."""
        return self.kept_rows()[:1] == self.rows(script, b"").splitlines()[:1]

    def kept_rows(self):
        """The lines of the checksums; none where they can't be read."""
        try:
            return self.digests.read_text(encoding="utf-8", errors="surrogateescape").splitlines()
        except (OSError, ValueError):
            return []

    def keep(self, script, certificate):
        """Keeps a certificate with the checksums of both. Where that can't be, a line says so, and the answer is the same."""
        try:
            with asking.written(self.digests) as digests, asking.written(self.certificate, "b") as file:
                file.write(certificate)
                digests.write(self.rows(script, certificate))
        except (OSError, ValueError) as fault:
            streams.note(f"{self.certificate}: the draft isn't kept: {getattr(fault, 'strerror', None) or fault}")


def nothing():
    """What stands in the place of a certificate where a script isn't read: its faults come before those of a certificate."""
    return Given(CERTIFICATE, NOWHERE, EMPTY)


def has_mistakes(script):
    """Whether a script has mistakes, so that there is nothing to draft."""
    return bool(told.mistakes({inputs.SCRIPT: script.text}))


def made(script, start, find, is_wide=False, is_whole=False):
    """What drafting comes to, from a certificate on."""
    asked = drafting.Wanted(script.name, None, None, is_wide, is_whole)
    with progress.line() as tell:
        end = drafting.made(find("mgexplain"), [script.text, start], asked, tell)
    return end, Draft(certificates.text(end.entries).encode(), drafting.became(end, is_wide), end.page["status"])


def has_too_much(end):
    """Whether a draft that went on from another script has, or may have, what no call comes to."""
    return end.page["status"] != 0 or any(one["warning"] in TOO_MUCH for one in end.page.get("warnings", []))


def is_readable(script, certificate):
    """Whether a certificate is one of this script."""
    return not told.mistakes({inputs.SCRIPT: script.text, CERTIFICATE: certificate})


def drafted_from(script, start, find, **how):
    """A draft of a script from what stands: from nothing where nothing does, where that isn't of this script, or where it comes to what no call comes to."""
    if start is not None and is_readable(script, start):
        end, draft = made(script, start, find, **how)
        if not has_too_much(end):
            return draft
    return made(script, EMPTY, find, **how)[1]


def tell(draft, name):
    """Says on standard error what became of a draft."""
    entries = draft.text.count(b"\n") - 2
    streams.note(f"{name}: drafted, {draft.became}, with {entries} entr{'y' if entries == 1 else 'ies'}")


def kept(script, find):
    """The certificate that is kept beside a script; it is drafted where that has to be."""
    beside = Beside(script.name)
    start = None
    if beside.certificate.exists():
        given = inputs.needed({CERTIFICATE: os.fspath(beside.certificate)})[CERTIFICATE]
        if not beside.is_drafted(given.text):
            streams.note(f"{given.name}: {OWN}")
            return given
        if beside.is_for(script.text):
            return given
        start = given.text
    draft = drafted_from(script, start, find)
    tell(draft, beside.certificate)
    beside.keep(script.text, draft.text)
    return Given(CERTIFICATE, os.fspath(beside.certificate), draft.text)


def of(script, named, find):
    """The certificate of a script: the one that was named and read, else the one that is kept or drafted. Of a script with mistakes it is an empty one."""
    if named is not None:
        return named
    if has_mistakes(script):
        return nothing()
    if script.name != inputs.STANDARD_INPUT:
        return kept(script, find)
    draft = drafted_from(script, None, find)
    tell(draft, NOWHERE)
    return Given(CERTIFICATE, NOWHERE, draft.text)


def named(asked):
    """The files that are named to a command, by their kinds: its script, the certificate, and the plan."""
    return inputs.needed({inputs.SCRIPT: asked.script, CERTIFICATE: asked.certificate, inputs.PLAN: getattr(asked, inputs.PLAN, None)})


def files(asked, find):
    """The files that a command asks for: its script, the certificate of that, and its plan if one is named."""
    return completed(named(asked), find)


def completed(given, find):
    """The same of files that were read."""
    certificate = of(given[inputs.SCRIPT], given.get(CERTIFICATE), find)
    return [given[inputs.SCRIPT], certificate, *([given[inputs.PLAN]] if inputs.PLAN in given else [])]
