"""`mgtool draft`: a certificate of a script. It is installed too, so it knows nothing of this repository."""
import sys

from shared import asking, explained
from shared.door import check, declarations, diagnostics, inputs, kept
from shared.door.inputs import CERTIFICATE, SCRIPT


def started(asked, beside):
    """The text of the certificate that is kept, where it was drafted. Where another one is there that would be written over the tool ends."""
    if beside is None or not beside.certificate.exists():
        return None
    found = inputs.needed({CERTIFICATE: str(beside.certificate)})[CERTIFICATE]
    if beside.is_drafted(found.text):
        return found.text
    if asked.target is None:
        asking.stop(f"{found.name}: it wasn't drafted here or was changed by hand, and isn't written over; -o names another file", asking.FILES)
    return None


def made(asked, script, named, beside, find):
    """The draft: from the certificate that is named, or from the one that is kept."""
    start, how = named.text if named is not None else started(asked, beside), {"is_wide": asked.is_wide, "is_whole": asked.is_whole}
    if named is not None or start is not None and beside.is_for(script.text):
        return kept.made(script, start, find, **how)[1]
    return kept.drafted_from(script, start, find, **how)


def written(asked, script, named, beside, find):
    """Makes the draft and writes it where it is asked for: beside its script, into a file, or to standard output; gives it, with the name."""
    if beside is not None and asked.target is None:
        draft = made(asked, script, named, beside, find)
        beside.keep(script.text, draft.text)
        return draft, beside.certificate
    name = None if asked.target in (None, declarations.STANDARD) else asked.target
    with asking.written(name) as file:
        draft = made(asked, script, named, beside, find)
        file.write(draft.text.decode())
    return draft, name or kept.NOWHERE


def done(asked, find):
    """Drafts what is asked for, and says what became of it; gives the status."""
    given = inputs.needed({SCRIPT: asked.script, CERTIFICATE: asked.certificate})
    script, named = given[SCRIPT], given.get(CERTIFICATE)
    if found := [*check.mistaken(given.values())]:
        asking.stop("\n".join(map(diagnostics.line, found)), asking.FILES)
    beside = None if script.name == inputs.STANDARD_INPUT else kept.Beside(script.name)
    draft, name = written(asked, script, named, beside, find)
    kept.tell(draft, name)
    if draft.status:
        words = explained.in_words(find("mgexplain"), [], [script.text, draft.text])[1]
        print(words.partition("\n")[2].strip("\n"), file=sys.stderr)
    return draft.status
