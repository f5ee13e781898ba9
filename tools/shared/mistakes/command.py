"""The words of the command that tells mistakes, and what it does. It is installed too, so it knows nothing of this repository."""
import re

from shared import arguments, asking

try:
    from shared.mistakes import told
except re.error:
    # Patterns that give back nothing that they took came with Python 3.11.
    told = None

USAGE = "[SCRIPT [CERTIFICATE [PLAN]]] [--certificate FILE] [--plan FILE] [--json] [--quiet]"
JSON, NAMED = "--json", ("--certificate", "--plan")
FORM = arguments.Form(0, 3, NAMED, (JSON,))


def wanted(given, usage):
    """The names of the files by their formats, and whether JSON is asked for."""
    if told is None:
        asking.stop("mistakes are found by Python 3.11 or a later one", asking.NO_PROGRAM)
    files, options = arguments.read(FORM, given, usage)
    by_place = dict(zip(told.FORMATS, files))
    by_option = {word.removeprefix("--"): options[word] for word in NAMED if word in options}
    if not by_place and not by_option or by_place.keys() & by_option.keys():
        asking.stop(f"usage: {usage}", asking.WORDS)
    names = by_place | by_option
    return {document: names[document] for document in told.FORMATS if document in names}, JSON in options


def tell(names, is_json):
    """Prints the mistakes of the files of these names; the status to end with."""
    found = told.mistakes(dict(zip(names, asking.read(names.values()))))
    shown = {document: "<stdin>" if name == arguments.STANDARD else name for document, name in names.items()}
    lines = [told.as_json(shown, found)] if is_json else [told.line(shown[mistake.document], mistake) for mistake in found]
    if lines:
        asking.tell(lines)
    return asking.FILES if found else 0
