"""What `mgexplain` tells, as whoever asks wants to see it: in words, as what a service does state by state, as a ladder, as a picture for Graphviz, or as the
JSON value of its facts. It is installed too, so it knows nothing of this repository."""
import json
import re
from collections import namedtuple

from shared import arguments, asking, check_words, ladder_words, marked_pictures, run_words, scripts, unread_words

JSON, DOT, COVERAGE, LADDER, CALL, STRICT = "--json", "--dot", "--coverage", "--ladder", "--call", "--strict"
USAGE = f"SCRIPT CERTIFICATE [PLAN] [{JSON} | {DOT} | {COVERAGE} | {LADDER}] [{CALL} N] [{STRICT}] [--quiet]"
FORM = arguments.Form(2, 3, (CALL,), (JSON, DOT, COVERAGE, LADDER, STRICT))
# The number of a call, in decimal digits without leading zeros.
NUMBER = re.compile(r"0|[1-9][0-9]{0,9}")
# What is asked for: the names of the files, the word of the form or None for words, and the words for the program beside that of the form.
Wanted = namedtuple("Wanted", "names form words")


def wanted(given, usage):
    """What the words of a tool ask for."""
    names, options = arguments.read(FORM, given, usage)
    forms = [word for word in options if word in (JSON, DOT, COVERAGE, LADDER)]
    number, has_plan, is_strict = options.get(CALL), len(names) == 3, STRICT in options
    fit = (
        len(forms) <= 1,
        number is None or has_plan and NUMBER.fullmatch(number),
        not is_strict or not has_plan and forms in ([], [JSON]),
        has_plan if LADDER in forms else not has_plan if DOT in forms or COVERAGE in forms else True,
    )
    if not all(fit):
        asking.stop(f"usage: {usage}", asking.WORDS)
    return Wanted(names, *(forms or [None]), [*([CALL, number] if number is not None else []), *([STRICT] if is_strict else [])])


def text_of(paragraphs):
    """Paragraphs, each a list of lines, as a text with an empty line between two."""
    return "\n".join("".join(f"{line}\n" for line in paragraph) for paragraph in paragraphs)


def words_of(page, texts):
    """What is said of a page, paragraph by paragraph."""
    if "report" in page:
        return [*run_words.paragraphs(page)]
    if "fault" in page:
        return [[page["line"]], *unread_words.paragraphs(page, texts)]
    is_of_check = "obligation" in page or page["line"].startswith("yes ")
    return [[page["line"]], *(check_words.paragraphs(page, texts) if is_of_check else [])]


def view(form, page, texts):
    """A page in a form."""
    if form == DOT:
        return text_of([[*marked_pictures.lines(page, texts)]])
    if form == COVERAGE and page.get("line", "").startswith("yes "):
        return text_of(check_words.covered(page, texts))
    if form == LADDER and "report" in page:
        return text_of([*ladder_words.paragraphs(page)])
    return text_of(words_of(page, texts))


def told(program, words, texts):
    """The status of the program, and the page that it tells of these texts; none where it tells nothing, as where a read failed."""
    status, output = asking.told(program, [JSON, *words], texts)
    return status, json.loads(output) if output else None


def in_words(program, words, texts):
    """The status of the program, and what is said of these texts."""
    status, page = told(program, words, texts)
    return status, "" if page is None else view(None, page, texts)


def explained(asked, find):
    """Says what is asked for, with the program that `find` finds; gives the status."""
    return answered(asked, asking.read(asked.names), find)


def answered(asked, texts, find):
    """The same of files that were read."""
    if asked.form == JSON:
        return asking.ask(find("mgexplain"), [JSON, *asked.words], texts)
    scripts.can_read()
    status, page = told(find("mgexplain"), asked.words, texts)
    if page is not None:
        if "fault" not in page:
            scripts.look(asked.names[::2], texts[::2])
        print(view(asked.form, page, texts), end="")
    return status
