"""The messages of a run as a ladder of text, under its report. It is installed too, so it knows nothing of this repository."""
import textwrap

from shared import ladder_rows, request_words, run_words
from shared.ladder_rows import ANSWER, AT_CALL, LINE, LOST, REQUEST, RESTART, SENT

# How wide the columns are of where the call is, and of what goes between it and its gateway.
LEFT, MIDDLE = 34, 50
ENDS = {REQUEST: ("--", ">"), ANSWER: ("<", "--")}


def columns(left, middle, right):
    """A row of text."""
    return f"  {left:{LEFT}} |{middle:{MIDDLE}}|  {right}".replace(request_words.UNBROKEN, " ").rstrip()


def arrow(kind, words):
    """An arrow with the words upon it, as wide as the middle."""
    start, end = ENDS[kind]
    return f"{start} {words} ".ljust(MIDDLE - len(end), "-") + end


def where(row):
    """Where the call is behind a row, in words."""
    return " ".join(row.place) if row.place else ""


def beside(row):
    """What stands left and right of a row that is no message's end."""
    words = "; ".join(piece.words for piece in row.pieces)
    if row.kind in (SENT, LOST):
        words = f"sends: {words}"
    elif row.kind == LINE:
        words = f"{row.at}: {words}"
    elif row.place and row.at == AT_CALL:
        words = f"{words}: {where(row)}"
    return (words, "") if row.at == AT_CALL else ("", words)


def written(row):
    """A row of a ladder as lines of text; long words take more than one."""
    if row.kind in ENDS:
        said = [line for piece in row.pieces for line in textwrap.wrap(piece.words, MIDDLE - 8)]
        return [columns("", f"   {line}", "") for line in said[:-1]] + [columns(where(row), arrow(row.kind, said[-1]), "")]
    left, right = beside(row)
    if row.kind == RESTART:
        return [columns("", "-" * MIDDLE, right)]
    lefts = textwrap.wrap(left, LEFT) or [""]
    return [columns(line, "", right if at == 0 else "") for at, line in enumerate(lefts)]


def paragraphs(page):
    """The report of a run, and then the ladder of each call, paragraph by paragraph, each a list of lines."""
    if page["report"]:
        yield [line["line"] for line in page["report"]]
    for line in page["report"]:
        if "steps" in line:
            rows = (text for row in ladder_rows.rows(line["steps"]) for text in written(row))
            yield [line["line"], columns("the call", "", "its gateway"), *rows]
    yield from run_words.untold(page)
