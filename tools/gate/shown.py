"""The commands that a page shows. In a block that is indented, or fenced as `sh` or without a word, a line that begins as a command is one, and so is the first
line of a block, where it isn't fenced without a word; a backslash joins the next line. What a command prints stands behind ` # `, or on the lines below it.
Within a sentence a command stands in backquotes, and has two words at least, since one alone is a name."""
import re
from collections import namedtuple

from gate.sentences import INDENTED, kinds, prose, spans

# A command of a page: the number of its line, its words as one text, and what the page says that it prints, if it says so.
Command = namedtuple("Command", "line text output")
BLOCKS = (INDENTED, "sh", "")
PROGRAMS = r"mgcall[\w-]*|mgexplain|make|rt|git|cat|cp|echo|sed|cc|gcc|spin|rumur|(?:tools|crates/\w+/out|examples/pipeline)/\S+|\./\S+|\S+\.sh"
BEGINS = re.compile(rf"(?:[A-Z]+=\S+ )*(?:{PROGRAMS})(?: |$)")


def of_blocks(text):
    """The commands of a page's blocks."""
    found, is_open = [], False
    for number, line, kind in kinds(text):
        said = line.strip()
        if kind not in BLOCKS:
            is_open = False
        elif is_open and found[-1][1].endswith("\\"):
            found[-1][1] = found[-1][1].removesuffix("\\") + said
        elif said and (BEGINS.match(said) or kind and not is_open):
            found.append([number, said, []])
            is_open = True
        elif said and is_open:
            found[-1][2].append(said)
    for number, said, below in found:
        command, _, behind = said.partition(" # ")
        yield Command(number, command.strip(), "\n".join([behind.strip()] * bool(behind) + below) or None)


def of_sentences(text):
    """The commands of a page's sentences, of which the page doesn't say by itself what they print."""
    for number, span in spans(list(prose(text))):
        words = " ".join(span.split())
        if " " in words and BEGINS.match(words):
            yield Command(number, words, None)
