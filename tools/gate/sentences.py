"""The pages as their sentences: what stands in a paragraph, an item of a list or a row of a table, without the signs of its markup."""
import re

# What a line of a page is of, where it isn't fenced.
PROSE, INDENTED = "prose", "indented"
ITEM = re.compile(r"\s*(?:[-*]|\d+\.) ")
END = re.compile(r"(?:(?<=[.?!])|(?<=[.?!]\*\*)|(?<=[.?!][)`]))\s+(?=[A-Z`(\[*])")
ESCAPES = ((r"\\f[BIRP]", ""), (r"\\-", "-"), (r"\\\(ha", "^"), (r"\\\(ti", "~"), (r"\\\(aq", "'"), (r"\\[%&]", ""), (r"\\~", " "))


def kinds(text):
    """The lines of a page, each with its number and with what it is: of a code block that is indented, or that is fenced with this word, or of none. Of a fence
    itself nothing stands there."""
    fence = None
    is_code, is_open = False, True
    for number, line in enumerate(text.splitlines(), 1):
        if line.lstrip().startswith("```"):
            fence = line.strip(" `") if fence is None else None
            yield number, "", PROSE
        else:
            is_code = fence is None and line.startswith("    ") and (is_open or is_code)
            yield number, line, fence if fence is not None else INDENTED if is_code else PROSE
        is_open = not line.strip() or is_code and is_open


def prose(text):
    """The lines of a page, each with its number; of code blocks, indented or fenced, nothing stands in them."""
    for number, line, kind in kinds(text):
        yield number, line if kind == PROSE else ""


def spans(lines):
    """What stands in backquotes, also over the end of a line, with the line where it begins."""
    text = "\n".join(line for _, line in lines)
    for found in re.finditer(r"(?<!`)`([^`]+)`(?!`)", text):
        yield lines[text.count("\n", 0, found.start())][0], found[1]


def man_lines(text):
    """The lines of a man page as those of prose: a macro of fonts is its words, and each other macro ends a paragraph."""
    for number, line in enumerate(text.splitlines(), 1):
        name, _, words = line.partition(" ")
        if line.startswith((".", "'")):
            is_font = re.fullmatch(r"\.[BIR]{1,2}", name)
            parts = re.findall(r'"([^"]*)"|(\S+)', words) if is_font else []
            line = ("" if is_font and len(name) == 3 else " ").join(quoted or bare for quoted, bare in parts)
        for sign, plain in ESCAPES:
            line = re.sub(sign, plain, line)
        yield number, line


def blocks(lines):
    """The paragraphs, items and rows of these lines, each as its first line's number and its text."""
    found = None
    for number, line in lines:
        begins = not line.strip() or line.lstrip().startswith(("|", "#")) or ITEM.match(line)
        if begins and found:
            yield found
            found = None
        if line.strip():
            found = (found[0], f"{found[1]} {line.strip()}") if found else (number, line.strip())
    if found:
        yield found


def plain(text):
    """A text without the signs of its markup, with one space between its words."""
    return " ".join(re.sub(r"\[([^\]]*)\]\([^)]*\)", r"\1", text).replace("`", "").replace("*", "").split())


def of_page(name, text):
    """The sentences of a page as they stand, each with the number of the line where its block begins."""
    for number, block in blocks(prose(text) if name.endswith(".md") else man_lines(text)):
        for sentence in END.split(block):
            yield number, sentence
