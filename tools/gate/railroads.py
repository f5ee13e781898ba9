"""The grammars of docs/use/FORMATS.md as railroads of text: a text of a grammar is what stands along a way from the left to the right. A way that goes below
another is taken in its place, and one with an arrow to the left goes back. `tools/gate/manual` writes them into the page."""
import re
from collections import namedtuple

# A piece of a railroad: its lines, all as wide, and which of them is the way through it.
Piece = namedtuple("Piece", "lines way")
BLOCK = re.compile(r"^```railroad (\w+)\n(.*?)^```$", re.MULTILINE | re.DOTALL)


def word(text):
    """A piece of one word."""
    return Piece([f" {text} "], 0)


def piece(one):
    """A piece, or a text as a piece."""
    return one if isinstance(one, Piece) else word(one)


def row(*parts):
    """Pieces one behind the other."""
    pieces = [piece(part) for part in parts]
    above, below = max(one.way for one in pieces), max(len(one.lines) - one.way for one in pieces)
    lines = [""] * (above + below)
    for one in pieces:
        for number in range(above + below):
            at, is_way = number - above + one.way, number == above
            own = one.lines[at] if 0 <= at < len(one.lines) else " " * len(one.lines[0])
            lines[number] += f"-{own}" if is_way else f" {own}"
    return Piece([f"{line}-" if number == above else f"{line} " for number, line in enumerate(lines)], above)


def padded(one, wide):
    """The lines of a piece, as wide as is said."""
    return [line.ljust(wide, "-" if number == one.way else " ") for number, line in enumerate(one.lines)]


def choice(*parts):
    """Pieces one below the other, of which one is taken."""
    pieces = [row(part) if part else Piece(["-"], 0) for part in parts]
    wide, lines, ways = max(len(one.lines[0]) for one in pieces), [], []
    for one in pieces:
        ways.append(len(lines) + one.way)
        lines += padded(one, wide)
    ends = ["+" if number in ways else "|" if ways[0] < number < ways[-1] else " " for number in range(len(lines))]
    return Piece([f"{end}{line}{end}" for end, line in zip(ends, lines)], ways[0])


def maybe(part):
    """A piece that may be left out."""
    return choice(None, part)


def back(part, between=None):
    """A piece that may be taken again, with something between."""
    one, other = row(part), row(f"<- {between}" if between else "<-")
    wide = max(len(one.lines[0]), len(other.lines[0]))
    lines = [*padded(one, wide), *padded(other, wide)]
    last = len(one.lines)
    ends = ["+" if number in (one.way, last) else "|" if one.way < number < last else " " for number in range(len(lines))]
    return Piece([f"{end}{line}{end}" for end, line in zip(ends, lines)], one.way)


OPTIONS = maybe(back("OPTION"))
POSITION = choice("0 to 9", "E", "F", "x", row("[", back(choice("0 to 9", "2-7", "E", "F")), "]"))
RAILROADS = {
    "command": choice(
        row("add", choice("CONTEXT", "$CONTEXT"), choice("LINE", "$EPHEMERAL"), OPTIONS),
        row("modify", choice("CONTEXT", "-"), "TERMINATION", OPTIONS),
        row("move", "CONTEXT", "TERMINATION", OPTIONS),
        row("subtract", "CONTEXT", choice("TERMINATION", "*")),
        row("topology", "CONTEXT", "FIRST", "SECOND", choice("isolate", "oneway", "bothway")),
    ),
    "map": back(back(POSITION), "|"),
    "step": choice(
        row(choice("off", "on", "flash", "pause"), "l"),
        row("digit", "l", "s"),
        row("end", "l", "SIGNAL"),
        row("execute", maybe("n"), maybe(row("refuse", "p"))),
        row(choice("reply", "note"), maybe("n")),
        choice("pass", "timer", "hear", "begin", "restart"),
    ),
}


def drawn(name):
    """A railroad as a text."""
    return "".join(f"{line.rstrip()}\n" for line in row(RAILROADS[name]).lines)


def written(text):
    """A page with its railroads as they are."""
    return BLOCK.sub(lambda found: f"```railroad {found[1]}\n{drawn(found[1])}```", text)
