"""Inputs that nobody wrote: the examples, the stored cases and the stored runs, with their scripts, certificates and plans changed by byte, by token and by
tree. Each is told by a seed and a number and is the same each time."""
import random
import re

from gate import answers, trees
from shared import programs

EXAMPLES = programs.TOP / "examples"
TESTS = programs.TOP / "tests"
DIVIDER = b"%%\n"
LONG = (17, 300, 5_000, 70_000)
DEPTHS = (2, 79, 80, 81, 126, 127, 128, 1_000, 100_000)
NUMBERS = (
    "0 1 2 15 16 17 64 65 255 256 65535 65536 4294967294 4294967295 4294967296 9223372036854775807 9223372036854775808 18446744073709551615 "
    "18446744073709551616 -1 -0 +1 -9223372036854775808 -9223372036854775809 00 01 1_000 0x10 0b1 1.0 2.0 1e400 -1e-400 inf nan 1979-05-27"
).split()
WORDS = (
    "lines contexts ephemerals start restart events signals maps state name list map do talk end ok fault timer on of fl full part version entries link "
    "at mode plays remote cuts sent rest none armed gone absent free live stale no may yes Inactive SendOnly ReceiveOnly SendReceive al/on al/of al/fl "
    "al/on=state al/of=exact dd/ce= cg/dt al/ri cg/rt cg/bt cg/ct add modify move subtract topology isolate oneway bothway * - $ $c $e a b g h c d e f "
    "a-b a>b b>a a>a idle done call epochs shards off flash pause digit execute refuse reply pass note hear begin true false null [ ] { } = , . # '"
).split()
BYTES = (b"\0", b"\xff", b"\x80", b"\xc0\x80", b"\xed\xa0\x80", b"\xf4\x90\x80\x80", b"\xc3", b"\xef\xbb\xbf", b"\r", b"\r\n", b"\n", b"\x7f", b"\x1b", b"\\")
TOKEN = re.compile(rb'"(?:[^"\\\n]|\\.)*"|[A-Za-z_][A-Za-z0-9_.]*|[-+]?[0-9][0-9_.]*|[ \t]+|.', re.S)
PAIR = re.compile(rb'"\w+" *: *(?:\[[^][]*\]|"[^"]*"|[0-9]+) *,')


def sources():
    """The name and the sections of each example, stored case and stored run."""
    for folder in sorted(path.parent for path in EXAMPLES.glob("*/script.toml")):
        parts = [(folder / name).read_bytes() for name in ("script.toml", "certificate.json", "plan.toml") if (folder / name).exists()]
        yield folder.name, parts
    for path in sorted((*TESTS.glob("cases/*.in"), *TESTS.glob("runs/*.in"))):
        yield f"{path.parent.name}/{path.stem}", answers.sections(path.read_bytes())


def part_of(draw, text):
    """Where a part of a text begins and ends, most often a short one."""
    start = draw.randrange(len(text) + 1)
    return start, min(len(text), start + draw.choice((0, 1, 1, 2, 5, 20, 200)))


def spoiled(draw):
    """Some bytes to put in."""
    kind = draw.randrange(3)
    if kind == 0:
        return draw.choice(BYTES) * draw.choice((1, 1, 1, 2, 100))
    if kind == 1:
        return draw.choice((b"\n%%\n", b"\n%%\r\n", b"%%", b"\n%% \n", b"\n %%\n", b"\n%%%\n"))
    return draw.randbytes(draw.choice((1, 2, 8, 100)))


def by_byte(draw, text, others):
    """A bit turned, bytes left out, put in, taken twice or changed places, the end left out, other line ends, a byte order mark."""
    start, end = part_of(draw, text)
    kind = draw.randrange(9)
    if kind == 0 and start < len(text):
        return text[:start] + bytes([text[start] ^ 1 << draw.randrange(8)]) + text[start + 1 :]
    if kind == 1:
        return text[:start] + text[end:]
    if kind == 2:
        return text[:start] + spoiled(draw) + text[start:]
    if kind == 3:
        return text[:end] + text[start:end] * draw.choice((1, 1, 2, 50)) + text[end:]
    if kind == 4:
        return text[:start]
    if kind == 5:
        return text.replace(b"\n", draw.choice((b"\r\n", b"\r", b"\n\n", b"")))
    if kind == 6:
        return b"\xef\xbb\xbf" + text
    if kind == 7:
        other = draw.choice(others)
        first, last = part_of(draw, other)
        return text[:start] + other[first:last] + text[end:]
    return text[:start] + spoiled(draw) + text[end:]


def written_value(draw):
    """The text of a value or a word, of a number at a limit, of a very long one, of one that nests."""
    kind = draw.randrange(8)
    if kind < 2:
        return draw.choice(NUMBERS).encode()
    if kind == 2:
        return draw.choice((b"9", b"0", b"1")) * draw.choice(LONG)
    if kind == 3:
        return b'"' + draw.choice((b"a", b"0", b"\\u0000", b"\\ud800", "é".encode(), b"12|", b"x")) * draw.choice(LONG) + b'"'
    if kind == 4:
        depth = draw.choice(DEPTHS)
        opened, closed = draw.choice(((b"[", b"]"), (b'{"a":', b"}"), (b"{a=", b"}")))
        return opened * depth + (b"1" if opened != b"[" else b"") + closed * depth
    word = draw.choice(WORDS).encode()
    return word if kind == 5 else b'"' + word + b'"'


def changed_words(draw, token):
    """A text in quotes with one of its words changed."""
    words = token[1:-1].split(b" ")
    place = draw.randrange(len(words))
    kind = draw.randrange(5)
    if kind == 0:
        words[place] = draw.choice(WORDS + NUMBERS).encode()
    elif kind == 1:
        del words[place]
    elif kind == 2:
        words.insert(place, words[draw.randrange(len(words))])
    elif kind == 3:
        other = draw.randrange(len(words))
        words[place], words[other] = words[other], words[place]
    else:
        words[place] = words[place].swapcase() if draw.random() < 0.5 else words[place] + draw.choice((b" ", b"0", b"_", b"=", b"-"))
    return b'"' + b" ".join(words) + b'"'


def by_token(draw, text, others):
    """A token left out, taken twice, changed places with another or given another value; a line or a key twice; a word within a text changed."""
    kind = draw.randrange(8)
    if kind == 0:
        lines = text.split(b"\n")
        place, other = draw.randrange(len(lines)), draw.randrange(len(lines))
        lines[place : place + 1] = draw.choice(([], [lines[place]] * 2, [lines[other], lines[place]], draw.choice(others).split(b"\n")[:3]))
        return b"\n".join(lines)
    if kind == 1 and (pairs := list(PAIR.finditer(text))):
        pair = draw.choice(pairs)
        return text[: pair.start()] + pair[0] + text[pair.start() :]
    tokens = [token for token in TOKEN.findall(text)]
    places = [place for place, token in enumerate(tokens) if not token.isspace()]
    if not places:
        return text
    place, other = draw.choice(places), draw.choice(places)
    if kind == 2:
        tokens[place], tokens[other] = tokens[other], tokens[place]
    elif kind == 3:
        tokens[place] = draw.choice((b"", tokens[place] * 2, tokens[place] + b" " + tokens[place]))
    elif kind == 4:
        tokens[place] = tokens[other]
    elif kind == 5:
        tokens[place] = written_value(draw)
    else:
        quoted = [n for n in places if tokens[n][:1] == b'"' and len(tokens[n]) > 2] or [place]
        place = draw.choice(quoted)
        tokens[place] = changed_words(draw, tokens[place]) if kind == 6 or tokens[place][:1] != b'"' else written_value(draw)
    return b"".join(tokens)


def by_tree(draw, text, others):
    """A key or an item left out, taken twice, moved or given another value, and the text written anew; or as it is, where there is no tree."""
    is_json = text.lstrip()[:1] == b"{"
    read = answers.json_tree if is_json else answers.toml_tree
    tree = read(text)
    if tree is None:
        return by_byte(draw, text, others)
    found = [other for other in (read(text) for text in draw.sample(others, min(3, len(others)))) if other]
    tree = trees.changed(draw, tree, found or [tree])
    return trees.json_text(tree) if is_json else trees.toml_text(tree)


def with_plan(draw, parts):
    """The sections with a plan, most often the one that is there, else one that is made up for the script."""
    if len(parts) > 2 and draw.random() < 0.6 or len(parts) < 2:
        return parts
    if len(parts) == 2 and draw.random() < 0.3:
        return parts
    return [*parts[:2], trees.toml_text(trees.plan(draw, (answers.toml_tree(parts[0]) or {}).get("lines")))]


def join(parts):
    """The sections as one input."""
    return b"".join(part if place == 0 else DIVIDER + part for place, part in enumerate(parts))


class Generator:
    """The inputs of a seed, by their numbers."""

    def __init__(self, seed):
        self.seed = seed
        self.sources = list(sources())
        self.others = [[parts[place] for _, parts in self.sources if len(parts) > place] for place in range(3)]

    def changed(self, draw, parts):
        """The sections with one of them changed."""
        place = draw.randrange(len(parts))
        by = draw.choice((by_byte, by_token, by_token, by_tree, by_tree, by_tree, by_tree, by_tree))
        return [by(draw, part, self.others[min(at, 2)]) if at == place else part for at, part in enumerate(parts)]

    def case(self, number):
        """The name of an input and the input."""
        draw = random.Random(f"{self.seed} {number}")
        name, parts = draw.choice(self.sources)
        parts = with_plan(draw, parts)
        for _ in range(draw.choice((0, 1, 1, 1, 1, 1, 1, 2, 2, 5))):
            parts = self.changed(draw, parts)
        text = join(parts)
        if draw.random() < 0.05:
            text = by_byte(draw, text, [join(parts) for _, parts in self.sources])
        return name, text
