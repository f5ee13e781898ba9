"""What goes on at the telephones of a call, step by step: whose receiver is lifted, what plays, and who hears whom, as far as `mgexplain` tells it. It is
installed too, so it knows nothing of this repository."""
import itertools
from collections import namedtuple

# Something that is so from a step on, by its place, until before another one; `end` is None where it is so to the end.
Span = namedtuple("Span", "value first end")
# The steps that move a receiver.
HOOKS = {"off": True, "on": False}


def lifted(steps, before):
    """Behind each step whose receivers are lifted, where these were before."""
    now = {*before}
    for step in steps:
        word, *more = step["step"].split()
        if step["came"] == "event" and word in HOOKS:
            (now.add if HOOKS[word] else now.discard)(more[0])
        yield frozenset(now)


def tones(steps, line):
    """Behind each step what plays on a line."""
    for step in steps:
        yield next((tuple(one["signals"]) for one in step["plays"] if one["on_line"] == line), ())


def hearing(steps):
    """Behind each step who hears whom, as pairs of who is heard and who hears."""
    for step in steps:
        yield frozenset((one["from"], one["to"]) for one in step.get("hears", []))


def spans(values):
    """The spans of values that follow each other; what is empty or false has none."""
    listed, place = [*values], 0
    for value, these in itertools.groupby(listed):
        end = place + len([*these])
        if value:
            yield Span(value, place, end if end < len(listed) else None)
        place = end


def lifted_spans(steps, line, before):
    """When the receiver of a line is lifted; where it was so before the first step, from there on."""
    now = [line in these for these in lifted(steps, before)]
    return [one._replace(first=None) if one.first == 0 and line in before else one for one in spans(now)]


def joins(steps, lines):
    """When two lines hear each other, or one the other: the pair in the order of the lines, and which of both ways are so."""
    heard = [*hearing(steps)]
    for one, other in itertools.combinations(lines, 2):
        ways = [tuple(pair for pair in ((one, other), (other, one)) if pair in these) for these in heard]
        yield from (((one, other), span) for span in spans(ways))
