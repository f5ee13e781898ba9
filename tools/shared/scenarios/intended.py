"""The intents of a file of scenarios, a test for each state that has some: what doesn't hold of them by the facts of a yes. It is installed too, so it knows
nothing of this repository."""
from collections import namedtuple
from xml.sax.saxutils import escape, quoteattr

from shared.door import diagnostics, forms, intents
from shared.door.diagnostics import ERROR
from shared.door.junit import plain

# The intents of a state: what they are called, their place in the file, and what is told of those that don't hold, each error with its notes.
Intended = namedtuple("Intended", "name place told")


def judged(page, script, file, tables):
    """The intents of each state, judged by the facts of a yes."""
    where = intents.Places(script, file)
    return [Intended(f"intents of {state}", where(state)[1], intents.told(page, {state: intent}, where)) for state, intent in tables.items()]


def asked_for(found, word):
    """Those that are asked for by a word of their names."""
    return [one for one in found if word is None or word in one.name]


def headline(one):
    """Whether the intents of a state hold, in a line."""
    return f"{'failed' if one.told else 'ok':8}{one.name}"


def lines_of(one):
    """The lines on the intents of a state."""
    return [headline(one), *map(diagnostics.line, one.told)]


def record(one):
    """The intents of a state as an object."""
    found = {"name": one.name, "at_line": one.place.line, "at_column": one.place.column, "outcome": "failed" if one.told else "passed"}
    return {**found, "diagnostics": [*map(forms.record, one.told)]} if one.told else found


def case(one, name):
    """The intents of a state as a test of JUnit XML."""
    shown = f'<testcase classname="mgtool.test" name={quoteattr(plain(one.name))} file={quoteattr(plain(name))}>'
    said = f"<system-out>{escape(plain(headline(one)))}</system-out></testcase>\n"
    if not one.told:
        return f"{shown}{said}"
    first = next(told for told in one.told if told.severity == ERROR)
    failure = f"<failure type={quoteattr(first.rule)} message={quoteattr(plain(first.text))}>{escape(plain(chr(10).join(lines_of(one))))}</failure>"
    return f"{shown}{failure}{said}"
