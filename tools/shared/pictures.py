"""A script's state machine as a text for Graphviz. It says what the script says, and checks nothing. It is installed too, so it knows nothing of this
repository."""
from shared import asking, scripts

KINDS = ("on", "of", "fl", "full", "part")


def ways_out(state, lines):
    """The ways out of a state, each with the state that it leads to: the reply's, the timer's, then the notes' by line and kind."""
    for key in ("ok", "fault", "timer"):
        if key in state:
            yield key, state[key]
    for line in lines:
        for kind in KINDS:
            if kind in state.get("on", {}).get(line, {}):
                yield f"{line}.{kind}", state["on"][line][kind]


def label(texts):
    """Texts, one below the other."""
    return '"' + "\\n".join(texts) + '"'


def node(state, more=""):
    """A state's node, with what more is said of how it is drawn."""
    told = label([state["name"], *(f"talk {pair}" for pair in state.get("talk", []))])
    shape = "doublecircle" if state.get("end") else "box" if state.get("do") else "ellipse"
    return f'  "{state["name"]}" [shape={shape}, label={told}{more}];'


def arcs(state, lines, taken=None, more=""):
    """A state's arcs, one for each state that it leads to; the one that is taken by this word is drawn otherwise."""
    ways = {}
    for word, target in ways_out(state, lines):
        ways.setdefault(target, []).append(word)
    for target, told in ways.items():
        yield f'  "{state["name"]}" -> "{target}" [label={label(told)}{more if taken in told else ""}];'


def picture(script):
    """The text for Graphviz."""
    states = script.get("state", [])
    yield "digraph machine {"
    yield '  node [fontname="Helvetica", fontsize=12];'
    yield '  edge [fontname="Helvetica", fontsize=10];'
    for way in ("start", "restart"):
        yield f'  "the {way}" [shape=plaintext, label="{way}"];'
    yield from map(node, states)
    for way in ("start", "restart"):
        yield f'  "the {way}" -> "{script[way]}" [style=dashed];'
    for state in states:
        yield from arcs(state, script["lines"])
    yield "}"


def drawn(name, checker):
    """Tells the picture of the script in the file of this name. Where the file is no script, one line says which command says why."""
    scripts.can_read()
    return told(name, *asking.read([name]), checker)


def told(name, written, checker):
    """The same of a script that was read."""
    try:
        lines = [*picture(scripts.read(written))]
    except (AttributeError, KeyError, RecursionError, TypeError, ValueError):
        asking.stop(f"{name}: no script; {checker} says why", asking.FILES)
    asking.tell(lines)
    return 0
