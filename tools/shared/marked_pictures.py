"""A script's state machine as a text for Graphviz, drawn as pictures of scripts are, with what a No names marked: the state of its point, and the way of its
step. It says what the script and `mgexplain` say, and decides nothing. It is installed too, so it knows nothing of this repository."""
from shared import certificates, pictures, scripts

MARKED_NODE = ', color=red, style=filled, fillcolor=mistyrose, xlabel="{}"'
MARKED_WAY = ", color=red, fontcolor=red, penwidth=2"


def named(page):
    """The configuration that a No names, and the words on its place; nothing where the page is of no No."""
    if "point" in page:
        told = page["point"]
        step = f": {page['step']['step']}" if "step" in page else ""
        return told["configuration"], f"entry {told['entry_place']}, point {told['point_number']}{step}"
    return page.get("uncovered"), "in no entry"


def way_of(page, configuration):
    """The word of the way that the step of a No takes from its point; None where it takes none."""
    step = page.get("step", {}).get("step")
    return {"ok": "ok", "fault": "fault"}.get(certificates.link(configuration)) if step == "reply" else step


def states(script, page):
    """The lines on the states of a script with their ways."""
    configuration, words = named(page)
    for state in script["state"]:
        is_marked = configuration is not None and configuration["state"] == state["name"]
        yield pictures.node(state, MARKED_NODE.format(words) if is_marked else "")
        yield from pictures.arcs(state, script["lines"], way_of(page, configuration) if is_marked else None, MARKED_WAY)


def lines(page, texts):
    """The lines of the picture; without states where the script or the certificate isn't read."""
    yield from ("digraph script {", f'  label="{page["line"]}";', "  labelloc=t;")
    if "fault" not in page:
        script = scripts.read(texts[0])
        yield from ('  "-start" [shape=point];', f'  "-start" -> "{script["start"]}" [label="start"];')
        yield from ('  "-restart" [shape=point];', f'  "-restart" -> "{script["restart"]}" [label="restart", style=dashed];')
        yield from states(script, page)
    yield "}"
