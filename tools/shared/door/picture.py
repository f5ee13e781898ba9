"""`mgtool picture`: the state machine of a script as a text for Graphviz. It is installed too, so it knows nothing of this repository."""
from shared import pictures
from shared.door import declarations, inputs


def done(asked, find):
    """Prints the picture; gives the status."""
    del find
    script = inputs.needed({inputs.SCRIPT: asked.script})[inputs.SCRIPT]
    return pictures.told(script.name, script.text, f"{declarations.TOOL} check")
