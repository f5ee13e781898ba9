"""`mgtool run`: the report of a plan. It is installed too, so it knows nothing of this repository."""
from shared import asking
from shared.door import kept


def done(asked, find):
    """Prints the report of `mgcall run`; gives its status."""
    given = kept.files(asked, find)
    words = ["run", *(["--workers", asked.workers] if asked.workers is not None else [])]
    return asking.ask(find("mgcall"), words, [one.text for one in given])
