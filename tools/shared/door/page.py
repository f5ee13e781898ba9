"""`mgtool page`: one HTML page for a script. It is installed too, so it knows nothing of this repository."""
from shared import script_pages
from shared.door import kept


def done(asked, find):
    """Writes the page; gives the status."""
    named = kept.named(asked)
    script_pages.can_draw()
    given = kept.completed(named, find)
    return script_pages.made(script_pages.Wanted([one.name for one in given], asked.target), [one.text for one in given], find)
