"""`mgtool trace`: the messages of a run in the text of H.248.1 Annex B. It is installed too, so it knows nothing of this repository."""
from shared import traces
from shared.door import kept


def done(asked, find):
    """Writes what is asked for; gives the status."""
    given = kept.files(asked, find)
    wanted = traces.Wanted([one.name for one in given], asked.call, asked.folder, asked.capture)
    return traces.written(wanted, [one.text for one in given], find)
