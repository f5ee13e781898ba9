"""What the commands and tools share. Python runs this file before every other module of the folder, so it is the one check at the top of every command: a
Python that is too old prints one line and ends with status 127. Python 3.6 can parse this file and the files of the commands; the modules that they import
may use all of Python 3.11. It is installed too, so it knows nothing of this repository."""
import os
import sys

# The oldest Python that runs the commands, and the status if this one is older.
OLDEST = (3, 11)
TOO_OLD = 127


def require_python():
    """Ends the command if this Python is too old."""
    if tuple(sys.version_info[:2]) >= OLDEST:
        return
    needed, found = (".".join(str(part) for part in version[:2]) for version in (OLDEST, sys.version_info))
    line = "{}: Python {} or later is needed, and python3 is Python {}\n".format(os.path.basename(sys.argv[0]), needed, found)
    try:
        os.write(2, line.encode("ascii", "backslashreplace"))
    except OSError:
        pass
    os._exit(TOO_OLD)


require_python()

from shared import streams, unexpected  # noqa: E402 (an older Python can't parse them)

streams.open_closed()
unexpected.install()
