"""The parts of the tests, and what they share. An error that nobody expected shows its traceback here, not the line that the commands print."""
import sys
import threading

import shared  # noqa: F401 (it ends here if Python is too old)

sys.excepthook, threading.excepthook = sys.__excepthook__, threading.__excepthook__
