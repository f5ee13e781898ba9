"""How far a tool has come, on standard error: a line that is written anew, where that is a terminal; where it is none, a line each few seconds, and none of
what is done at once. It is installed too, so it knows nothing of this repository."""
import contextlib
import sys
import threading
import time

from shared import notes, streams

# How long a line stands at least before it is written anew, in seconds.
PAUSE = 0.1
# After how many seconds the first plain line comes, and how many lie between two.
FIRST, BETWEEN = 0.5, 5.0
# What goes back to the front of the line, and clears it.
CLEAR = "\r\x1b[K"


class Line:
    """The line of a terminal. Its first text is written at once."""

    def __init__(self, stream):
        self.stream, self.next = stream, 0.0

    def tell(self, text):
        """Writes the line anew, unless it was written a moment ago."""
        now = time.monotonic()
        if now >= self.next:
            with streams.notes():
                self.stream.write(f"{CLEAR}{text}")
                self.stream.flush()
            self.next = now + PAUSE

    def end(self):
        """Takes the line away, where one was written."""
        if self.next:
            with streams.notes():
                self.stream.write(CLEAR)
                self.stream.flush()


class Lines:
    """Plain lines, each with how long the work has gone on. They come by the clock, however long a part of the work takes."""

    def __init__(self, stream):
        self.stream, self.text, self.begun = stream, None, time.monotonic()
        self.is_done = threading.Event()
        self.teller = threading.Thread(target=self.tell_on, daemon=True)
        self.teller.start()

    def tell(self, text):
        """Keeps what the next line says."""
        self.text = text

    def tell_on(self):
        """Writes a line again and again until the work is done."""
        pause = FIRST
        while not self.is_done.wait(pause):
            pause = BETWEEN
            if self.text is not None:
                minutes, seconds = divmod(int(time.monotonic() - self.begun), 60)
                with contextlib.suppress(OSError), streams.notes():
                    print(f"{minutes:>3}:{seconds:02}  {self.text}", file=self.stream, flush=True)

    def end(self):
        """Ends the lines."""
        self.is_done.set()
        self.teller.join()


@contextlib.contextmanager
def line():
    """What tells how far the work has come; a terminal's line is gone at the end, however the work ends. With `--quiet` nothing is told."""
    if notes.is_quiet():
        yield lambda text: None
        return
    shown = (Line if sys.stderr.isatty() else Lines)(sys.stderr)
    try:
        yield shown.tell
    finally:
        shown.end()
