"""The standard streams of a command. A closed one is opened so that no other file takes its number and each use of it fails. What can't be encoded is
written as an escape. A failed write to standard output has its name, and one to standard error is remembered: nobody could be told. It is installed too, so
it knows nothing of this repository."""
import contextlib
import io
import os
import sys
from collections.abc import Iterator

OUTPUT, ERROR = "standard output", "standard error"
# How each standard stream is opened if it is closed: the wrong way round, so that reading or writing fails.
MODES = (os.O_WRONLY, os.O_RDONLY, os.O_RDONLY)
ESCAPED = "backslashreplace"


class Output(io.RawIOBase):
    """The file behind a standard stream. A write that fails raises an error with the name of the stream."""

    def __init__(self, number: int, name: str) -> None:
        super().__init__()
        self.number, self.name = number, name

    def writable(self) -> bool:
        return True

    def fileno(self) -> int:
        return self.number

    def isatty(self) -> bool:
        return os.isatty(self.number)

    def write(self, part: bytes) -> int:
        try:
            return os.write(self.number, part)
        except OSError as error:
            error.filename = self.name
            raise


class ErrorOutput(Output):
    """The same for standard error, which loses what can't be written. `is_lost` is whether it lost anything but notes."""

    def __init__(self, number: int, name: str) -> None:
        super().__init__(number, name)
        self.is_lost = False

    def write(self, part: bytes) -> int:
        try:
            return super().write(part)
        except OSError:
            self.is_lost = True
            return len(part)


def is_open(number: int) -> bool:
    """Whether a file descriptor is open."""
    try:
        os.fstat(number)
    except OSError:
        return False
    return True


def open_closed() -> None:
    """Opens each standard stream that is closed. Otherwise the next file that is opened has its number, and programs write into that file."""
    for number, mode in enumerate(MODES):
        if not is_open(number):
            found = os.open(os.devnull, mode)
            os.dup2(found, number)
            if found != number:
                os.close(found)


def guard() -> None:
    """Puts the streams of a command in the place of Python's."""
    if sys.stdin is None:
        sys.stdin = open(0, closefd=False)
    for key, raw in (("stdout", Output(1, OUTPUT)), ("stderr", ErrorOutput(2, ERROR))):
        before = getattr(sys, key)
        encoding = before.encoding if before is not None else "utf-8"
        has_lines = key == "stderr" or raw.isatty()
        if before is not None:
            with contextlib.suppress(OSError, ValueError):
                before.flush()
        setattr(sys, key, io.TextIOWrapper(io.BufferedWriter(raw), encoding=encoding, errors=ESCAPED, line_buffering=has_lines))


def error_output() -> ErrorOutput | None:
    """What is behind standard error; none if it isn't that of a command."""
    raw = getattr(getattr(sys.stderr, "buffer", None), "raw", None)
    return raw if isinstance(raw, ErrorOutput) else None


def has_lost_errors() -> bool:
    """Whether standard error lost anything but notes."""
    raw = error_output()
    if raw is not None:
        sys.stderr.flush()
    return raw is not None and raw.is_lost


@contextlib.contextmanager
def notes() -> Iterator[None]:
    """What is written to standard error meanwhile are notes and progress: the answer is whole without them."""
    raw = error_output()
    before = raw is not None and raw.is_lost
    try:
        yield
    finally:
        if raw is not None:
            sys.stderr.flush()
            raw.is_lost = before


def note(line: str) -> None:
    """Prints a note on standard error."""
    with notes():
        print(line, file=sys.stderr, flush=True)


def drop_output() -> None:
    """Lets standard output lead nowhere, so that what is left in its buffer can't fail again when Python ends."""
    nowhere = os.open(os.devnull, os.O_WRONLY)
    os.dup2(nowhere, 1)
    os.close(nowhere)
