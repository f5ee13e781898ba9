"""What a command does about an error that nobody expected: one line that says what happened and where to report it, and status 70, which no answer has.
With MGTOOL_DEBUG=1 the traceback is printed before the line. It is installed too, so it knows nothing of this repository."""
import os
import sys
import threading
import traceback
from pathlib import Path
from types import TracebackType

# EX_SOFTWARE of sysexits.h; the status of a command that was interrupted, and of one that ran out of memory.
STATUS, INTERRUPTED, NO_MEMORY = 70, 130, 4
DEBUG = "MGTOOL_DEBUG"
REPORT = f"please report it (SECURITY.md of mgcall's sources says how); {DEBUG}=1 prints the traceback"


def place(error: BaseException) -> str:
    """The file and the line in which an error was raised."""
    frames = traceback.extract_tb(error.__traceback__)
    return f" at {Path(frames[-1].filename).name}:{frames[-1].lineno}" if frames else ""


def line_of(error: BaseException) -> str:
    """What is said of an error, in one line."""
    name = Path(sys.argv[0] or "mgtool").name
    says = " ".join(f"{type(error).__name__}: {error}".split()).removesuffix(":")
    return f"{name}: internal error: {says}{place(error)}; {REPORT}"


def report(error: BaseException) -> int:
    """Prints what is said of an error that ends a command, and gives the status to end with."""
    if isinstance(error, KeyboardInterrupt):
        return INTERRUPTED
    if os.environ.get(DEBUG) == "1":
        traceback.print_exception(error)
    if isinstance(error, MemoryError):
        print("no memory", file=sys.stderr)
        return NO_MEMORY
    print(line_of(error), file=sys.stderr)
    return STATUS


def at_the_top(kind: type[BaseException], error: BaseException, trace: TracebackType | None) -> None:
    """Ends a command on an error that comes before its work or behind it, such as a module that isn't there."""
    del kind, trace
    raise SystemExit(report(error))


def in_thread(arguments: threading.ExceptHookArgs) -> None:
    """Prints the line of an error that ends a thread."""
    if arguments.exc_value is not None and not isinstance(arguments.exc_value, SystemExit):
        report(arguments.exc_value)


def install() -> None:
    """Lets Python call these."""
    sys.excepthook, threading.excepthook = at_the_top, in_thread
