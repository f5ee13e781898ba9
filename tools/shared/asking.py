"""What the commands and tools share that are called by hand: their words, the files that they put together or write, the program that they ask, and how they
end. The statuses of their own are 2 for words that ask for nothing, 3 for a file that can't be read or written, 6 for standard output or standard error that
can't be written, 70 for an error that nobody expected, and 127 where no program is there; all others are the program's, and above 128 that of a signal. It is
installed too, so it knows nothing of this repository."""
import contextlib
import os
import signal
import stat
import subprocess
import sys
import threading
from pathlib import Path

from shared import streams, unexpected
from shared.children import CHILDREN, ENDING, heed_signals

WORDS, FILES, DEVICE, NO_PROGRAM = 2, 3, 6, 127
DIVIDER = b"%%\n"


class Stopped(SystemExit):
    """The end of a tool with a status, and what was said of it on standard error."""

    def __init__(self, said, status):
        super().__init__(status)
        self.said = said


def stop(told, status):
    """Says on standard error why a tool ends, and ends it with this status."""
    print(told, file=sys.stderr)
    raise Stopped(told, status)


def words(about, usage, least=None, most=None):
    """The words that a tool was given, from so many to so many, or any number. With --help it says what it does, with status 0."""
    given = sys.argv[1:]
    options = given[: given.index("--")] if "--" in given else given
    if "--help" in options or "-h" in options:
        print(f"usage: {usage}\n\n{about}")
        sys.exit(0)
    if least is not None and not least <= len(given) <= (least if most is None else most):
        stop(f"usage: {usage}", WORDS)
    return given


def tell(lines):
    """Prints lines. Whoever reads only the front of them ends the tool."""
    signal.signal(signal.SIGPIPE, signal.SIG_DFL)
    print(*lines, sep="\n", flush=True)


def of_file(error):
    """What is said of a file that can't be read or written."""
    return f"{error.filename}: {error.strerror}" if error.filename is not None else str(error.strerror)


def read(names):
    """The bytes of the files of these names, of which `-` is standard input."""
    names = [*names]
    if names.count("-") > 1:
        stop("standard input can be one file alone, and - is given twice", WORDS)
    try:
        return [sys.stdin.buffer.read() if name == "-" else Path(name).read_bytes() for name in names]
    except OSError as error:
        return stop(of_file(error), FILES)


@contextlib.contextmanager
def taken_away(path):
    """While a file is by half, a signal that ends the tool takes it away first; then what the tool does at this signal is done, however long that takes."""
    before = {number: signal.getsignal(number) for number in ENDING} if threading.current_thread() is threading.main_thread() else {}

    def ended(number, frame):
        del frame
        path.unlink(missing_ok=True)
        signal.signal(number, before[number])
        os.kill(os.getpid(), number)

    caught = [number for number, how in before.items() if how not in (signal.SIG_IGN, None)]
    for number in caught:
        signal.signal(number, ended)
    try:
        yield
    finally:
        path.unlink(missing_ok=True)
        for number in caught:
            signal.signal(number, before[number])


@contextlib.contextmanager
def written(name, kind=""):
    """A text to write, or with the kind `b` bytes; standard output where no name is given. A file has its name once the text is whole; where the work ends
    before, fails or is interrupted, what had the name keeps it, and nothing else is left. A file that exists keeps its mode. What is no file, such as a device,
    is written as it stands."""
    how = {} if kind else {"encoding": "utf-8", "errors": "surrogateescape"}
    if name is None:
        sys.stdout.reconfigure(encoding="utf-8")
    if name is None or Path(name).exists() and not Path(name).is_file():
        with contextlib.nullcontext(sys.stdout) if name is None else open(name, f"w{kind}", **how) as text:
            yield text
            text.flush()
        return
    target = Path(name).resolve()
    beside = target.with_name(f".{target.name}.{os.getpid()}.new")
    try:
        with taken_away(beside):
            with open(beside, f"x{kind}", **how) as text:
                if target.exists():
                    os.fchmod(text.fileno(), stat.S_IMODE(target.stat().st_mode))
                yield text
            beside.replace(target)
    except OSError as error:
        if error.filename in (None, str(beside)):
            error.filename = name
        raise


def sections(texts):
    """Texts as the sections of an input, each but the last with an end of its last line."""
    *fronts, last = texts
    return b"".join(text + (b"" if text.endswith(b"\n") else b"\n") + DIVIDER for text in fronts) + last


def told(program, asked, texts, output=subprocess.PIPE):
    """Gives a program these words and texts, and says the status that it ends with, for a signal 128 and its number, as a shell does; and what it wrote, unless
    that goes elsewhere."""
    try:
        CHILDREN.look()
        started = subprocess.Popen([program, *asked], stdin=subprocess.PIPE, stdout=output)
    except OSError as error:
        return stop(of_file(error), NO_PROGRAM)
    with CHILDREN.started(started) as process:
        written, _ = process.communicate(sections(texts))
    status = process.returncode
    return status if status >= 0 else 128 - status, (written or b"").decode()


def ask(program, asked, texts):
    """The same with what the program writes on standard output; says the status alone."""
    return told(program, asked, texts, None)[0]


def ended_by(error):
    """The status of a tool that an error ends, which is told in a line."""
    if isinstance(error, SystemExit):
        if hasattr(error, "status"):
            print(error.code, file=sys.stderr)
            return error.status
        return error.code or 0
    if isinstance(error, OSError) and error.filename == streams.OUTPUT:
        streams.drop_output()
    if isinstance(error, BrokenPipeError):
        return 128 + signal.SIGPIPE
    if isinstance(error, OSError):
        print(of_file(error), file=sys.stderr)
        return DEVICE if error.filename == streams.OUTPUT else FILES
    return unexpected.report(error)


def ended_with(main):
    """Does the work of a tool, and gives the status to end with."""
    try:
        return main()
    except (Exception, KeyboardInterrupt, SystemExit) as error:  # pylint: disable=broad-exception-caught
        return ended_by(error)


def flushed(status):
    """The status of a tool once all is written: an answer of which something was lost is none."""
    try:
        sys.stdout.flush()
    except OSError as error:
        later = ended_by(error)
        status = later if status in (0, 1) else status
    return DEVICE if status in (0, 1) and streams.has_lost_errors() else status


def run(main):
    """Ends a tool with the status that its work gives. Where the toolchain or a program is missing, what is said of it tells its own status; a file that
    can't be read or written has a line, and an output that nobody reads, or an interruption, ends the tool as a shell would. An error that nobody
    expected has a line and a status of its own."""
    streams.guard()
    heed_signals()
    sys.exit(flushed(ended_with(main)))
