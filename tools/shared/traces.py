"""The trace of a run: its messages as one text, as files of their own, and as a capture. A file or a folder has its name once it is whole. It is installed
too, so it knows nothing of this repository."""
import contextlib
import os
import shutil
from collections import namedtuple
from pathlib import Path

from shared import annex_b, arguments, asking, capture, explained, messages, run_words, scripts

CALL, FOLDER, CAPTURE = "--call", "--messages", "--pcap"
USAGE = f"SCRIPT CERTIFICATE PLAN [{CALL} N] [{FOLDER} DIR] [{CAPTURE} FILE] [--quiet]"
FORM = arguments.Form(3, 3, (CALL, FOLDER, CAPTURE))
# What is asked for: the names of the three files, and by their words the number, the folder and the file; None where one isn't asked for.
Wanted = namedtuple("Wanted", "names call folder capture")


def wanted(given, usage):
    """What the words of a tool ask for."""
    names, options = arguments.read(FORM, given, usage)
    return Wanted(names, *(options.get(word) for word in (CALL, FOLDER, CAPTURE)))


def said_of(message):
    """What is said of a message: what it is, where it was sent, what became of it, and what of it stands for something else."""
    return "; ".join([f"call {message.call}, {message.step}: {message.about}: {message.fate}", *message.nearest])


def marked(message):
    """The comment that a message has in a capture: where it was lost, repeated or discarded, or something of it stands for something else."""
    return said_of(message) if message.is_marked or message.nearest else ""


def about(sent):
    """What is said of a capture."""
    calls = len({message.call.partition(".")[0] for message in sent})
    return (
        f"Messages of {calls} call{'' if calls == 1 else 's'} as mgexplain tells them, call after call, each with a gateway of its own: no network had them. "
        f"{annex_b.CONTROLLER} is the call, {annex_b.GATEWAY} its gateway. Each message is {capture.STEP} microseconds behind the one before it, "
        "which says nothing about time."
    )


def of_message(number, message):
    """The lines of a message in the trace: what is said of it, and its text."""
    yield f"; {number:04}, {message.step}: {message.about}: {message.fate}"
    yield from (f";   {one}" for one in message.nearest)
    yield message.text


def lines(page, sent):
    """The lines of the trace: each line of the report, and below it the messages."""
    of_call = messages.by_call(sent)
    for told in (line for line in page["report"] if "steps" in line):
        yield from (f"; {told['line']}", "")
        for number, message in of_call.get(messages.call_of(told), []):
            yield from of_message(number, message)
    yield from (f"; {line}" for paragraph in run_words.untold(page) for line in paragraph)


@contextlib.contextmanager
def folder(name):
    """A folder to write into, which has its name once the work is done. One that has files is left as it is."""
    target = Path(name).absolute()
    if target.exists() and not (target.is_dir() and not any(target.iterdir())):
        asking.stop(f"{name}: something stands there already", asking.FILES)
    beside = target.with_name(f".{target.name}.{os.getpid()}.new")
    beside.mkdir()
    try:
        yield beside
        beside.replace(target)
    finally:
        shutil.rmtree(beside, ignore_errors=True)


def write_folder(name, sent):
    """Writes each message into a file of its own."""
    with folder(name) as place:
        for number, message in enumerate(sent, 1):
            (place / f"{number:04}.txt").write_text(message.text, encoding="utf-8", newline="")


def captured(sent):
    """The bytes of a capture of the messages."""
    try:
        return b"".join(capture.of(sent, about(sent), marked))
    except capture.TooLong as error:
        return asking.stop(f"no capture: {error}", asking.FILES)


def told(wanted_of, texts, find):
    """The status, and what `mgexplain` tells of what is asked for. Where there is no report, what is said of that is printed."""
    scripts.can_read()
    program = find("mgexplain")
    words = [CALL, wanted_of.call] if wanted_of.call is not None else []
    status, page = explained.told(program, words, texts)
    if page and "report" not in page:
        print(explained.view(None, page, texts), end="")
    return status, page or {}


def traced(asked, find):
    """Writes what is asked for, with the program that `find` finds; gives the status."""
    return written(asked, asking.read(asked.names), find)


def written(asked, texts, find):
    """The same of files that were read."""
    status, page = told(asked, texts, find)
    if "report" not in page:
        return status
    scripts.look(asked.names[::2], texts[::2])
    sent = [*messages.of_run(page, texts)]
    data = captured(sent) if asked.capture is not None else b""
    if asked.folder is not None:
        write_folder(asked.folder, sent)
    if asked.capture is not None:
        with asking.written(asked.capture, "b") as file:
            file.write(data)
    print(*lines(page, sent), sep="\n")
    return status
