"""What two programs that nobody here wrote read in messages: Erlang's megaco, which decodes each, encodes that and decodes it once more, and tshark, which
dissects a capture. Both are packages of Debian, `erlang-megaco` and `tshark`."""
import functools
import re
import shutil
import subprocess
import tempfile
from collections import namedtuple
from pathlib import Path

from gate import limits

CODEC = "megaco_pretty_text_encoder"
# Decodes each file of a folder, in the order of their names: a line for each, with the message as a term of Erlang, or the reason why there is none.
DECODES = (
    "[Folder] = init:get_plain_arguments(), {ok, Names} = file:list_dir(Folder), "
    "lists:foreach(fun(Name) -> {ok, Bytes} = file:read_file(filename:join(Folder, Name)), "
    f"Said = try {{ok, Message}} = {CODEC}:decode_message([], Bytes), {{ok, Again}} = {CODEC}:encode_message([], Message), "
    f"{{ok, Message}} = {CODEC}:decode_message([], Again), {{read, Message}} catch _:Why -> {{refused, Why}} end, "
    'io:format("~w~n", [Said]) end, lists:sort(Names)), halt().'
)
TOKEN = re.compile(r"'((?:[^'\\]|\\.)*)'|(-?\d+)|([a-z][\w@]*)|([][{},])|(<<[^>]*>>)")
# What tshark says of a message: the texts that it finds in it, by their labels, and what it calls an error or malformed.
Dissected = namedtuple("Dissected", "found errors")
# The labels of what is looked at in a dissected message, and how tshark writes what stands for any and for none.
LABELS = re.compile(r"^ +(Transaction ID|Context|Termination ID|Mode|RequestID|pkgdName|ERROR Code|Topology Descriptor|Transaction): +(.*?) *$", re.MULTILINE)
ERRORS = re.compile(r"Malformed Packet|Expert Info \((?:Error|Warning|Warn)[^)]*\): .*|Sorry, .*")
CHECKED = ("-o", "ip.check_checksum:TRUE", "-o", "udp.check_checksum:TRUE")


@functools.cache
def lacking():
    """Which of the two aren't installed, by the names of their packages."""
    code = f"case code:ensure_loaded({CODEC}) of {{module, _}} -> halt(0); _ -> halt(1) end."
    has_megaco = shutil.which("erl") is not None and subprocess.run(["erl", "-noshell", "-eval", code], capture_output=True, check=False).returncode == 0
    return [*([] if has_megaco else ["erlang-megaco"]), *([] if shutil.which("tshark") else ["tshark"])]


def term(text):
    """A term of Erlang as Python has it: tuples, lists, numbers, and atoms as texts."""
    open_parts = [[]]
    for quoted, number, atom, mark, binary in TOKEN.findall(text):
        if mark in ("{", "["):
            open_parts.append([])
        elif mark in ("}", "]"):
            part = open_parts.pop()
            open_parts[-1].append(tuple(part) if mark == "}" else part)
        elif mark != ",":
            open_parts[-1].append(int(number) if number else quoted or atom or binary)
    return open_parts[0][0]


def decoded(texts):
    """What Erlang's megaco makes of each text, and what it makes of that once it has written it again: ("read", message) or ("refused", why)."""
    with tempfile.TemporaryDirectory() as folder:
        for place, text in enumerate(texts):
            (Path(folder) / f"{place:08}").write_text(text, newline="")
        command = ["erl", "-noshell", "-noinput", "-eval", DECODES, "-extra", folder]
        result = limits.run(command, stdout=subprocess.PIPE, text=True, check=True)
    return [term(line) for line in result.stdout.splitlines()]


def of_frame(text):
    """What tshark says of a packet."""
    return Dissected(LABELS.findall(text.partition("\nMEGACO\n")[2]), ERRORS.findall(text))


def by_tshark(capture, *words):
    """What tshark says of a capture with these words."""
    with tempfile.NamedTemporaryFile(suffix=".pcapng") as file:
        file.write(capture)
        file.flush()
        command = ["tshark", "-r", file.name, *words]
        return limits.run(command, capture_output=True, text=True, errors="replace", check=True).stdout


def dissected(capture):
    """What tshark says of each packet of a capture."""
    text = by_tshark(capture, "-d", "udp.port==2944,megaco", *CHECKED, "-V")
    return [of_frame(frame) for frame in re.split(r"^Frame \d+: ", text, flags=re.MULTILINE)[1:]]


def summaries(capture):
    """The line that tshark has for each packet of a capture, without what stands in parentheses, which not every version writes alike."""
    return [re.sub(r"\(\S*\)", "", line).split() for line in by_tshark(capture).splitlines()]
