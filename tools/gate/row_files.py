"""The files of tests/rows: which layer each names, what the program that answers them is given, and how what it writes is compared with the file."""
from shared import programs

ROWS = programs.TOP / "tests" / "rows"
MARK = " => "
# The program that answers them.
PROGRAM = "test_rows"
# The layers: of a gateway, and of calls.
GATEWAY = ("terminations", "contexts", "line_events", "requests", "gateway")
CALLS = ("agents", "shards")


def files():
    """The files of rows."""
    return sorted(ROWS.glob("*.rows"))


def is_row(line):
    """Whether a line is a row: neither empty nor a comment, nor a line of a document."""
    return bool(line) and line[0] not in "#|"


def layer(path):
    """The layer that the first line of a file names."""
    return path.read_text().partition("\n")[0].split()[-1]


def asked(path):
    """What the program is given: the lines of a file without their answers."""
    lines = path.read_text().splitlines()
    return "".join((line.partition(MARK)[0] if is_row(line) else line) + "\n" for line in lines).encode()


def wanted(path):
    """The number and the text of each row of a file."""
    lines = path.read_text().splitlines()
    return [(number, line) for number, line in enumerate(lines[1:], 2) if is_row(line)]


def answered(output):
    """The rows that the program wrote."""
    return [line for line in output.decode(errors="replace").splitlines() if is_row(line) and MARK in line]


def compared(path, output, status):
    """What is said of each row of a file, and whether it is answered as it should be; then of the program's end."""
    rows, found = wanted(path), answered(output)
    for place, (number, row) in enumerate(rows):
        got = found[place] if place < len(found) else f"nothing, and status {status}"
        yield f"{path.name}:{number}: {row}: got {got.partition(MARK)[2] or got}", got == row
    if status or len(found) != len(rows):
        yield f"{path.name}: {len(found)} answers to {len(rows)} rows, and status {status}", False
