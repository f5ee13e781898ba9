"""The rows of tests/mgtool/intents.rows: what `mgtool coverage` tells of the intents beside a script, all of it in its order."""
from gate import door_rows
from shared.programs import TOP

ROWS = TOP / "tests" / "mgtool" / "intents.rows"


def rows():
    """The rows."""
    return door_rows.rows(ROWS)


def text(row):
    """The text of the intents of a row."""
    return "".join(f"{lines}\n" for lines in row["intents"]).replace("\\n", "\n")


def written(row, folder):
    """Writes the files of a row into a folder, the intents beside the script; the words that ask about them."""
    source, script, file = TOP / row["script"][0], folder / "a.toml", folder / "a.scenarios.toml"
    script.write_text(door_rows.turned((source / "script.toml").read_text(), row.get("put", [])))
    file.write_text(text(row))
    words = ["coverage", str(script), "--intents", str(file)]
    if (source / "certificate.json").exists():
        words += ["--certificate", str(source / "certificate.json")]
    return words


def behind(output):
    """The lines of an output behind its paragraphs on the states."""
    return output.rpartition("\n\n")[2].splitlines()


def fault_of(row, status, output, error, folder):
    """What is wrong with the answer to a row; none where all is as it should be."""
    lines = behind(output) if output else error.splitlines()
    last = lines.pop() if "last" in row and lines else ""
    if (status, last[: len(row["last"][0])] if "last" in row else "") != (int(row["status"][0]), row.get("last", [""])[0]):
        return f"status {status}, {last}"
    if row.get("last", [""])[0].startswith("no "):
        lines = [line for line in lines if ": note: " not in line]
    try:
        found = [*door_rows.told(lines, door_rows.kinds_in(folder))]
    except ValueError as fault:
        return str(fault)
    wanted = [*door_rows.wanted(row.get("told", []))]
    return None if len(found) == len(wanted) and all(map(door_rows.is_as, found, wanted)) else f"{found}"
