"""The plans that stand in the rows of tests/mistakes, each with what the view of all mistakes tells of it. They are written as tests/documents/README.md says."""
import re

ROW = re.compile(r"^(?P<call>.*?) ?=> (?P<answer>.*)$")
MANY = re.compile(r"many (\d+) (.*)")
SIZES = re.compile(r"epochs (\d+) of (\d+)(?: and (.*))?")


def lines_of(text):
    """The lines that a row writes in one."""
    return "".join(f"{line}\n" for line in text.split("; "))


def sized(found):
    """A plan with a call of so many epochs of so many steps, and where there is one more epoch, with another call that has it."""
    epochs, steps, other = int(found[1]), int(found[2]), found[3]
    written = ", ".join(["[" + ", ".join(["'pass'"] * steps) + "]"] * epochs)
    calls = [written, other] if other else [written]
    return "".join(f"[[call]]\nlines = [{2 * place + 1}, {2 * place + 2}]\nepochs = [{epochs}]\n" for place, epochs in enumerate(calls))


def document_of(call, head, kept):
    """The document that a row is about, of the lines before it and its head; none where it is about none."""
    word, _, rest = call.partition(" ")
    if word in ("script", "plan", "certificate"):
        return head + kept + (lines_of(rest) if rest else "")
    if found := MANY.fullmatch(call):
        return head + kept + "".join(lines_of(found[2].replace("#", str(place))) for place in range(int(found[1])))
    if word == "step":
        return f"[[call]]\nlines = [1, 2]\nepochs = [[{rest}]]\n"
    found = SIZES.fullmatch(call)
    return sized(found) if found else None


def documents(path):
    """Of each row of a file that is about a document: the number of its line, its call, the document, and the answer."""
    head, kept = "", []
    for number, line in enumerate(path.read_text().splitlines(), 1):
        row = ROW.match(line)
        if line.startswith("| ") or line == "|":
            kept.append(line[2:] + "\n")
        elif row and not line.startswith("#"):
            call = row["call"].removeprefix("place ").removeprefix("place")
            if call == "head":
                head = "".join(kept)
            elif (text := document_of(call, head, "".join(kept))) is not None:
                yield number, call, text, row["answer"]
            kept = []
