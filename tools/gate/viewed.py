"""What is tried of the view of all mistakes (tools/shared/mistakes): mistakes made in documents that have none, texts that are no TOML or no JSON, documents
of rows, places in plans, documents with many mistakes, and that it has the reader's own fault of each document that is stored, and of some that are made."""
import csv
import json
import re
import time

from gate import answers, document_rows, row_documents, stored
from shared import profile, programs
from shared.mistakes import findings, json_text, told, toml_text, words
from shared.mistakes.nodes import Unread

TOP = programs.TOP
MISTAKES = TOP / "tests" / "mistakes"
SCHEMAS = TOP / "tests" / "schemas"
MANY = MISTAKES / "many"
FAULT = re.compile(r"(\w+) fault (\d+) (\w+)")
# How many mistakes a large document has at least, and how many seconds of processor time it may take.
LARGE, SECONDS = 10_000, 60
# The words of the formats by what they are words for.
WORDS = {
    "command": words.COMMANDS, "item of an events list": words.EVENTS, "signal": words.SIGNALS, "kind of a note": words.KINDS, "step of a plan": words.STEPS,
}


def table(path):
    """The rows of a table, with the ends of lines that they have."""
    lines = (line for line in path.read_text().splitlines() if line and not line.startswith("#"))
    return [[part.replace("\\n", "\n") for part in row] for row in csv.reader(lines, delimiter="\t", quoting=csv.QUOTE_NONE)]


def base(document):
    """The documents in which mistakes are made: a script with a bit of everything and its certificate, or a plan and its script."""
    script = TOP / "examples" / "watch" / "script.toml" if document == "plan" else SCHEMAS / "script.toml"
    other = SCHEMAS / ("plan.toml" if document == "plan" else "certificate.json")
    return {"script": script.read_bytes(), "plan" if document == "plan" else "certificate": other.read_bytes()}


def where(text, start, word):
    """Line and column of a text from a byte on, both from 1."""
    place = text.index(word, start)
    return text.count(b"\n", 0, place) + 1, place - text.rfind(b"\n", 0, place)


def made(row):
    """The documents with the mistake of a row, and the byte at which it was made."""
    document, old, new = row[0], row[1].encode(), row[2].encode()
    texts = base(document)
    if texts[document].count(old) != 1:
        raise ValueError(f"{old!r} stands {texts[document].count(old)} times")
    start = texts[document].index(old)
    texts[document] = texts[document].replace(old, new)
    return texts, start


def single(row):
    """What the view tells of a mistake of the table, and what it should."""
    document, _, _, fault, place, sentence = row
    texts, start = made(row)
    line, column = where(texts[document], start, place.encode())
    number = findings.FAULTS[document].index(fault) + 1
    wanted = [f"{document}:{line}:{column}: {document} fault {number} {fault}: {sentence}"]
    return [told.line(mistake.document, mistake) for mistake in told.mistakes(texts)], wanted


def singles():
    """Each mistake that is made alone: it is told, at its place and in its words, and nothing else is."""
    for document in ("script", "plan"):
        yield f"{document} without a mistake", not told.mistakes(base(document))
    for row in table(MISTAKES / "told.tsv"):
        found, wanted = single(row)
        yield f"{row[2]!r} tells {found}, and not {wanted}", found == wanted


def vocabularies():
    """Whether the words that are known are those that the sources declare."""
    for kind, known in WORDS.items():
        declared = {thing.word for thing in profile.things() if thing.kind == kind}
        yield f"words for a {kind}: {declared ^ set(known)}", declared == set(known)


def explained():
    """Each mistake of the table of what is said in words: it is told at its place, with the word that may have been meant."""
    for document, folder, old, new, line, word, _, meant in table(MISTAKES / "mistakes.tsv"):
        texts = {name: (TOP / folder / file).read_bytes() for name, file in stored.FILES.items()}
        start = texts[document].index(old.encode())
        texts[document] = texts[document].replace(old.encode(), new.encode())
        found = [one for one in told.mistakes(texts) if one.document == document and faults_of(line) == (one.of, (one.fault_number, one.fault_name))]
        places = [((one.at_line, one.at_column), one.meant or "") for one in found]
        wanted = where(texts[document], start, word.encode()) if word else None
        yield f"{new!r} is told at {places}", any(near == meant and wanted in (None, place) for place, near in places)


def wholes():
    """Texts that are no TOML or no JSON: place and reason."""
    for document, text, place, sentence in table(MISTAKES / "texts.tsv"):
        found = told.mistakes({document: text.replace("\\r", "\r").replace("\\t", "\t").encode()})
        said = [(f"{mistake.at_line}:{mistake.at_column}", findings.sentence(mistake)) for mistake in found]
        yield f"{text!r} tells {said}", (place, sentence) in said


def lowest(found, document):
    """The fault of a document with the lowest number among some mistakes, as the reader's line has it; none where it has none."""
    return min(((mistake.fault_number, mistake.fault_name) for mistake in found if mistake.of == document), default=None)


def faults_of(line):
    """The fault that a line of mgcall names, and of which document it is; none where it names none of a document."""
    found = FAULT.fullmatch(line)
    return (found[1], (int(found[2]), found[3])) if found and found[1] in told.FORMATS else (None, None)


def read_of(line, count):
    """How many of so many sections are read where mgcall says this line, up to the one that has the fault."""
    document, _ = faults_of(line)
    if document:
        return told.FORMATS.index(document) + 1
    return min(count, 2) if line.startswith(("no ", "yes ")) else 0 if line.startswith(("input", "no memory", "usage")) else count


def differences(sections, line):
    """For each section that mgcall read before it said this line: what is wrong with what the view tells of it."""
    texts = dict(zip(told.FORMATS, sections))
    found = told.mistakes(texts)
    document, fault = faults_of(line)
    for of in list(texts)[: read_of(line, len(sections))]:
        wanted, mine = (fault if of == document else None), lowest(found, of)
        if mine != wanted:
            yield f"of its {of} the view tells {mine}, and the reader {wanted}"


def of_stored():
    """Each stored document: the view has the fault of the line that is stored with it, and of what is read it tells nothing."""
    for one in stored.inputs():
        line = one.line.splitlines()[0] if one.line.strip() else ""
        faults = list(differences(one.sections, line))
        yield f"{str(one.name).removeprefix(f'{TOP}/')}: {faults}", not faults


def of_schemas():
    """Each mistake of the table of the schemas."""
    for document, what, old, new, _, line in table(SCHEMAS / "mistakes.tsv"):
        texts, _ = made([document, old, new])
        found = lowest(told.mistakes(texts), document)
        yield f"{document}: {what}: the view tells {found}", (document, found) == faults_of(line)


def of_rows():
    """Each row of documents: the view has the fault of its answer, and of what is read it tells nothing."""
    for name, _, given, _, answer in document_rows.answered():
        faults = list(differences(given.split(b"%%\n"), answer.splitlines()[0] if answer.strip() else ""))
        yield f"{name}: {faults}", not faults


def placed(mistake):
    """A mistake as the rows of places write it."""
    meant = f", meant {mistake.meant}" if mistake.meant is not None else ""
    path = f"{mistake.path}: " if mistake.path else ""
    return f"{mistake.at_line}:{mistake.at_column} {path}{mistake.says}{meant}"


def of_plans():
    """Each row of places in plans."""
    script = ""
    for number, call, text, answer in row_documents.documents(MISTAKES / "plans.rows"):
        if call.startswith("script"):
            script = text
            continue
        found = [placed(mistake) for mistake in told.mistakes({"script": script.encode(), "plan": text.encode()}) if mistake.document == "plan"]
        yield f"plans.rows:{number}: {found}", " and then ".join(found) == ("" if answer == "no fault" else answer)


def of_many():
    """Documents with many mistakes: all are told, in the order of the files; as JSON they are the same."""
    names = stored.FILES
    found = told.mistakes({document: (MANY / name).read_bytes() for document, name in names.items()})
    lines, wanted = [told.line(names[mistake.document], mistake) for mistake in found], (MANY / "told").read_text().splitlines()
    for place in range(max(len(lines), len(wanted))):
        line, right = (of[place] if place < len(of) else None for of in (lines, wanted))
        yield f"many: {line}, and not {right}", line == right
    records = json.loads(told.as_json(names, found))["mistakes"]
    for one, mistake in zip(records, found):
        yield f"{one}", one == {key: value for key, value in (mistake._asdict() | {"file": names[mistake.document]}).items() if value not in (None, "")}


def of_large():
    """Documents with thousands of mistakes take seconds, and would take hours by the square; one past the limit of an input is told as that."""
    head = "lines = ['a', 'b']\nstart = 's'\nrestart = 's'\n[[state]]\nname = 's'\n"
    states = "".join(f"[[state]]\nname = 's{place}'\ntimer = 'z{place}'\nfoo = 1\n" for place in range(LARGE))
    entries = ", ".join(f'{{"state": "s{place}", "link": ["x{place}"]}}' for place in range(LARGE))
    steps = ", ".join(f"'end a x{place}'" for place in range(LARGE))
    texts = {
        "script": f"{head}{states}",
        "certificate": f'{{"version": 2, "entries": [{entries}]}}',
        "plan": f"[[call]]\nlines = [1, 2]\nepochs = [[{steps}]]\n",
    }
    for document, text in texts.items():
        begun = time.process_time()
        found = told.mistakes({"script": head.encode(), document: text.encode()})
        spent = time.process_time() - begun
        yield f"a {document} with {len(found)} mistakes takes {spent:.1f} s", len(found) > LARGE and spent < SECONDS
    found = told.mistakes({"plan": b"#" * (told.MOST_BYTES + 1)})
    yield f"an input past the limit: {found}", [(one.fault_name, one.at_line, one.at_column) for one in found] == [("TooLong", 1, told.MOST_BYTES + 1)]


def plain(document, text):
    """What this repository's reader with places makes of a document, and what Python's own makes of it; none where it is refused."""
    other = answers.json_tree(text) if document == "certificate" else answers.toml_tree(text)
    try:
        mine = (json_text if document == "certificate" else toml_text).read(text).plain()
    except Unread:
        mine = None
    return mine, other


def is_alike(mine, other):
    """Whether two trees are the same: Python takes the ends of lines in texts for line feeds, and dates for values of its own."""
    if isinstance(mine, dict) and isinstance(other, dict):
        return mine.keys() == other.keys() and all(is_alike(mine[key], other[key]) for key in mine)
    if isinstance(mine, list) and isinstance(other, list):
        return len(mine) == len(other) and all(map(is_alike, mine, other))
    if isinstance(mine, str) and isinstance(other, str):
        return mine.replace("\r\n", "\n") == other.replace("\r\n", "\n")
    if isinstance(mine, str):
        return hasattr(other, "isoformat")
    return mine == other or mine != mine and other != other


def trees(of, sections):
    """Whether documents that both readers take are the same to both."""
    for document, text in zip(told.FORMATS, sections):
        mine, other = plain(document, text)
        yield f"{of}: its {document} is another one to Python", mine is None or other is None or is_alike(mine, other)


def tried():
    """Each trial, with what is said of it and whether it holds."""
    for part in (vocabularies, singles, explained, wholes, of_schemas, of_rows, of_plans, of_many, of_large, of_stored):
        yield from part()
    for one in stored.inputs():
        yield from trees(str(one.name), one.sections)
