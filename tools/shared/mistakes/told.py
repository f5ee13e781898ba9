"""All mistakes of a script, a certificate and a plan, and how they are told. The reader that `mgcall` has gives of a document the fault with the lowest
number that it has anywhere; here each place is told that has one. What is proved is the reader: this view is compared with it by tests. It is installed too,
so it knows nothing of this repository."""
import json

from shared import asking
from shared.mistakes import certificate_rules, json_text, plan_rules, script_rules, script_shape, toml_text
from shared.mistakes.findings import Findings, Mistake, printable, sentence, valid
from shared.mistakes.nodes import Unread
from shared.mistakes.reading import MARK

FORMATS = ("script", "certificate", "plan")
MOST_BYTES = 16_777_216


def taken_for_certificate(text):
    """What a text seems to be that is no JSON, where that can be seen."""
    try:
        top = toml_text.read(text).value
    except Unread:
        return ""
    kind = "plan" if "call" in top else "script" if "state" in top else None
    return f"; it is a {kind}, and no certificate" if kind else ""


def more_of(of, text):
    """What is said of a whole text that can't be read."""
    if of == "certificate":
        return "" if text.strip() else "; a certificate is an object with `version` and `entries`"
    if not text.removeprefix(MARK).lstrip().startswith(b"{"):
        return ""
    return "; it begins as a certificate does" + (", and no plan begins so" if of == "plan" else ": the two documents may be exchanged")


def tree(findings):
    """The values of a document; none where its text can't be read, which is told then."""
    of, text = findings.document, findings.text
    try:
        return json_text.read(text) if of == "certificate" else toml_text.read(text)
    except Unread as error:
        more = more_of(of, text) or (taken_for_certificate(text) if of == "certificate" else "")
        findings.add("NotJson" if of == "certificate" else "NotToml", error.at, "", f"{error.says}{more}")
        return None


def of_script(findings):
    """Looks at a script; what it says, where that can be told."""
    root = tree(findings)
    if root is None:
        return None
    if script_shape.is_plan(root):
        findings.add("BadKey", root.place("call"), "the top of the script", "the key `call` isn't known; this is a plan, and no script", "call")
        return None
    root.at = 0
    script = script_shape.Shape(findings, root).whole()
    script_rules.Rules(findings, script).whole()
    return script


def of_certificate(findings, script):
    """Looks at a certificate."""
    root = tree(findings)
    if root is not None:
        certificate_rules.Rules(findings, root, script).whole()


def of_plan(findings, script):
    """Looks at a plan."""
    root = tree(findings)
    if root is not None:
        plan_rules.Rules(findings, root, script).whole()


def too_long(found):
    """Adds that the documents are longer than an input may be, where the first byte stands that is too many."""
    texts = [findings.text for findings in found.values()]
    over = len(asking.sections(texts)) - MOST_BYTES
    if over > 0:
        last = list(found.values())[-1]
        says = f"the documents have {over} bytes more than the 16,777,216 that an input may have"
        last.add("TooLong", max(0, len(last.text) - over), "", says)


def mistakes(texts):
    """The mistakes of the documents of these formats, each in the order of its text."""
    found = {document: Findings(document, texts[document]) for document in FORMATS if document in texts}
    script = of_script(found["script"]) if "script" in found else None
    if "certificate" in found:
        of_certificate(found["certificate"], script)
    if "plan" in found:
        of_plan(found["plan"], script)
    for findings in found.values():
        findings.divided()
    too_long(found)
    return [mistake for findings in found.values() for mistake in findings.mistakes()]


def line(name, mistake):
    """A mistake in the file of this name as a compiler tells one."""
    fault = f"{mistake.of} fault {mistake.fault_number} {mistake.fault_name}"
    return f"{printable(name)}:{mistake.at_line}:{mistake.at_column}: {fault}: {sentence(mistake)}"


def record(name, mistake):
    """A mistake in the file of this name as an object, without what it hasn't."""
    held = {"file": valid(name)} | mistake._asdict()
    return {key: value for key, value in held.items() if value not in (None, "")}


def as_json(names, found):
    """Mistakes as one JSON value, in ASCII, so that it is UTF-8 whatever the locale is."""
    records = [record(names[mistake.document], mistake) for mistake in found]
    return json.dumps({"format": 1, "mistakes": records})
