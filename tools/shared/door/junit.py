"""What a check comes to as JUnit XML: a test for each script. A No, and with --strict a warning, is a failure; what can't be read, and want of an
answer, is an error. It is installed too, so it knows nothing of this repository."""
import re
from xml.sax.saxutils import escape, quoteattr

from shared.door import diagnostics

FAILED = 1
# What XML can't have.
UNFIT = re.compile("[\x00-\x08\x0b\x0c\x0e-\x1f\ud800-\udfff\ufffe\uffff]")


def plain(text):
    """A text without the signs that XML can't have."""
    return UNFIT.sub("?", text)


def outcome(report):
    """The element that says how the test went, and that with all that is told."""
    lines = plain("\n".join(map(diagnostics.line, report.diagnostics)))
    if report.status:
        tag = "failure" if report.status == FAILED else "error"
        rule = next((told.rule for told in report.diagnostics if told.severity != diagnostics.NOTE), "no-answer")
        message = report.line or lines.partition("\n")[0] or f"status {report.status}"
        yield f"<{tag} type={quoteattr(plain(rule))} message={quoteattr(plain(message))}>{escape(lines)}</{tag}>"
    yield f"<system-out>{escape(plain(report.line) if report.status else f'{lines}{chr(10) * bool(lines)}{plain(report.line)}')}</system-out>"


def case(report):
    """The test of a script."""
    name = quoteattr(plain(report.script))
    return f'<testcase classname="mgtool.check" name={name} file={name}>{"".join(outcome(report))}</testcase>\n'


def written(reports):
    """The text of the file: a test for each script."""
    failed = sum(report.status == FAILED for report in reports)
    head = f'tests="{len(reports)}" failures="{failed}" errors="{sum(bool(report.status) for report in reports) - failed}"'
    return (
        f'<?xml version="1.0" encoding="UTF-8"?>\n<testsuites {head}>\n<testsuite name="mgtool" {head}>\n'
        f'{"".join(map(case, reports))}</testsuite>\n</testsuites>\n'
    )
