"""What is told of an input that is stored whole: the facts of `mgexplain`, and what the views say of them."""
import json
import re
import subprocess

from gate import limits
from shared import explained

DIVIDER = re.compile(rb"^%%\r?(?:\n|\Z)", re.MULTILINE)


def asked(program, data, *words):
    """Status and output of a program."""
    result = limits.run([program, *words], input=data, stdout=subprocess.PIPE, check=False)
    return result.returncode, result.stdout.decode()


def facts(program, data, *words):
    """The status, and the page of an input."""
    status, output = asked(program, data, explained.JSON, *words)
    return status, json.loads(output)


def view(page, data, form=None):
    """What is said of the page of an input in a form; in words where none is given."""
    return explained.view(form, page, DIVIDER.split(data))


def said(program, data, *words, form=None):
    """The status, and what is said of an input in a form."""
    status, page = facts(program, data, *words)
    return status, view(page, data, form)
