"""The command line of the commands over files. Options and files come in any order. A value follows its option, or a `=` in the same word; `--` ends the
options, and `-` is standard input. It is installed too, so it knows nothing of this repository."""
from __future__ import annotations

import re
from collections.abc import Sequence
from typing import NamedTuple

from shared import asking, notes

END, STANDARD = "--", "-"
NUMBER = re.compile(r"0|[1-9][0-9]{0,9}")
# The smallest and the largest number of workers, and of pieces.
WORKERS = (1, 64)


class Form(NamedTuple):
    """What a command takes: how many files at least and at most, its options with a value, and those without."""

    least: int
    most: int
    valued: tuple[str, ...] = ()
    plain: tuple[str, ...] = ()


class Arguments(NamedTuple):
    """What a command was given: its files, and the values of its options by their words; that of an option without a value is empty."""

    files: list[str]
    options: dict[str, str]


def options_in(given: Sequence[str]) -> Sequence[str]:
    """The words before the one that ends the options."""
    return given[: given.index(END)] if END in given else given


def value_of(name: str, word: str, words, form: Form) -> str | None:
    """The value of the option that a word names; none if it has no such option, or no value."""
    if name in form.plain and word == name:
        return ""
    if name not in form.valued:
        return None
    value = word[len(name) + 1 :] if word != name else next(words, "")
    is_option = word == name and value.startswith("-") and value != STANDARD
    return None if is_option or not value else value


def parsed(form: Form, given: Sequence[str]) -> Arguments | None:
    """What the words ask for; none if they don't fit."""
    words, files, options = iter(given), [], {}
    for word in words:
        if word == END:
            files += words
        elif word == STANDARD or not word.startswith("-"):
            files.append(word)
        else:
            name = word.partition("=")[0]
            value = value_of(name, word, words, form)
            if value is None or name in options:
                return None
            options[name] = value
    fits = form.least <= len(files) <= form.most and "" not in files
    return Arguments(files, options) if fits else None


def read(form: Form, given: Sequence[str], usage: str) -> Arguments:
    """What the words of a command ask for. Words that don't fit end the command, with its usage."""
    found = parsed(form._replace(plain=(*form.plain, notes.QUIET)), given)
    if found is None:
        asking.stop(f"usage: {usage}", asking.WORDS)
    if found.options.pop(notes.QUIET, None) is not None:
        notes.hush()
    return found


def whole(word: str, least: int, most: int, usage: str) -> str:
    """A word that is a whole number from one to another; any other word ends the command."""
    if not NUMBER.fullmatch(word) or not least <= int(word) <= most:
        asking.stop(f"usage: {usage}; {word!r} is no whole number of {least} to {most}", asking.WORDS)
    return word


def run_words(given: Sequence[str], usage: str) -> tuple[list[str], list[str]]:
    """The files of a run, and the words of `mgcall run`: the number of workers is the last word, or the value of its option."""
    files, options = read(Form(3, 4, ("--workers",)), given, usage)
    numbers = [*files[3:], *options.values()]
    if len(numbers) > 1:
        asking.stop(f"usage: {usage}", asking.WORDS)
    return files[:3], ["run", *(word for number in numbers for word in ("--workers", whole(number, *WORKERS, usage)))]
