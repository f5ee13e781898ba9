"""What the words of a command of mgtool ask for: a parser that is made of the declarations. Options may stand anywhere; a wrong word is named, with the word
that may have been meant. It is installed too, so it knows nothing of this repository."""
import argparse
import re

from shared import arguments, asking, notes
from shared.door import declarations
from shared.mistakes.near import nearest

WIDTH, COLUMN = 100, 26
# What is said of a certificate in the place of another file, and how files that are certificates end.
NAMED, CERTIFICATES = " (--certificate names a certificate)", ".json"
NUMBER, NEGATIVE = re.compile(r"0|[1-9][0-9]{0,9}"), re.compile(r"-[0-9]+")


class Parser(argparse.ArgumentParser):
    """A parser that says in one line what is wrong with the words."""

    def error(self, message):
        asking.stop(f"{self.prog}: {message}; {self.prog} --help tells its words", asking.WORDS)


class Once(argparse.Action):
    """Keeps the value of an option, which may be given once."""

    def __call__(self, parser, namespace, values, option_string=None):
        if getattr(namespace, self.dest, None) is not None:
            raise argparse.ArgumentError(self, "it is given twice")
        setattr(namespace, self.dest, values)


def layout(prog):
    """How help is laid out, whatever the terminal is."""
    return argparse.HelpFormatter(prog, max_help_position=COLUMN, width=WIDTH)


def plain(text):
    """A text of the declarations without the backquotes of its words."""
    return text.replace("`", "")


def number(least, most):
    """What reads a whole number from one to another."""

    def read(word):
        if not NUMBER.fullmatch(word) or not least <= int(word) <= most:
            raise argparse.ArgumentTypeError(f"{word!r} is no whole number of {least} to {most}")
        return word

    return read


def named(word):
    """A name of a file, which isn't empty."""
    if not word:
        raise argparse.ArgumentTypeError("the name is empty")
    return word


def reading(option):
    """How the value of an option is read."""
    if option.value is None:
        return {"action": "store_true"}
    how = {"action": Once, "metavar": option.value}
    if not isinstance(option.kind, tuple) or option.kind == declarations.ANY:
        return {**how, "type": named}
    if declarations.are_words(option.kind):
        return {**how, "choices": option.kind}
    return {**how, "type": number(*option.kind)}


def parser(tool, command):
    """The parser of a command."""
    name = f"{tool} {command.name}"
    about = f"{plain(command.about)[0].upper()}{plain(command.about)[1:]}. {plain(command.more)}"
    made = Parser(name, usage=f"{tool} {declarations.usage(command)}", description=about, formatter_class=layout, allow_abbrev=False, add_help=False)
    files, names = made.add_argument_group("files"), made.add_argument_group("names")
    for operand in command.operands:
        how = {"metavar": operand.shown, "help": plain(operand.about), "type": named}
        if operand.kind == declarations.ANY:
            names.add_argument(operand.key, nargs="*", default=(), **how)
        else:
            files.add_argument(operand.key, nargs="+" if operand.is_many else None if operand.is_needed else "?", **how)
    options = made.add_argument_group("options")
    for option in command.options:
        is_needed = option.key in declarations.NEEDED.get(command.name, ())
        more = {"required": True} if is_needed else {}
        options.add_argument(option.word, dest=option.key, help=plain(option.about), **reading(option), **more)
    options.add_argument(declarations.PROVED.word, dest=declarations.PROVED.key, action="store_true", help=plain(declarations.PROVED.about))
    options.add_argument(declarations.HELP.word, "-h", action="help", help=declarations.HELP.about)
    return made


def known(command):
    """The options of a command, by their words."""
    return (*(option.word for option in command.options), declarations.PROVED.word, declarations.HELP.word, "-h")


def parted_words(command: declarations.Command, given: list[str]) -> tuple[list[str], list[str]]:
    """The options among words, each in one word with its value, and the files. The value is the next word, unless that looks like another option."""
    takes_value = {option.word for option in command.options if option.value is not None}
    words, options, files = iter(given), [], []
    held = None
    for word in words:
        if held is not None:
            is_value = not word.startswith("-") or word == declarations.STANDARD or NEGATIVE.fullmatch(word)
            options.append(f"{held}={word}" if is_value else held)
            held = None
            if is_value:
                continue
        if word == arguments.END:
            files += words
        elif word in takes_value:
            held = word
        else:
            (options if word.startswith("-") and word != declarations.STANDARD else files).append(word)
    return [*options, *([held] if held is not None else [])], files


def unknown(command, options):
    """The first option that is none of the command; none where there is none."""
    return next((word for word in options if word.partition("=")[0] not in known(command)), None)


def meant(word, words):
    """What is said of the word that may have been meant; an option of one letter may be any."""
    found = nearest(word, tuple(words)) if len(word.lstrip("-")) > 1 else None
    return f" (did you mean {found}?)" if found else ""


def surplus(command, word):
    """What is said of a file too many."""
    is_certificate = word.endswith(CERTIFICATES) and declarations.CERTIFICATE in command.options
    return f"{word!r} isn't a word of it{NAMED if is_certificate else ''}"


def asked(tool, command, given):
    """What words ask of a command, by the keys of the declarations; `refuse` ends the tool where they don't go together, with what is said of that."""
    made = parser(tool, command)
    options, files = parted_words(command, given)
    if (wrong := unknown(command, options)) is not None:
        made.error(f"{wrong!r} isn't a word of it{meant(wrong.partition('=')[0], known(command))}")
    found, more = made.parse_known_args([*options, *([arguments.END, *files] if files else [])])
    if more:
        made.error(surplus(command, next(word for word in more if word != arguments.END)))
    values = [getattr(found, key, None) for key in ("script", "plan", "certificate", "scenarios")]
    if [*values, *getattr(found, "scripts", ())].count(declarations.STANDARD) > 1:
        made.error("standard input can be one file alone, and - is given twice")
    if found.is_quiet:
        notes.hush()
    found.refuse = made.error
    return found


def valued():
    """The words of all options that take a value."""
    return {option.word for command in declarations.COMMANDS for option in command.options if option.value is not None}


def parted(given):
    """The place of the command among the words: the first that is neither an option nor the value of one; none where there is none."""
    skips = False
    for place, word in enumerate(given):
        if skips:
            skips = False
        elif word.startswith("-") and word != declarations.STANDARD:
            skips = word in valued()
        else:
            return place
    return None
