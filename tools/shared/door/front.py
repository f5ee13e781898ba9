"""The door itself: which command the words of mgtool name, what it says of itself and of the programs. It is installed too, so it knows nothing of this
repository."""
import importlib
import sys
import textwrap

from shared import asking, scripts
from shared.door import declarations, words

COLUMN = 15
PROGRAMS = ("mgcall", "mgexplain")
# What is said of a program that is proved, and of one that isn't there; the status if one that isn't proved would answer.
PROVED, NOT_THERE, NOT_PROVED = "proved", "not there", 69
# The commands that ask no program.
ASK_NOBODY = ("picture",)


def paragraph(text):
    """A text in lines that are as wide as those of a command's help."""
    return textwrap.wrap(words.plain(text), words.WIDTH)


def rows(pairs):
    """Rows of two columns."""
    for first, second in pairs:
        lines = textwrap.wrap(words.plain(second), words.WIDTH - COLUMN - 2)
        yield f"  {first:{COLUMN}}{lines[0]}"
        yield from (f"  {'':{COLUMN}}{line}" for line in lines[1:])


def help_lines(name):
    """What it says of itself."""
    commands = declarations.COMMANDS
    yield f"usage: {name} COMMAND [WORDS], and the commands are: {', '.join(one.name for one in commands)}"
    yield from ("", *paragraph(f"{declarations.TOOL}: {declarations.ABOUT}. {name} COMMAND --help tells the words of a command."))
    yield from ("", "commands:", *rows((one.name, one.about) for one in commands))
    yield from ("", "options:", *rows((one.word, one.about) for one in declarations.EVERYWHERE))
    yield from ("", *paragraph(declarations.RULE), "", *paragraph(declarations.FILES))
    yield from ("", "statuses:", *rows(declarations.STATUSES))


def version_lines(name, home):
    """Which version it is, and which programs answer."""
    yield f"{name} {home.version()}"
    yield from (f"{program} {home.version()}, {home.said_of(program)}" for program in PROGRAMS)


class Programs:
    """The programs that answer, as a module finds them (`home`), each looked for once. With `needs_proofs` only proved ones do."""

    def __init__(self, tool, home):
        self.tool, self.home, self.found, self.needs_proofs = tool, home, {}, False

    def __call__(self, name):
        if name not in self.found:
            if self.needs_proofs:
                self.look(name)
            self.found[name] = self.home.program(name)
        return self.found[name]

    def look(self, name):
        """Ends the tool if a program isn't proved."""
        said = self.home.said_of(name)
        if said != PROVED:
            says = f"{self.tool}: {name} is {said}, and {declarations.PROVED.word} takes a proved program alone; make prove proves it"
            asking.stop(says, asking.NO_PROGRAM if said == NOT_THERE else NOT_PROVED)

    def insist(self):
        """Takes proved programs alone from here on, and ends the tool if one of them isn't; gives the status of what can go on."""
        self.needs_proofs = True
        for name in PROGRAMS:
            self.look(name)
        return 0


def without_command(name, given):
    """Ends the tool where its words name no command."""
    names = [one.name for one in declarations.COMMANDS]
    wrong = next((word for word in given if not word.startswith("-") or word == declarations.STANDARD), None)
    if wrong is not None:
        said = f"{wrong!r} isn't a command{words.meant(wrong, names)}"
    else:
        said = f"{given[0]!r} isn't a word of it" if given else "a command is missing"
    asking.stop(f"{name}: {said}; the commands are {', '.join(names)}, and {name} --help tells of them", asking.WORDS)


def called(name, command, given, find):
    """Does what these words ask of a command; gives the status. `find` finds the programs."""
    asked = words.asked(name, command, given)
    scripts.can_read()
    if asked.needs_proofs and command.name not in ASK_NOBODY:
        find.insist()
    return importlib.import_module(f"shared.door.{command.name}").done(asked, find)


def main(name, home):
    """Does what the words ask for. `name` is how the tool is called; `home` is the module that finds the programs (`program`), and says which version they are
    (`version`) and whether they are proved (`said_of`). Gives the status."""
    given = sys.argv[1:]
    place = words.parted(given)
    command = None if place is None else declarations.command(given[place])
    if declarations.VERSION.word in given:
        asking.tell(version_lines(name, home))
        return Programs(name, home).insist() if declarations.PROVED.word in given else 0
    if place is None and {declarations.HELP.word, "-h"} & {*given}:
        asking.tell(help_lines(name))
        return 0
    if command is None:
        without_command(name, given)
    return called(name, command, given[:place] + given[place + 1 :], Programs(name, home))
