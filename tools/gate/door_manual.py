"""The man page of mgtool, made from the declarations of its words."""
from gate import modules
from shared.door import declarations

NAME = "mgtool.1"
SEE_ALSO = (("mgcall", 1), ("mgexplain", 1), ("mgcall\\-check", 1), ("mgcall\\-script", 5), ("mgcall\\-certificate", 5), ("mgcall\\-plan", 5))
EXAMPLES = (
    ("All that is wrong with a script, and whether it may run:", "mgtool check my.toml"),
    ("All scripts of a folder, for a forge:", "mgtool check scripts/*.toml --format junit > mgtool.xml"),
    ("The same of one script, with a certificate that somebody else keeps:", "mgtool check my.toml --certificate my.json --format sarif > my.sarif"),
    ("The scenarios of a script as a plan:", "mgtool plan my.toml > my.plan.toml"),
    ("A page with a run:", "mgtool page my.toml my.plan.toml -o my.html"),
)
ORDER = (
    "Options and files come in any order. A value is the next word, or follows a `=` in the word of its option. `--` ends the options, and `-` is standard "
    "input."
)
TOOL = "mgtool"
manual = modules.tool("gate/manual")


def synopsis(command):
    """How a command is called."""
    yield f".B {TOOL} {command.name}"
    for operand in command.operands:
        yield f".I {operand.shown}" if operand.is_needed else f".RI [ {operand.shown} ]"
    for option in command.options:
        is_needed = option.key in declarations.NEEDED.get(command.name, ())
        word, value = manual.escaped(option.word), declarations.choice(option)
        if value is None:
            yield f".RB [ {word} ]"
        elif is_needed:
            yield from (f".B {word}", f".I {value}")
        else:
            yield from (f".RB [ {word}", f".IR {value} ]")


def option_lines(option):
    """What is said of an option."""
    word, value = manual.escaped(option.word), declarations.choice(option)
    yield from (".TP", f".BI {word} \" {value}\"" if value else f".B {word}", manual.inline(option.about))


def command_lines(command):
    """What is said of a command, with its files and options."""
    yield from (f".SS {command.name}", manual.inline(f"{command.about[0].upper()}{command.about[1:]}. {command.more}"))
    for operand in command.operands:
        yield from (".TP", f".I {operand.shown}", manual.inline(operand.about))
    for option in command.options:
        yield from option_lines(option)


def statuses():
    """The table of statuses."""
    yield from (".TS", "lb lb", "l lx.", "Status\tWhen")
    yield from (f"{number}\t{manual.cell_of(says)}" for number, says in declarations.STATUSES)
    yield ".TE"


def lines():
    """The lines of the page."""
    yield from ("'\\\" t", ".\\\" Written by tools/gate/mgtool from tools/shared/door/declarations.py.", f'.TH {TOOL.upper()} 1 "" "mgcall" "User Commands"')
    yield from (".ad l", ".SH NAME", f"{TOOL} \\- {declarations.ABOUT}", ".SH SYNOPSIS")
    for place, command in enumerate(declarations.COMMANDS):
        yield from ([".br"] if place else [])
        yield from synopsis(command)
    yield from (".br", f".B {TOOL}", *(f".RB [ {manual.escaped(option.word)} ]" for option in declarations.EVERYWHERE))
    yield from (".SH DESCRIPTION", manual.inline(declarations.RULE), ".PP", manual.inline(declarations.FILES), ".PP", manual.inline(ORDER))
    yield ".SH COMMANDS"
    for command in declarations.COMMANDS:
        yield from command_lines(command)
    yield ".SH OPTIONS"
    for option in declarations.EVERYWHERE:
        yield from option_lines(option)
    yield from (".SH EXIT STATUS", *statuses(), ".SH EXAMPLES")
    for says, command in EXAMPLES:
        yield from (".PP", manual.inline(says), ".PP", ".EX", manual.escaped(command), ".EE")
    yield ".SH SEE ALSO"
    yield from (f".BR {name} ({section})," for name, section in SEE_ALSO[:-1])
    yield f".BR {SEE_ALSO[-1][0]} ({SEE_ALSO[-1][1]})"


def text():
    """The text of the page."""
    return "".join(f"{line}\n" for line in lines())
