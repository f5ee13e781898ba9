"""The completions of mgtool for bash, zsh and fish, made from the declarations of its words."""
from shared.door import declarations

TOOL = "mgtool"
HEAD = "# Completions of mgtool for {}. Written by tools/gate/mgtool from tools/shared/door/declarations.py.\n"
COMMANDS = declarations.COMMANDS
EVERYWHERE = declarations.EVERYWHERE


def files(command):
    """The files that a command takes, without names of something else."""
    return [operand for operand in command.operands if operand.kind != declarations.ANY]


def options(command):
    """The options of a command, with those that every command has."""
    return (*command.options, *EVERYWHERE)


def words(found):
    """The words of options."""
    return " ".join(option.word for option in found)


def brief(text):
    """The first sentence of a text, without what a shell would take for its own."""
    return text.partition(". ")[0].partition("; ")[0].rstrip(".").replace("`", "").replace("'", "").replace("[", "(").replace("]", ")").replace(":", ",")


# ---- bash

BASH = """
# Files whose names end so, and folders.
_mgtool_files() {{
    local IFS=$'\\n'
    compopt -o filenames 2>/dev/null
    COMPREPLY=($(compgen -f -X "!*.$1" -- "$2") $(compgen -d -- "$2"))
}}

_mgtool() {{
    local current=${{COMP_WORDS[COMP_CWORD]}} before=${{COMP_WORDS[COMP_CWORD - 1]}} command= at=1 files=0 many=0 options='{everywhere}' kinds=
    COMPREPLY=()
    while ((at < COMP_CWORD)); do
        case ${{COMP_WORDS[at]}} in
        {valued}) ((at++)) ;;
        -?*) ;;
        *) if [[ $command ]]; then ((files++)); else command=${{COMP_WORDS[at]}}; fi ;;
        esac
        ((at++))
    done
    case $command in
    '') kinds=command ;;
{commands}
    esac
    case $before in
{values}
    *)
        kinds=($kinds)
        if [[ $current == -* ]]; then
            COMPREPLY=($(compgen -W "$options" -- "$current"))
        elif [[ $kinds == command ]]; then
            COMPREPLY=($(compgen -W '{names}' -- "$current"))
        elif ((many || files < ${{#kinds[@]}})); then
            _mgtool_files "${{kinds[many ? 0 : files]}}" "$current"
        fi
        ;;
    esac
}}

complete -F _mgtool mgtool
"""


def bash_action(kind):
    """What bash offers for a value, and the end of its case."""
    if declarations.are_words(kind):
        return f"""COMPREPLY=($(compgen -W '{" ".join(kind)}' -- "$current")) ;;"""
    if kind == "/":
        return 'COMPREPLY=($(compgen -d -- "$current")) ;;'
    return ";;" if isinstance(kind, tuple) else f'_mgtool_files {kind} "$current" ;;'


def many(command):
    """What bash is told of a command that takes any number of files."""
    return " many=1" if any(operand.is_many for operand in files(command)) else ""


def bash():
    """The file for bash."""
    valued = {option.word: option for command in COMMANDS for option in command.options if option.value is not None}
    kinds = {word: {option.kind for command in COMMANDS for option in command.options if option.word == word} for word in valued}
    one_kind = {word: option for word, option in valued.items() if len(kinds[word]) == 1}
    several = [word for word in valued if word not in one_kind]
    values = [f"    {word}) {bash_action(option.kind)}" for word, option in one_kind.items()]
    for word in several:
        pairs = ((command.name, option.kind) for command in COMMANDS for option in command.options if option.word == word)
        cases = " ".join(f"{name}) {bash_action(kind)}" for name, kind in pairs)
        values.append(f"    {word}) case $command in {cases} esac ;;")
    return HEAD.format("bash") + BASH.format(
        everywhere=words(EVERYWHERE),
        valued=" | ".join(valued),
        commands="\n".join(
            f"    {one.name}) options='{words(options(one))}' kinds='{' '.join(operand.kind for operand in files(one))}'{many(one)} ;;"
            for one in COMMANDS
        ),
        values="\n".join(values),
        names=" ".join(one.name for one in COMMANDS),
    )


# ---- zsh


def zsh_action(kind):
    """What zsh offers for a value."""
    if kind == "/":
        return "_files -/"
    if isinstance(kind, str):
        return f'_files -g "*.{kind}"'
    return f"({' '.join(kind)})" if declarations.are_words(kind) else " "


def zsh_operand(place, operand):
    """A file for zsh; names of something else, of which none is offered, come last."""
    is_name = operand.kind == declarations.ANY
    return f"'{'*' if is_name or operand.is_many else place}:{operand.shown.lower().rstrip('.')}:{zsh_action(operand.kind)}'"


def zsh_option(option):
    """An option for zsh."""
    value = f":{option.value.lower()}:{zsh_action(option.kind)}" if option.value else ""
    return f"'{option.word}[{brief(option.about)}]{value}'"


def zsh():
    """The file for zsh."""
    lines = ["#compdef mgtool", HEAD.format("zsh").rstrip("\n"), "", "_mgtool() {", "    local -a commands=("]
    lines += [f"        '{one.name}:{brief(one.about)}'" for one in COMMANDS]
    lines += ["    )", "    if ((CURRENT == 2)); then", f"        _arguments {' '.join(map(zsh_option, EVERYWHERE))}", "        _describe command commands"]
    lines += ["        return", "    fi", "    local command=$words[2]", "    shift words", "    ((CURRENT--))", "    case $command in"]
    for one in COMMANDS:
        parts = [*map(zsh_operand, range(1, 1 + len(one.operands)), one.operands), *map(zsh_option, options(one))]
        lines += [f"    {one.name})", "        _arguments \\", *(f"            {part} \\" for part in parts[:-1]), f"            {parts[-1]}", "        ;;"]
    return "\n".join([*lines, "    esac", "}", "", '_mgtool "$@"', ""])


# ---- fish


def fish_option(condition, option):
    """An option for fish."""
    short = option.word.startswith("-") and not option.word.startswith("--")
    word = f"-o {option.word[1:]}" if short and len(option.word) > 2 else f"-{'s' if short else 'l'} {option.word.lstrip('-')}"
    value = "" if option.value is None else f" -x -a '{' '.join(option.kind)}'" if declarations.are_words(option.kind) else " -x" if isinstance(option.kind, tuple) else " -r"
    return f"complete -c mgtool -n '{condition}' {word}{value} -d '{brief(option.about)}'"


def fish():
    """The file for fish."""
    lines = [HEAD.format("fish"), "complete -c mgtool -f"]
    lines += [f"complete -c mgtool -n __fish_use_subcommand -a {one.name} -d '{brief(one.about)}'" for one in COMMANDS]
    lines += [fish_option("true", option) for option in EVERYWHERE]
    for one in COMMANDS:
        condition = f"__fish_seen_subcommand_from {one.name}"
        kinds = dict.fromkeys(operand.kind for operand in files(one))
        lines += [f"complete -c mgtool -n '{condition}' -a '(__fish_complete_suffix .{kind})'" for kind in kinds]
        lines += [fish_option(condition, option) for option in one.options]
    return "\n".join([*lines, ""])


# The name of each file, with what makes its text.
FILES = {"mgtool.bash": bash, "_mgtool": zsh, "mgtool.fish": fish}
