"""The clauses of the crates' functions, and the definitions that each comes to: those of `specs/` that it names, and those that these name."""
import functools
import re
from collections import namedtuple

from gate import sentences
from shared import crates

# A function: what has it (a type or a trait, or nothing), its name, whether a user of the crate can call it, the first sentence of what stands above it, its
# clauses, and the file.
Function = namedtuple("Function", "owner name is_public said clauses path")
# A clause: what has the function (a type or a trait, or nothing), the function, whether a user of the crate can call it, `requires` or `ensures`, the
# clause's name (or nothing), its text, and the file.
Clause = namedtuple("Clause", "owner function is_public kind name text path")
FUNCTION = re.compile(r"(\s*)(pub(?:\([^)]*\))? )?(?:const )?(?:unsafe )?fn (\w+)")
OWNER = re.compile(r"(?:pub(?:\([^)]*\))? )?(impl|trait)\b\s*(.* for )?&?(\w+)")
CLAUSE = re.compile(r"\s*(requires|ensures)\*? (?:(\w+) )?\{")
DEFINITION = re.compile(r"\s*(?:(?:abbrev|unfoldable|opaque) pub|pub (?:record|data)) ([^\s:]+)")
IMPORT = re.compile(r"Rattle\.(\w+)\.specs\.([A-Z]\w*(?:\.[A-Z]\w*)*)")
NAMES = re.compile(IMPORT.pattern + r"\.\{([^}]*)\}")
ALIAS = re.compile(IMPORT.pattern + r" as (\w+)")


def depth(text):
    """How many braces are open behind a text."""
    return text.count("{") - text.count("}")


def contract(lines, indentation):
    """The lines of a function's clauses: they end at its body, or for a method without a body with a semicolon."""
    found, opened = [], 0
    for line in lines:
        if not found and line.lstrip().startswith("ghost "):
            continue
        is_clause = opened == 0 and CLAUSE.match(line)
        if line in (f"{indentation}{{", f"{indentation}{{}}") or not found and not is_clause and line.endswith(("{", "}", ";")):
            break
        if found or is_clause:
            found.append(line)
            opened += depth(line)
            if opened == 0 and line.endswith(";"):
                break
    return found


def split(lines):
    """The clauses of these lines: kind, name or nothing, and text."""
    found, opened = [], 0
    for line in lines:
        if opened == 0 and (head := CLAUSE.match(line)):
            found.append([head[1], head[2], ""])
        opened += depth(line)
        found[-1][2] += f"{line}\n"
    return found


def owner_of(line):
    """What an item has functions for, where it is such an item, and whether it is a trait's."""
    plain = line.replace("->", "")
    while (less := re.sub(r"<[^<>]*>", "", plain)) != plain:
        plain = less
    head = OWNER.match(plain)
    return (head[3], head[1] == "trait" or bool(head[2])) if head else (None, False)


def is_open(root, path):
    """Whether each module that leads to a file is public."""
    parts = path.relative_to(root).with_suffix("").parts
    for place, name in enumerate(parts):
        holder = root.joinpath(*parts[:place]).with_suffix(".rt") if place else root / "lib.rt"
        if not holder.is_file() or not re.search(rf"^pub mod {name};", holder.read_text(), re.MULTILINE):
            return path == root / "lib.rt"
    return True


@functools.cache
def exported(root):
    """The names that a crate's own file hands on."""
    text = (root / "lib.rt").read_text() if (root / "lib.rt").is_file() else ""
    return frozenset(name for use in re.findall(r"^pub use ([^;]*);", text, re.MULTILINE) for name in re.findall(r"\w+", use))


def said_above(lines):
    """The first sentence of the remark that these lines end with; attributes may stand behind it."""
    found = []
    for line in (line.strip() for line in reversed(lines)):
        if not line.startswith(("///", "#[")):
            break
        found += [line.removeprefix("///").strip()] if line.startswith("///") else []
    return sentences.END.split(" ".join(reversed(found)).strip())[0]


@functools.cache
def functions(crate):
    """All functions of a crate."""
    root, found = crates.folder(crate) / "src", []
    files = sorted(root.rglob("*.rt"))
    open_files = {path for path in files if is_open(root, path)}
    open_types = {name for path in open_files for name in re.findall(r"^pub (?:struct|enum|trait) (\w+)", path.read_text(), re.MULTILINE)}
    seen = open_types | exported(root)
    for path in files:
        owner, of_trait = None, False
        lines = path.read_text().splitlines()
        for place, line in enumerate(lines):
            if not line.startswith((" ", "\t", "}")) and line.rstrip().endswith("{"):
                owner, of_trait = owner_of(line)
            if head := FUNCTION.match(line):
                own = owner if head[1] else None
                is_pub = head[2] == "pub " or of_trait and own is not None
                is_public = is_pub and (own in seen if own else path in open_files or head[3] in seen)
                of = [Clause(own, head[3], is_public, *one, path) for one in split(contract(lines[place + 1 :], head[1]))]
                found.append(Function(own, head[3], is_public, said_above(lines[:place]), of, path))
    return found


@functools.cache
def clauses(crate):
    """All clauses of a crate's functions."""
    return [clause for function in functions(crate) for clause in function.clauses]


def named(crate, function, name):
    """The clauses of this name, or where it is nothing the lone clauses without one, of the functions of a crate that have this name. A name by itself is
    that of functions of no type, or where there is none of a type's. `Type::*` are all public functions of a type."""
    owner, _, bare = function.rpartition("::")
    of = [one for one in clauses(crate) if (not owner or one.owner == owner) and (one.is_public if bare == "*" else one.function == bare)]
    if not owner:
        of = [one for one in of if one.owner is None] or of
    if name:
        return [one for one in of if one.name == name]
    return [one for one in of if one.kind == "ensures" and one.name is None]


# ---- definitions


def imports(text):
    """The files of definitions that a text names, each as a crate and a path."""
    return {(crate, module.replace(".", "/")) for crate, module in IMPORT.findall(text) if "declared" not in module}


def passed_on(crate, module):
    """The file of a crate below that this one passes on under this name, if it does."""
    path = crates.folder(crate) / "specs" / "Lib.antt"
    text = path.read_text() if path.is_file() else ""
    return frozenset(imports("\n".join(re.findall(rf"^pub use .*\.{module}$", text, re.MULTILINE))))


@functools.cache
def definitions(crate, module):
    """The definitions of a file, each with its text, and the files that it hands on; nothing where there is no such file."""
    path = crates.folder(crate) / "specs" / f"{module}.antt"
    if not path.is_file():
        return {}, passed_on(crate, module), passed_on(crate, module)
    text = path.read_text()
    found, name = {}, None
    for line in text.splitlines():
        if head := DEFINITION.match(line):
            name = head[1]
        if name and not line.lstrip().startswith("--"):
            found[name] = f"{found.get(name, '')}{line}\n"
    handed = "\n".join(line for line in text.splitlines() if re.match(r"(?:unfoldable )?pub use ", line))
    return found, frozenset(imports(text)), frozenset(imports(handed))


def handed_on(files):
    """These files with those that they hand on."""
    found, waiting = set(), [*files]
    while waiting:
        file = waiting.pop()
        if file not in found:
            found.add(file)
            waiting += definitions(*file)[2]
    return found


def reached(text, files):
    """The definitions that a text comes to which names things of these files, each as crate, path and name."""
    found, waiting = set(), [(text, files)]
    while waiting:
        text, files = waiting.pop()
        words = set(re.findall(r"[^\W\d][\w']*", text))
        for file in handed_on(files):
            own, others, _ = definitions(*file)
            for name in words & own.keys():
                if (*file, name) not in found:
                    found.add((*file, name))
                    waiting.append((own[name], others | {file}))
    return found


def reached_by(clause):
    """The definitions that a clause comes to."""
    return reached(clause.text, imports(clause.path.read_text()))


@functools.cache
def words(path):
    """What words of a file stand for: names of definitions, each with crate, path and name; and names of whole files of definitions, with crate and path."""
    text, of_names, of_files = path.read_text(), {}, {}
    for crate, module, names in NAMES.findall(text):
        for name, _, other in (one.strip().partition(" as ") for one in names.split(",")):
            of_names.setdefault(other or name, set()).add((crate, module.replace(".", "/"), name))
    for crate, module, other in ALIAS.findall(text):
        of_files.setdefault(other, set()).add((crate, module.replace(".", "/")))
    return of_names, of_files


def cited_by(clause):
    """The definitions that a clause names, each as crate, path and name, in the order in which they stand there."""
    of_names, of_files = words(clause.path)
    found = []
    for first, second in dict.fromkeys(re.findall(r"([^\W\d][\w']*)(?:\.([^\W\d][\w']*))?(?:\.[\w']+)*", clause.text)):
        named = sorted({*of_names.get(first, ()), *((*file, second) for file in of_files.get(first, ()))})
        found += [(*file, name) for *file, name in named for file in sorted(handed_on({tuple(file)})) if name in definitions(*file)[0]]
    return found
