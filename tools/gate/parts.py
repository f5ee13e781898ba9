"""The parts of crates that have several: files of code and of definitions that know nothing of the crate's other files but those of the parts that they stand
on. What stands in no part puts the parts together, and may use each. Lemmas aren't looked at: what they use decides nothing."""
import functools
import re
from collections import namedtuple

from shared import crates

# A part: its modules and its files of definitions, the parts that it uses, and libraries of the crate that it doesn't name.
Part = namedtuple("Part", "files uses without")

PARTS = {
    "mg_reports": {"one call": Part("laws Laws Sums", "", "mg_alike mg_merge")},
    "terminations": {"numbers": Part("keys numbered Kept", "", "identifiers")},
    "contexts": {
        "ties": Part("members cuts same single Groups TiedBoard", "", ""),
        "media": Part("wiring media reach found trail paths Paths Found", "ties", ""),
    },
    "typed_values": {"shapes": Part("missing names texts unread word Names Shape Texts Unread", "", "toml")},
    "scriptreader": {
        "document": Part("syntax tables texts items commands limits Documents Limits Texts Written", "", "script_table digits mg_model"),
        "names": Part("named names scope DeclaredNames Places", "document", "digits mg_model toml"),
        "faults": Part("fault faults duplicates uses Faults FaultNames", "names document", "script_table mg_model toml"),
        "meaning": Part("lookups requests build Meaning", "names document", "toml"),
    },
    "entry_table": {"sieves": Part("fixed_bits group likeness rows sieve sieves Sieves", "", "mg_names")},
    "certificate": {
        "document": Part("reads written document Document Keys Written", "", "configuration entry_table script_table mg_names mg_model"),
        "components": Part(
            "names named_cuts by_slot key vocabulary ranked component entry_rows Components FoundRows NamedRows Naming Ranks", "document", "serde_json"
        ),
    },
    "shards": {"messages": Part("messages Messages", "", "agent gateway composition systems")},
    "workers": {"steps": Part("worker workplace PlanSteps Working", "", "plans composition")},
    "call_ways": {
        "keys": Part("key Key", "", "closure entry_table script_table"),
        "ways": Part("find found reached search trace way Reached Search Ways", "keys", "mg_names"),
    },
    "explanation": {
        "points": Part(
            "breach breaches created located media mended nearest only paths uncovered widened Alone Breaches Created Located Nearest Paths Uncovered", "",
            "call_ways built_request",
        ),
        "causes": Part("cause last shows through Causes Shown", "points", "entry_table"),
        "reach": Part("part narrowed Parts", "points", "built_request"),
    },
    "taken_steps": {
        "steps": Part("came causes idle position reasons taking Findings Positions Reasons Taking", "", "gateway built_request"),
        "scenes": Part("fault scene shown results names_bound", "", "planned_calls"),
    },
}


def path_of(crate, name):
    """The file of a module, or of definitions."""
    folder = crates.folder(crate)
    return folder / "specs" / f"{name}.antt" if name[0].isupper() else folder / "src" / f"{name}.rt"


@functools.cache
def known(crate):
    """The names of a crate's modules and files of definitions."""
    folder = crates.folder(crate)
    return {path.stem for path in (*folder.glob("src/*.rt"), *folder.glob("specs/*.antt"))} - {"lib", "Lib"}


@functools.cache
def exported(crate):
    """The names that a crate's own file hands on, each with its module."""
    root = crates.folder(crate) / "src" / "lib.rt"
    handed = re.findall(r"^pub use (\w+)::([^;]*);", root.read_text(), re.MULTILINE)
    return {name: module for module, names in handed for name in re.findall(r"\w+", names)}


def used(crate, text):
    """What a file of a crate uses: of the crate itself by the names of its files, and libraries."""
    names = re.findall(r"\bcrate::(\w+)", text)
    names += [name for listed in re.findall(r"\bcrate::\{([^}]*)\}", text) for name in re.findall(r"(?:^|,)\s*(\w+)", listed)]
    own = {exported(crate).get(name, name) for name in names}
    own |= set(re.findall(rf"\b(?:crate::specs::|Rattle\.{crate}\.specs\.(?:declared\.)?)(\w+)", text))
    libraries = re.findall(r"^(?:pub )?use (\w+)(?:::|;)|\bRattle\.(\w+)\.|(?<![:\w])(\w+)::\w", text, re.MULTILINE)
    return own & known(crate), {name for found in libraries for name in found}


def looked():
    """Whether each part has its files, and these use nothing but what the part stands on."""
    uses_of = crates.libraries()
    for crate, parts in PARTS.items():
        for name, part in parts.items():
            allowed = {*part.files.split(), *(file for below in part.uses.split() for file in parts[below].files.split())}
            for library in sorted(set(part.without.split()) - set(uses_of[crate])):
                yield f"crate {crate} has no library {library}", False
            for file in part.files.split():
                path = path_of(crate, file)
                own, libraries = used(crate, path.read_text()) if path.is_file() else (set(), set())
                across = sorted(own - allowed) + sorted(libraries & set(part.without.split()))
                yield f"{crate}, {name}: no file {path.name}", path.is_file()
                yield f"{crate}, {name}: {path.name} uses {', '.join(across)}", not across
