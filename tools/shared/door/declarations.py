"""The words of mgtool as data: its commands, and of each the files and the options that it takes. What reads the words, the help, the man page and the
completions are made of these. It is installed too, so it knows nothing of this repository."""
from collections import namedtuple

TOOL = "mgtool"
# A file that a command takes: under which key it is kept, how it is shown, what is said of it, whether it has to be there, and the end of such files' names.
# Where that is ANY it is a name of something else, of which there may be several. The last says whether there may be several such files.
Operand = namedtuple("Operand", "key shown about is_needed kind is_many", defaults=(False,))
# An option: its key, its word, how its value is shown, which is None where it takes none, what is said of it, and what may stand there: words, the end of a
# file's name, `/` for a folder, the smallest and the largest number, or any word.
Option = namedtuple("Option", "key word value about kind")
# A command: its name, what it does in a line, what is said of it below that, its files, its options, and whether it takes a certificate.
Command = namedtuple("Command", "name about more operands options")

ANY = ()
SCRIPT = Operand("script", "SCRIPT", "the script, a TOML document; `-` is standard input", True, "toml")
PLAN = Operand("plan", "PLAN", "the plan of a run, a TOML document; `-` is standard input", False, "toml")
SCRIPTS = Operand(
    "scripts", "SCRIPT..", "the scripts, TOML documents; `-` is standard input. Of several, each answer has the name of its script before it.",
    True, "toml", True,
)
SCENARIO = Operand("names", "SCENARIO..", "the names of scenarios; without one all are taken", False, ANY)
CERTIFICATE = Option(
    "certificate", "--certificate", "FILE",
    "The certificate; `-` is standard input. Without it the one that is kept beside the script is taken, and one is drafted where none is kept, or where "
    "the script is another one than that for which it was drafted.",
    "json",
)
CALL = Option("call", "--call", "N", "Of a plan: tell the call with this number alone, from 0, with those that begin within it.", (0, 4_294_967_295))
SCENARIOS = Option(
    "scenarios", "--scenarios", "FILE", "The file of scenarios; `-` is standard input. Without it the one beside the script is taken.", "toml",
)
QUIET = Option("is_quiet", "--quiet", None, "Print neither how far the work has come nor that the program which answers isn't proved.", None)
TEXT, JSON, SARIF, JUNIT = FORMATS = ("text", "json", "sarif", "junit")
STANDARD = "-"

ABOUT = "check call control scripts, say why, draft certificates, run plans and show what happens"
RULE = (
    "Where no certificate is named, the one that is kept beside the script is taken: of my.toml it is my.certificate.json. Where none is kept there it is "
    "drafted, and kept with the checksums of both files in my.certificate.digest, as sha256sum writes them. Where the script is another one by its checksum, "
    "it is drafted anew from where it stands, and from nothing where that comes to no yes or leaves entries that no call comes to. A certificate that was "
    "written or changed by hand is taken as it stands and not written over."
)
FILES = (
    "A file that can't be read, is empty, is no UTF-8, is longer than 16,777,216 bytes or is of another kind than its place asks for has one line with its "
    "name and the reason, and status 3. One file at most may be standard input. What is written has its name once it is whole."
)
STATUSES = (
    ("0", "the answer is yes; of draft: it came to a yes; of run, trace and page with a plan: the plan was run"),
    ("1", "the answer is no, or with --strict a yes under which something is warned of; of coverage: an intent doesn't hold; of test: a scenario fails; of plan: one can't be done"),
    ("2", "the words ask for nothing; the line names the wrong one"),
    ("3", "a file can't be taken, has mistakes, or can't be written"),
    ("4", "there was no memory"),
    ("5", "the plan has no report"),
    ("6", "a read or a write failed; so did one to standard output, or to standard error unless only notes were lost"),
    ("69", "--proved is given, and a program that would answer isn't proved (EX_UNAVAILABLE)"),
    ("70", "an error that nobody expected (EX_SOFTWARE): the line says what happened and where to report it, and with MGTOOL_DEBUG=1 the traceback is printed"),
    ("127", "no program is there, or Jinja2 or Graphviz isn't, or Python is older than 3.11"),
    ("129, 130, 143", "a signal ended the tool and the programs that it had started: SIGHUP, SIGINT or SIGTERM"),
)

COMMANDS = (
    Command(
        "check",
        "check a script, and tell all that is wrong with it by its place",
        "Each mistake of the script, and of a certificate that is named, stands in a line as compilers write it: FILE:LINE:COL: error: TEXT. A No has its "
        "state, its command and the way of a call there as notes, a yes has what is warned of in the order of the files. Lines and columns count from 1, "
        "columns in bytes. The last line is that of `mgcall check`, and the status is its status. Of several scripts it is the highest, and if a file can't be "
        "taken, none is checked.",
        (SCRIPTS,),
        (
            CERTIFICATE,
            Option(
                "is_strict", "--strict", None,
                "Status 1 for a yes under which something is warned of; a note that the intents beside the script say is ignored isn't.", None,
            ),
            Option("format", "--format", "FORM", "How it is told: as text, one JSON value, SARIF 2.1.0, or JUnit XML. As text where none is named.", FORMATS),
            Option("pieces", "--pieces", "N", "Check the certificate in so many pieces, 1 to 64, by as many threads. The answer is the same.", (1, 64)),
        ),
    ),
    Command(
        "why",
        "say in words what the check comes to, or with a plan what each of its steps does",
        "It says what `mgcall-why` says, by the facts that mgexplain tells.",
        (SCRIPT, PLAN),
        (
            CERTIFICATE,
            Option("is_json", "--json", None, "The facts as one JSON value.", None),
            Option("is_dot", "--dot", None, "Without a plan: the state machine as a text for Graphviz, with what a No names in red.", None),
            Option("is_ladder", "--ladder", None, "With a plan: the messages of the run, the call on the left and its gateway on the right.", None),
            CALL,
            Option("is_strict", "--strict", None, "Without a plan: status 1 for a yes under which something is warned of.", None),
        ),
    ),
    Command(
        "test",
        "run the scenarios of a script, and tell which come out as they say",
        "The scenarios of my.toml stand in my.scenarios.toml: what people do, and what has to come of it. The proved program runs them, and what it tells is "
        "compared with what they say. Of one that comes out otherwise the first difference stands at its place, with the messages up to it. The intents of each "
        "state are a test too. The last line says how many passed and how many failed. A script that is a No isn't run: its diagnosis is told.",
        (SCRIPT,),
        (
            CERTIFICATE,
            SCENARIOS,
            Option("word", "-k", "WORD", "Run the scenarios and ask the intents alone that have this in their names; those of a state are called `intents of STATE`.", ANY),
            Option(
                "has_faults", "--faults", None,
                "Run each scenario again with each message lost, repeated and late, each command refused, a restart behind each word, and each telephone lifted "
                "or put down a word earlier and later. What has to hold then stands in the file, under `always` and `at_end`.",
                None,
            ),
            Option("target", "--record", "FILE", "Write the scenarios with what came of each step into this file, and judge nothing; `-` is standard output.", "toml"),
            Option("format", "--format", "FORM", "How it is told: as text, one JSON value, or JUnit XML. As text where none is named.", (TEXT, JSON, JUNIT)),
        ),
    ),
    Command(
        "plan",
        "write scenarios of a script as a plan",
        "The plan has a call for each scenario, in the order of their file, on lines of its own, with the steps that `mgtool test` takes. It stands on standard "
        "output, for `mgtool run`, `why`, `trace` and `page`; nothing is judged. What of a scenario can't be done is told on standard error, with status 1: its "
        "call ends there. Of a No nothing is written: its diagnosis is told on standard error.",
        (SCRIPT, SCENARIO),
        (
            CERTIFICATE,
            SCENARIOS,
            Option("word", "-k", "WORD", "Take the scenarios that have this in their names.", ANY),
        ),
    ),
    Command(
        "draft",
        "write a certificate of a script",
        "It puts in what a No says is lacking, from the certificate that is named or kept on, until a yes, or a No on which a person has to decide. Without "
        "-o the certificate is kept beside the script, and that of standard input goes to standard output.",
        (SCRIPT,),
        (
            CERTIFICATE,
            Option("target", "-o", "FILE", "Write it into this file, and keep none; `-` is standard output.", "json"),
            Option("is_wide", "--wide", None, "Join entries of a state that differ in one component alone, which adds no configuration.", None),
            Option("is_whole", "--whole", None, "Go on past a No of K3 or K4, until all that calls come to is there.", None),
        ),
    ),
    Command(
        "coverage",
        "say what the service does, state by state, and whether its intents hold",
        "It says what `mgcall-why --coverage` says: who hears whom where calls rest, which notes are awaited, where marks are needed, and what becomes of each "
        "command on each way in. Behind that stands what of the intents doesn't hold, an error each at its place, with status 1. Of a No it tells what `check` "
        "tells.",
        (SCRIPT,),
        (
            CERTIFICATE,
            Option(
                "scenarios", "--intents", "FILE",
                "The file with intents. Without it the one beside the script is taken where it is there: of my.toml it is my.scenarios.toml.", "toml",
            ),
            Option("is_brief", "--brief", None, "As text: say whether the intents hold, and nothing of the states.", None),
            Option("format", "--format", "FORM", "How it is told: as text, or one JSON value with the facts. As text where none is named.", (TEXT, JSON)),
        ),
    ),
    Command(
        "run",
        "run a plan of a script",
        "It prints the report of `mgcall run`, and ends with its status.",
        (SCRIPT, PLAN._replace(is_needed=True)),
        (CERTIFICATE, Option("workers", "--workers", "N", "Run the plan on so many workers, 1 to 64; one where it isn't given.", (1, 64))),
    ),
    Command(
        "trace",
        "write the messages of a run in the text of H.248.1 Annex B",
        "Each message stands behind a comment that says what it is and what became of it, as `mgcall-trace` writes it.",
        (SCRIPT, PLAN._replace(is_needed=True)),
        (
            CERTIFICATE,
            CALL,
            Option("folder", "--messages", "DIR", "Write each message into a file of its own too, in a folder that isn't there yet or is empty.", "/"),
            Option("capture", "--pcap", "FILE", "Write all of them into a capture for Wireshark too.", "pcapng"),
        ),
    ),
    Command(
        "page",
        "write one HTML page for a script, and with a plan for its run",
        "It has the verdict in words, the state machine, each state with its entries, and with a plan the messages. It is made with Jinja2 and Graphviz.",
        (SCRIPT, PLAN),
        (CERTIFICATE, Option("target", "-o", "FILE", "The page that is written. It has to be named.", "html")),
    ),
    Command(
        "picture",
        "write the state machine of a script as a text for Graphviz",
        "It draws what the script says, and checks nothing: `mgtool picture my.toml | dot -Tsvg -o my.svg` makes a picture of it.",
        (SCRIPT,),
        (),
    ),
    Command(
        "watch",
        "check a script again whenever it changes",
        "It looks each second at the script, its certificate and the scenario file beside it, and checks again where one changed, a block each. Behind a yes "
        "it runs what the scenario file asks for. An interruption ends it with status 0.",
        (SCRIPT._replace(about="the script, a TOML document"),),
        (
            CERTIFICATE,
            Option("changes", "--changes", "N", "End after so many changes, with the status of the last check; 0 checks once.", (0, 1_000_000)),
        ),
    ),
)
# Each command has the option that silences notes.
COMMANDS = tuple(one._replace(options=(*one.options, QUIET)) for one in COMMANDS)
# Options that have to be given.
NEEDED = {"page": ("target",)}
HELP = Option("help", "--help", None, "Say what it does and what its words are.", None)
VERSION = Option("version", "--version", None, "Say which version it and the two programs are, and whether these are proved.", None)
PROVED = Option(
    "needs_proofs", "--proved", None,
    "Refuse to answer if mgcall or mgexplain isn't proved, with an error and status 69. With --version: that status if one of them isn't.", None,
)
# What every command takes.
EVERYWHERE = (HELP, VERSION, PROVED)


def command(name):
    """The command of a name; none where there is none."""
    return next((one for one in COMMANDS if one.name == name), None)


def are_words(kind):
    """Whether words stand for the value of an option."""
    return isinstance(kind, tuple) and kind != ANY and isinstance(kind[0], str)


def choice(option):
    """The value of an option as a usage shows it; none where it takes none."""
    return "|".join(option.kind) if are_words(option.kind) else option.value


def usage(one):
    """How a command is called, in a line, without the name of the tool."""
    words = [operand.shown if operand.is_needed else f"[{operand.shown}]" for operand in one.operands]
    for option in one.options:
        word = option.word if option.value is None else f"{option.word} {choice(option)}"
        words.append(word if option.key in NEEDED.get(one.name, ()) else f"[{word}]")
    return " ".join([one.name, *words])
