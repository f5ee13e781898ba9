"""A certificate that is made by doing what is said of a No, from No to No. An entry is put in so that it brings no configuration but the one that is lacking:
a wider one where that holds of it, else the entry of one point. So, from nothing, every configuration of a draft is one that a call comes to by the check's
own steps, and a No of K3, K4, K5 or K7 is about the script. A whole draft goes on past K3 and K4: it is made of the script with each pair of lines marked in
each state and no state as an end, in which calls take the same steps. It is installed too, so it knows nothing of this repository."""
import itertools
import json
import sys
from collections import namedtuple

from shared import arguments, asking, certificates, explained, fronts, progress, scripts

WIDE, WHOLE, TARGET = "--wide", "--whole", "-o"
USAGE = f"SCRIPT [CERTIFICATE] [{TARGET} FILE] [{WIDE}] [{WHOLE}] [--quiet]"
FORM = arguments.Form(1, 2, (TARGET,), (WIDE, WHOLE))
# What is asked for: the files' names, None where one isn't named, whether entries are joined, and whether K3 and K4 end nothing.
Wanted = namedtuple("Wanted", "script certificate target is_wide is_whole", defaults=(False,))


def wanted(given, usage):
    """What the words of a tool ask for; `-` as the file to write is standard output."""
    files, options = arguments.read(FORM, given, usage)
    target = options.get(TARGET)
    return Wanted(*(files + [None])[:2], None if target == arguments.STANDARD else target, WIDE in options, WHOLE in options)


def page_of(program, texts):
    """What `mgexplain` tells of a script and a certificate. Where it can't tell anything, the tool ends with its status."""
    status, page = explained.told(program, [], texts)
    if status not in (0, 1, 3):
        asking.stop(page["line"] if page else f"{program} ended with status {status}", status)
    return page


def begun(names, texts):
    """The script, and the entries to begin with, of what `mgexplain` has read."""
    try:
        script = scripts.read(texts[0])
        return script, [certificates.normal(script, entry) for entry in json.loads(texts[1])["entries"]]
    except (AttributeError, KeyError, RecursionError, TypeError, ValueError) as error:
        return asking.stop(f"{' and '.join(filter(None, names))}: not as this Python reads them: {error}", asking.FILES)


def toml(value):
    """A value as TOML."""
    if isinstance(value, dict):
        return f"{{{', '.join(f'{key} = {toml(one)}' for key, one in value.items())}}}"
    return f"[{', '.join(map(toml, value))}]" if isinstance(value, list) else json.dumps(value)


def unjudged(script):
    """The text of a script in which calls take the steps that they take in this one, and of which K3 and K4 ask nothing."""
    pairs = ["-".join(pair) for pair in itertools.combinations(script["lines"], 2)]
    states = [{**{key: value for key, value in state.items() if key != "end"}, "talk": pairs} for state in script["state"]]
    return "".join(f"{key} = {toml(value)}\n" for key, value in {**script, "state": states}.items()).encode()


def became(end, is_wide):
    """The line on what became of a draft."""
    after = f"after {end.count} edit{'' if end.count == 1 else 's'}"
    if end.page["status"] == 0:
        return f"yes {after}"
    if end.is_full:
        most = f"state {fronts.lacking(end.page)['state']} has {certificates.ENTRIES} entries, and may have no more"
        return f"{end.page['line']} {after}: {most}{', and none can be joined' if is_wide else f'; {WIDE} joins entries'}"
    if end.is_again:
        return f"{end.page['line']} {after}: what there is to put in was put in before, and is refused again"
    if end.page["status"] == 3:
        return f"{end.page['line']} {after}"
    if end.is_whole:
        return f"{end.page['line']} {after}: all that calls come to is there"
    return f"{end.page['line']} {after}: {end.page['line'].split()[1]} asks for what no entry mends, and a person has to decide"


def made(program, texts, asked, tell):
    """What drafting from a script and a certificate comes to, as it is told on the way. Where they can't be read, the tool ends with what is said of that."""
    def told(entries, count):
        tell(f"drafting: {entries} entries, {count} configurations put in")

    told(0, 0)
    if page_of(program, texts)["status"] == 3:
        asking.stop(explained.in_words(program, [], texts)[1].rstrip("\n"), 1)
    script, entries = begun(asked[:2], texts)
    drafted_of = unjudged(script) if asked.is_whole else texts[0]

    def page_of_text(text, of=drafted_of):
        return page_of(program, [of, text.encode()])

    end = fronts.Draft(script, entries, asked.is_wide, page_of_text, told).followed()
    if asked.is_wide and not end.page["status"]:
        fewer = certificates.joined(script, end.entries)
        page = page_of_text(certificates.text(fewer))
        end = end if page["status"] else end._replace(page=page, entries=fewer)
    if not asked.is_whole or end.is_again or end.is_full:
        return end
    return end._replace(page=page_of_text(certificates.text(end.entries), texts[0]), is_whole=not end.page["status"])


def drafted(asked, find):
    """Drafts a certificate with the program that `find` finds, writes it, and says what became of it; the status is 0 where that is a yes, else 1."""
    scripts.can_read()
    given = asking.read([asked.script, *([asked.certificate] if asked.certificate else [])])
    with asking.written(asked.target) as file:
        program = find("mgexplain")
        with progress.line() as tell:
            end = made(program, [*given, certificates.text([]).encode()][:2], asked, tell)
        draft = certificates.text(end.entries)
        file.write(draft)
    print(became(end, asked.is_wide), file=sys.stderr)
    if end.page["status"] == 0:
        return 0
    words = explained.in_words(program, [], [given[0], draft.encode()])[1]
    print(words.partition("\n")[2].rstrip("\n"), file=sys.stderr)
    return 1
