"""Trials of the certificate that `mgtool` keeps beside a script: when it is drafted, when it is drafted anew and from where, when it is left alone, and what
stands there when the work ends before its end."""
import contextlib
import hashlib
import io
import os
import pty
import re
import signal
import subprocess
import time
from collections import namedtuple

from gate import limits
from shared import programs, progress

HOTLINE = programs.TOP / "gallery" / "hotline" / "script.toml"
DRAFTED = re.compile(r"^(.*): drafted, (yes|no) .*, with (\d+) entr", re.MULTILINE)
OWN = "it is taken as it stands"
# The lines on how far a draft has come, which stand there where the machine is slow.
LATER = re.compile(r"^ *\d+:\d\d  drafting: .*\n", re.MULTILINE)
# The first line on a draft that takes its time, where standard error is no terminal; how long something is waited for, in seconds of the clock: a tool that
# waits for ever takes no processor time, and that is what is tried here.
FIRST, PATIENCE = re.compile(r"^ *\d+:\d\d  drafting: 0 entries, 0 configurations put in\n", re.MULTILINE), 3600
# What a script of gallery/hotline is turned to, with what drafting anew comes to: how many configurations are put in into what stood there, or into nothing.
TURNED = (
    ("a remark", lambda text: text + "# more\n", "yes after 0 edits"),
    ("a mark less, which no draft can mend", lambda text: text.replace('talk = ["gate-guard"]\nfault = "part"\non', 'fault = "part"\non'), "no K3 "),
    ("another name of a state", lambda text: text.replace('"answer"', '"talk"'), "yes after 33 edits"),
    ("a way less, by which a state has no entry any more", lambda text: text.replace('on.guard.of = "answer"\n', ""), "yes after "),
)
# What is said and what is there: the status, the outputs, and the texts beside the script.
Seen = namedtuple("Seen", "status output error certificate digest")


class Folder:
    """A script in a folder of its own, and the tool that is called on it."""

    def __init__(self, tool, place):
        place.mkdir()
        self.tool, self.script = tool, place / "my.toml"
        self.certificate, self.digest = place / "my.certificate.json", place / "my.certificate.digest"
        self.script.write_text(HOTLINE.read_text())

    def told(self, *words, **how):
        """What calling the tool comes to."""
        result = limits.run([self.tool, *words], capture_output=True, text=True, check=False, **how)
        texts = [path.read_text() if path.is_file() else None for path in (self.certificate, self.digest)]
        return Seen(result.returncode, result.stdout, LATER.sub("", result.stderr), *texts)

    def check(self):
        """The check of the script."""
        return self.told("check", str(self.script))

    def left(self):
        """What stands in the folder."""
        return sorted(path.name for path in self.script.parent.iterdir())


def checksums(folder):
    """The checksums of a script and its certificate, as `sha256sum` writes them."""
    return "".join(f"{hashlib.sha256(path.read_bytes()).hexdigest()}  {path.name}\n" for path in (folder.script, folder.certificate))


def of_first(folder):
    """A draft from nothing, which is kept; then nothing is drafted."""
    seen = folder.check()
    drafted = DRAFTED.search(seen.error)
    says = drafted is not None and drafted[1] == str(folder.certificate) and drafted[0].count("yes after 33 edits") == 1
    yield f"a draft: {seen.error}", seen.status == 0 and seen.output.endswith("yes 6 21 33\n") and says
    yield "its checksums", seen.digest == checksums(folder)
    yield "what stands there", folder.left() == ["my.certificate.digest", "my.certificate.json", "my.toml"]
    again = folder.check()
    yield f"once more: {again.error}", again[:2] == seen[:2] and again[3:] == seen[3:] and not DRAFTED.search(again.error)


def of_stale(tool, top):
    """A script that changed: its certificate is drafted anew, from where it stands or from nothing, and the line is that of what is kept then."""
    for place, (name, turn, became) in enumerate(TURNED):
        folder = Folder(tool, top / f"stale{place}")
        folder.check()
        text = folder.script.read_text()
        folder.script.write_text(turn(text))
        seen = folder.check()
        drafted = DRAFTED.search(seen.error)
        yield f"{name}: {seen.error}", drafted is not None and became in drafted[0] and turn(text) != text
        yield f"{name}: its checksums", seen.digest == checksums(folder)
        from_nothing = folder.told("draft", "-", "-o", "-", input=turn(text)).output
        warned = [line for line in seen.output.splitlines() if "[entry_" in line or "[point_" in line]
        yield f"{name}: what no call comes to: {warned}", not warned
        if became != "yes after 0 edits":
            yield f"{name}: as from nothing", seen.certificate == from_nothing


def of_own(folder):
    """A certificate that was changed by hand is taken as it stands, and not written over; one that is no certificate has its mistakes or a line."""
    folder.check()
    folder.certificate.write_text('{"version":2,"entries":[\n]}\n')
    seen = folder.check()
    yield f"changed by hand: {seen.error}", seen.status == 1 and seen.output.endswith("no K1 entry=- point=- step=-\n") and OWN in seen.error
    folder.script.write_text(folder.script.read_text() + "# more\n")
    later = folder.check()
    yield "changed by hand, and another script", later.certificate == seen.certificate and later.digest == seen.digest and later.status == 1
    refused = folder.told("draft", str(folder.script))
    yield f"a draft over it: {refused.error}", refused.status == 3 and refused.certificate == seen.certificate and "isn't written over" in refused.error
    folder.digest.unlink()
    alone = folder.check()
    yield "without checksums", alone.status == 1 and OWN in alone.error and alone.digest is None
    folder.certificate.unlink()
    yield "taken away", folder.check().output.endswith("yes 6 21 33\n")


def of_streams(folder):
    """A script on standard input keeps nothing; a certificate there is taken; a folder that can't be written to is no hindrance."""
    text = folder.script.read_text()
    seen = folder.told("check", "-", input=text)
    yield f"a script on standard input: {seen.error}", seen.status == 0 and seen.output.endswith("yes 6 21 33\n") and seen.certificate is None
    stored = (HOTLINE.parent / "certificate.json").read_text()
    seen = folder.told("check", str(folder.script), "--certificate", "-", input=stored)
    yield "a certificate on standard input", seen.status == 0 and seen.output.endswith("yes 6 15 33\n") and seen.certificate is None
    seen = folder.told("draft", str(folder.script), "-o", "-")
    yield "a draft to standard output", seen.status == 0 and seen.output.startswith('{"version":2') and seen.certificate is None
    kept = folder.told("draft", str(folder.script))
    yield "the same beside the script", kept.certificate == seen.output and kept.output == "" and kept.digest == checksums(folder)


def of_terminal(folder):
    """How far a draft has come is said from the start where standard error is a terminal, in a line that is gone at the end."""
    ours, theirs = pty.openpty()
    limits.run([folder.tool, "draft", folder.script], stdout=subprocess.DEVNULL, stderr=theirs, check=False)
    os.close(theirs)
    said = b""
    try:
        while part := os.read(ours, 65_536):
            said += part
    except OSError:
        pass
    os.close(ours)
    first, _, _ = said.decode().replace("answered by a program that is not proved yet\r\n", "").partition("put in")
    holds = "drafting: 0 entries, 0 configurations" in first and said.decode().rpartition("\x1b[K")[2].startswith(str(folder.certificate))
    yield f"how far a draft has come: {said}", holds


def of_lines():
    """Where standard error is no terminal nothing is said of what is done at once, and a line of what takes longer."""
    before = progress.FIRST, progress.BETWEEN
    for first, wanted in ((3600, ""), (0.01, r" *\d+:\d\d  at work\n")):
        said = io.StringIO()
        progress.FIRST, progress.BETWEEN = first, 3600
        with contextlib.redirect_stderr(said), progress.line() as tell:
            tell("at work")
            while wanted and not said.getvalue().endswith("\n"):
                time.sleep(0.01)
        yield f"of work whose first line comes after {first} seconds: {said.getvalue()!r}", re.fullmatch(wanted, said.getvalue()) is not None
    progress.FIRST, progress.BETWEEN = before


def of_file(folder, slow):
    """How far a draft has come stands in a file, however long its program takes."""
    log = folder.script.parent / "log"
    with open(log, "wb") as said:
        work = subprocess.Popen([slow, "draft", folder.script, "-o", "-"], stdout=subprocess.DEVNULL, stderr=said)
    found = comes(lambda: FIRST.search(log.read_text()) is not None)
    work.terminate()
    work.wait(PATIENCE)
    yield f"how far a draft has come, in a file: {log.read_text()}", found


def of_interruption(folder, slow):
    """A tool that is ended while it drafts, by a program that takes its time, leaves nothing by half, with the status that a shell shows."""
    single = [slow.with_name("mgcall-draft"), folder.script]
    for number in (signal.SIGTERM, signal.SIGINT, signal.SIGHUP):
        status = 128 + number
        for words in ([slow, "draft", folder.script], single):
            with drafting(folder, words) as work:
                begun = by_half(folder)
                work.send_signal(number)
                found, left = comes(lambda: work.poll() is not None) and work.returncode, folder.left()
            yield f"{words[0].name} ended by {number}: {left}", (begun, found, left) == (True, status, ["my.toml"])


def of_waiting(folder, slow):
    """What is by half is gone at once too where programs that were asked side by side are waited for."""
    program = slow.with_name("mgexplain")
    asked = [program.with_name(f"mgexplain.{count}") for count in (1, 2)]
    program.write_text(f'#!/bin/sh\nmkdir {asked[0]} 2>&- || mkdir {asked[1]} 2>&- || exec sleep 100\nexec {programs.program("mgexplain")} "$@"\n')
    for number in (signal.SIGTERM, signal.SIGINT):
        with drafting(folder, [slow, "draft", folder.script]) as work:
            begun = by_half(folder) and comes(asked[1].exists)
            time.sleep(2)
            work.send_signal(number)
            gone = comes(lambda: folder.left() == ["my.toml"])
        yield f"ended by {number} while it waits: {folder.left()}", begun and gone
        for place in asked:
            place.rmdir()


@contextlib.contextmanager
def drafting(folder, words):
    """A tool that drafts, and that heeds the signals which are ignored here, as in the background; it is ended with all that it started."""

    def heeding():
        for number in (signal.SIGINT, signal.SIGHUP):
            signal.signal(number, signal.SIG_DFL)

    how = {"stdout": subprocess.DEVNULL, "stderr": subprocess.DEVNULL, "start_new_session": True, "preexec_fn": heeding}
    work = subprocess.Popen([*words, "-o", folder.certificate], **how)
    try:
        yield work
    finally:
        with contextlib.suppress(ProcessLookupError):
            os.killpg(work.pid, signal.SIGKILL)
        work.wait()


def comes(holds):
    """Whether something comes to hold within a while."""
    end = time.monotonic() + PATIENCE
    while not (found := holds()) and time.monotonic() < end:
        time.sleep(0.05)
    return found


def by_half(folder):
    """Whether a file comes to be there by half."""
    return comes(lambda: any(name.endswith(".new") for name in folder.left()))


def tried(tool, slow, top):
    """All trials, each with what is said where it fails."""
    for part in (of_first, of_own, of_streams, of_terminal):
        yield from part(Folder(tool, top / part.__name__))
    yield from of_lines()
    yield from of_file(Folder(tool, top / "logged"), slow)
    yield from of_stale(tool, top)
    yield from of_interruption(Folder(tool, top / "interrupted"), slow)
    yield from of_waiting(Folder(tool, top / "waiting"), slow)
