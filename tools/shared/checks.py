"""Inputs of `mgcall check` that are answered `yes`, and how its time grows with them: what reading takes is told apart, since the same
input is read, and then answered at once, where the first state's entries have no link at rest."""
import json
import os
import resource
import subprocess
import tempfile
import time
from pathlib import Path

from shared import slow_checks

PROGRAM = Path(__file__).resolve().parents[2] / "crates/mgcall/out/mgcall"
LINES = "abgh"
MODES = ["Inactive", "SendOnly", "ReceiveOnly", "SendReceive"]


def lists(count):
    return [f"l{n}" for n in range(count)]


def head(ephemerals=()):
    quoted = ", ".join(f'"{name}"' for name in ephemerals)
    names = [f"ephemerals = [{quoted}]"] if ephemerals else []
    return ['lines = ["a", "b", "g", "h"]', 'contexts = ["c", "d", "e", "f"]', *names, 'start = "s0"', 'restart = "s0"']


def script(states, commands, own=16):
    """Each state sets the events lists of two lines again and again; nothing is ever joined."""
    lines = head()
    for name in lists(own):
        lines += ["[[events]]", f'name = "{name}"', 'list = ["al/of", "al/on=state", "al/fl"]']
    for n in range(states):
        modify = ", ".join(f'"modify - {"ab"[k % 2]} events=l{k % own} signals=none"' for k in range(commands))
        lines += ["[[state]]", f'name = "s{n}"', f"do = [{modify}]", f'ok = "s{(n + 1) % states}"', f'fault = "s{n}"']
        lines += [f'on.{line}.of = "s0"' for line in LINES]
    return "\n".join(lines) + "\n"


def covering(state, own, plays):
    """One entry for all that can stand in a state of `script`."""
    every = ["none", "armed"] + lists(own)
    entry = {"state": state, "link": ["sent", "ok", "fault", "rest"], "lines": {}}
    for line in LINES:
        entry["lines"][line] = {"events": every if line in "ab" else ["none", "armed"], "plays": plays}
    return entry


def certificate(states, entries, own=16, plays=("no",)):
    """The covering entry of each state, after others that hold one configuration each."""
    entry = []
    for n in range(states):
        state = f"s{n}"
        entry += [{"state": state, "link": ["rest"]}] * (entries - 1)
        entry.append(covering(state, own, list(plays)))
    return json.dumps({"version": 2, "entries": entry}) + "\n"


def rooms_script(states):
    """States without commands, in which all lines may talk; each line that goes off hook leads to the next."""
    lines = head(("w", "x", "y", "z"))
    talk = ", ".join(f'"{one}-{other}"' for n, one in enumerate(LINES) for other in LINES[n + 1:])
    for n in range(states):
        lines += ["[[state]]", f'name = "s{n}"', f"talk = [{talk}]"]
        lines += [f'on.{line}.of = "s{(n + 1) % states}"' for line in LINES]
    return "\n".join(lines) + "\n"


def rooms_certificate(states):
    """Of each state the configurations that stand in the null context, and those of four lines and four ephemerals in two contexts,
    with three of the modes of each line and each of two ephemerals, and media between two lines that may be cut."""
    entries = []
    for n in range(states):
        armed = {line: {"at": ["c"], "mode": MODES[1:], "events": ["armed"]} for line in LINES}
        ephemerals = {
            name: {"at": ["d" if name in "xz" else "c"], "mode": MODES if name in "wx" else MODES[3:], "remote": [other]}
            for name, other in zip("wxyz", "xwzy")
        }
        live = {"c": ["live"], "d": ["live"]}
        cuts = {"a>b": ["no", "yes"], "b>a": ["no", "yes"]}
        null = {line: {"events": ["none", "armed"]} for line in LINES}
        entries.append({"state": f"s{n}", "link": ["ok", "rest"], "lines": null})
        entries.append({"state": f"s{n}", "link": ["ok", "rest"], "lines": armed, "contexts": live, "ephemerals": ephemerals, "cuts": cuts})
    return json.dumps({"version": 2, "entries": entries}) + "\n"


def best_of(text, wanted):
    """The best of three times, of the processor and not of the clock, and the answer, which begins as is wanted."""
    best, answer = None, ""
    for _ in range(3):
        before = resource.getrusage(resource.RUSAGE_CHILDREN)
        result = subprocess.run([PROGRAM, "check"], input=text.encode(), stdout=subprocess.PIPE, check=False)
        after = resource.getrusage(resource.RUSAGE_CHILDREN)
        taken = after.ru_utime - before.ru_utime + after.ru_stime - before.ru_stime
        best = taken if best is None else min(best, taken)
        answer = result.stdout.decode().strip()
    if not answer.startswith(wanted):
        raise SystemExit(f"{wanted} was wanted, not {answer}")
    return best, answer


def without_opening(certificate):
    """The certificate in which the configuration that a call opens in is in no entry."""
    document = json.loads(certificate)
    for entry in document["entries"]:
        if entry["state"] in ("s0", "idle"):
            entry["link"] = [link for link in entry["link"] if link != "rest"] or ["fault"]
    return json.dumps(document) + "\n"


def seconds(script, certificate):
    """The time of an input, and how much of it isn't reading."""
    text = f"{script}%%\n{certificate}"
    whole, answer = best_of(text, "yes")
    reading, _ = best_of(f"{script}%%\n{without_opening(certificate)}", "no K1")
    points = int(answer.split()[3])
    walk = max(whole - reading, 1e-9)
    print(f"  {len(text):>9} bytes  {whole:7.3f} s, {reading:.3f} of it reading  {answer}  {points / walk / 1e6:.1f} million points a second")
    return whole, walk


def ratio(name, half, whole):
    print(name)
    first, second = seconds(*half), seconds(*whole)
    print(f"  ratio {second[0] / first[0]:.2f}, without reading {second[1] / first[1]:.2f}")


def at_once(path, pieces, times, wanted):
    """The time by the clock of so many checks of an input at once, each in so many pieces and with this status, and the most memory of one, in bytes."""
    most = 0
    start = time.perf_counter()
    command = [PROGRAM, "check", "--pieces", str(pieces)]
    running = []
    for _ in range(times):
        with open(path, "rb") as text:
            running.append(subprocess.Popen(command, stdin=text, stdout=subprocess.DEVNULL))
    for process in running:
        _, status, used = os.wait4(process.pid, 0)
        process.returncode = os.waitstatus_to_exitcode(status)
        most = max(most, used.ru_maxrss * 1024)
        if process.returncode != wanted:
            raise SystemExit(f"a check in {pieces} pieces ended with {process.returncode}")
    return time.perf_counter() - start, most


def in_pieces(name, quarter, whole):
    """One check in four pieces, beside four processes with a quarter of the input each, on the same processors and in turn: the best of seven times
    each. What reading takes, which isn't done in pieces, is told apart."""
    with tempfile.TemporaryDirectory() as folder:
        paths = {}
        for part, (script_text, certificate_text) in (("quarter", quarter), ("whole", whole)):
            paths[part] = Path(folder) / part
            paths[part].write_text(f"{script_text}%%\n{certificate_text}")
        paths["read"] = Path(folder) / "read"
        paths["read"].write_text(f"{whole[0]}%%\n{without_opening(whole[1])}")
        runs = (("whole", 1, 1, 0), ("whole", 4, 1, 0), ("quarter", 1, 4, 0), ("read", 1, 1, 1))
        turns = [[at_once(paths[part], *how) for part, *how in runs] for _ in range(7)]
    (one, held), (four, held_in_four), (apart, _), (reading, _) = (min(turn[place] for turn in turns) for place in range(4))
    print(f"{name}, by the clock, {os.cpu_count()} processors")
    print(f"  one piece {one:.3f} s, four pieces {four:.3f} s, four processes of a quarter each {apart:.3f} s: {apart / four:.2f} of what they reach; reading takes {reading:.3f} s")
    print(f"  memory {held_in_four / held:.2f} times that of one piece")


def pieces():
    parted = slow_checks.Shattered()
    in_pieces("points that differ in places, with results in 32 parts, 8 states", *((parted.script(states), parted.certificate(states, 40)) for states in (2, 8)))


def checks():
    ratio(
        "a script of 32 and of 64 states, 16 commands each",
        (script(32, 16), certificate(32, 1)),
        (script(64, 16), certificate(64, 1)),
    )
    ratio(
        "a certificate of 32 and of 64 states, 256 entries each",
        (script(32, 1), certificate(32, 256)),
        (script(64, 1), certificate(64, 256)),
    )
    for entries in (16, 64, 256):
        ratio(
            f"64 states of {entries // 2} and of {entries} entries",
            (script(64, 2), certificate(64, entries // 2)),
            (script(64, 2), certificate(64, entries)),
        )
    ratio(
        "wide entries with few steps, of 32 and of 64 states",
        (script(32, 2, 8), certificate(32, 1, 8, ("no", "may"))),
        (script(64, 2, 8), certificate(64, 1, 8, ("no", "may"))),
    )
    ratio(
        "four lines, four ephemerals and cuts, 16 and 32 states",
        (rooms_script(16), rooms_certificate(16)),
        (rooms_script(32), rooms_certificate(32)),
    )
