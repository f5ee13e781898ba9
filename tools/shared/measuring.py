"""What programs take: processor time and memory as the system tells them, and instructions as valgrind counts them."""
import os
import re
import shutil
import subprocess
import sys
import tempfile
import time
from pathlib import Path


def used(path, program, *words, times=3, wanted=(0,)):
    """The best processor time of a program with these words and this input, of several tries, and the most memory, in bytes."""
    least, most = None, 0
    for _ in range(times):
        with open(path or os.devnull, "rb") as text:
            process = subprocess.Popen([program, *map(str, words)], stdin=text, stdout=subprocess.DEVNULL, stderr=subprocess.DEVNULL)
        _, status, usage = os.wait4(process.pid, 0)
        process.returncode = os.waitstatus_to_exitcode(status)
        if process.returncode not in wanted:
            sys.exit(f"{program} ended with {process.returncode}")
        taken = usage.ru_utime + usage.ru_stime
        least, most = taken if least is None else min(least, taken), max(most, usage.ru_maxrss * 1024)
    return least, most


def most_memory(command, path=None):
    """The most memory that a program had, in bytes, as the system tells it again and again until it ends: what the process has of its own, without what it was
    started from."""
    most = 0
    with open(path or os.devnull, "rb") as text:
        started = subprocess.Popen([*map(str, command)], stdin=text, stdout=subprocess.DEVNULL, stderr=subprocess.DEVNULL)
    while started.poll() is None:
        told = [line.split() for line in Path(f"/proc/{started.pid}/status").read_text().splitlines() if line.startswith("VmHWM")]
        most = max([most, *(int(words[1]) * 1024 for words in told)])
        time.sleep(0.001)
    return most


def together(commands):
    """The time by the clock of programs that run beside each other, each a command, the status that it ends with, and a file for its input or nothing, and the
    processor time of all."""
    start, processes = time.perf_counter(), []
    for command, wanted, path in commands:
        with open(path or os.devnull, "rb") as text:
            words = [str(word) for word in command]
            processes.append((subprocess.Popen(words, stdin=text, stdout=subprocess.DEVNULL, stderr=subprocess.DEVNULL), wanted))
    busy = 0
    for process, wanted in processes:
        _, status, usage = os.wait4(process.pid, 0)
        process.returncode = os.waitstatus_to_exitcode(status)
        if process.returncode != wanted:
            sys.exit(f"{process.args} ended with {process.returncode}")
        busy += usage.ru_utime + usage.ru_stime
    return time.perf_counter() - start, busy


def best(commands, times=5):
    """The best time by the clock and the best processor time of programs beside each other, of several tries."""
    tries = [together(commands) for _ in range(times)]
    return min(clock for clock, _ in tries), min(busy for _, busy in tries)


def has_valgrind():
    """Whether instructions can be counted; says so where they can't."""
    if shutil.which("valgrind"):
        return True
    print("instructions are left out: there is no valgrind")
    return False


def counted(command, path=None, wanted=(0,)):
    """How many instructions a program takes, by valgrind, from its first to its last."""
    with open(path or os.devnull, "rb") as text:
        words = ["valgrind", "--tool=callgrind", "--callgrind-out-file=/dev/null", *map(str, command)]
        result = subprocess.run(words, stdin=text, stdout=subprocess.DEVNULL, stderr=subprocess.PIPE, text=True, check=False)
    if result.returncode not in wanted:
        sys.exit(f"{command[0]} ended with {result.returncode} under valgrind")
    return int(re.search(r"Collected : (\d+)", result.stderr)[1])


def fetched(command, path, wanted=(0,)):
    """How many lines of memory the data of a program are fetched from past the last cache, as valgrind reckons it for one of 32 MiB."""
    with open(path, "rb") as text:
        words = ["valgrind", "--tool=cachegrind", "--cache-sim=yes", f"--LL={32 << 20},16,64", "--cachegrind-out-file=/dev/null", *map(str, command)]
        result = subprocess.run(words, stdin=text, stdout=subprocess.DEVNULL, stderr=subprocess.PIPE, text=True, check=False)
    if result.returncode not in wanted:
        sys.exit(f"{command[0]} ended with {result.returncode} under valgrind")
    return int(re.search(r"LLd misses: +([\d,]+)", result.stderr)[1].replace(",", ""))


def inclusive(command, path):
    """The instructions of each function of a program, with what it calls, by valgrind: by the function's name without what stands behind `::<`."""
    with tempfile.TemporaryDirectory() as folder, open(path, "rb") as text:
        counts = Path(folder) / "counts"
        words = ["valgrind", "--tool=callgrind", f"--callgrind-out-file={counts}", *map(str, command)]
        subprocess.run(words, stdin=text, stdout=subprocess.DEVNULL, stderr=subprocess.DEVNULL, check=True)
        told = subprocess.run(["callgrind_annotate", "--inclusive=yes", "--threshold=100", counts], capture_output=True, text=True, check=True).stdout
    found = {}
    for line in told.splitlines():
        if match := re.match(r"\s*([\d,]+) \([\d. ]+%\)\s+\S*?:(.+?)(?:::<.*|'\d+)?(?: \[.*)?$", line):
            found.setdefault(match[2], int(match[1].replace(",", "")))
    return found
