"""Courses of calls that are run to their ends: all go together as calls of few plans, each on lines of its own, and again with more steps until nothing is on
its way. It is installed too, so it knows nothing of this repository."""
import os
from concurrent.futures import ThreadPoolExecutor

from shared import asking, explained
from shared.scenarios.courses import BETWEEN

# How many calls a plan has at most, and from how many on they are parted among processors.
MOST_CALLS, FEW = 2000, 40


class NoFacts(Exception):
    """The program told nothing of a plan: the status that it ended with, and its line."""

    def __init__(self, status, line):
        super().__init__(line)
        self.status, self.line = status, line


def epochs(steps):
    """Steps by the epochs of a plan: all gateways restart between two."""
    found = [[]]
    for step in steps:
        if step == BETWEEN:
            found.append([])
        else:
            found[-1].append(step)
    return found


def quoted(texts):
    """Texts as those of a list of TOML."""
    return [f'"{text}"' for text in texts]


def listed(texts):
    """Texts as a list of TOML."""
    return f"[{', '.join(quoted(texts))}]"


def numbers(first, width):
    """The numbers of so many lines from one on, as a list of TOML."""
    return f"[{', '.join(str(first + place) for place in range(width))}]"


def call(first, width, steps):
    """A call of a plan on lines from a number on."""
    return f"[[call]]\nlines = {numbers(first, width)}\nepochs = [{', '.join(map(listed, epochs(steps)))}]\n"


def plan(width, calls):
    """The text of a plan of calls with these steps, each on so many lines of its own."""
    return "".join(call(1 + place * width, width, steps) for place, steps in enumerate(calls)).encode()


def by_call(page, count):
    """The lines of a report by their calls, so many."""
    found = [[] for _ in range(count)]
    for line in page["report"]:
        found[line["call"]].append(line)
    return found


class Runner:
    """What asks the program about plans of a script with its certificate."""

    def __init__(self, program, script, certificate, table):
        self.program, self.texts, self.table = program, [script, certificate], table

    def page(self, calls):
        """What is told of a plan of calls with these steps."""
        status, page = explained.told(self.program, [], [*self.texts, plan(len(self.table["lines"]), calls)])
        if page is None or "report" not in page or "untold" in page:
            line = "" if page is None else page.get("line") or f"of a plan of {len(calls)} calls no steps are told"
            raise NoFacts(status or asking.FILES, line)
        return page

    def told(self, calls):
        """What is told of each of these calls: its lines of the report, with their steps."""
        parts = max(1, -(-len(calls) // MOST_CALLS), len(os.sched_getaffinity(0)) if len(calls) > FEW else 1)
        size = -(-len(calls) // parts)
        pieces = [calls[start : start + size] for start in range(0, len(calls), size)]
        with ThreadPoolExecutor(max(1, min(len(pieces), len(os.sched_getaffinity(0))))) as pool:
            pages = [*pool.map(self.page, pieces)]
        return [lines for piece, page in zip(pieces, pages) for lines in by_call(page, len(piece))]

    def settle(self, courses, tell):
        """Runs courses until each is at its end. `tell` is called with how many are, before each plan."""
        while wanting := [course for course in courses if course.wanted is not None]:
            tell(len(courses) - len(wanting), len(courses))
            plans = [course.planned() for course in wanting]
            for course, steps, lines in zip(wanting, plans, self.told(plans)):
                course.follow_plan(steps, [step for line in lines for step in line["steps"]])
