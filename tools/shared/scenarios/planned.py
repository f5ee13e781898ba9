"""Scenarios as the text of a plan: a call for each, on lines of its own, with the steps that its course took; those of a word of the scenario stand on one
line. It is installed too, so it knows nothing of this repository."""
from shared.scenarios import running
from shared.scenarios.courses import BETWEEN

# What is said of a call that has fewer epochs than the plan: the gateway restarts for the others, and nothing tells it of that.
RESTARTED = "# Behind its steps the gateway restarts for other calls, so its phase is `lost` in the report."


def epochs(course):
    """The steps of a course by its epochs, and in each by the words that they are of, from their places."""
    found = [{}]
    for taken in course.taken:
        if taken.step == BETWEEN:
            found.append({})
        else:
            found[-1].setdefault(taken.act, []).append(taken.step)
    return found


def epoch_text(by_word):
    """An epoch: the steps of each word on a line."""
    lines = "".join(f"  {', '.join(running.quoted(steps))},\n" for steps in by_word.values())
    return f"[\n{lines}]" if lines else "[]"


def call_text(scenario, found, first, width, count):
    """A scenario as a call on lines from a number on, in a plan of so many epochs."""
    yield f"# {scenario.name}"
    if len(found) < count:
        yield RESTARTED
    yield "[[call]]"
    yield f"lines = {running.numbers(first, width)}"
    yield f"epochs = [{', '.join(map(epoch_text, found))}]"


def text(name, scenarios, courses, table):
    """The text of a plan of scenarios of a file of this name, with their courses."""
    width, by_call = len(table["lines"]), [*map(epochs, courses)]
    count = max(map(len, by_call), default=1)
    parts = [[f"# Scenarios of {name} as calls of a plan, each on lines of its own."]]
    parts += [[*call_text(one, found, 1 + place * width, width, count)] for place, (one, found) in enumerate(zip(scenarios, by_call))]
    return "\n".join("".join(f"{line}\n" for line in part) for part in parts)
