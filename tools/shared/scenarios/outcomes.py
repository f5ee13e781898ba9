"""What the scenarios of a file come to: each as it stands, or with each thing once going wrong. It is installed too, so it knows nothing of this repository."""
from collections import namedtuple

from shared.scenarios import judging, variants
from shared.scenarios.courses import BETWEEN, Course

# What a scenario comes to: it, what is wrong first (none where nothing is), the variant of which that is and how many there are and fail (none of a scenario as
# it stands), and the course that is told of.
Outcome = namedtuple("Outcome", "scenario flaw variant count failed course")


def settled(runner, courses, tell):
    """Runs courses to their ends; gives them."""
    runner.settle(courses, tell)
    return courses


def as_they_stand(runner, scenarios, tell):
    """The courses of scenarios as they stand."""
    return settled(runner, [Course(runner.table, scenario.acts, True, False) for scenario in scenarios], tell)


def reports(runner, courses):
    """The lines of the report on each course, from plans that have no step more than what was done. In a plan all gateways restart together, so courses of one
    plan restart equally often."""
    found, plans = {}, [course.exact() for course in courses]
    for count in {steps.count(BETWEEN) for steps in plans}:
        places = [place for place, steps in enumerate(plans) if steps.count(BETWEEN) == count]
        found.update(zip(places, runner.told([plans[place] for place in places])))
    return [found[place] for place in range(len(plans))]


def plain(runner, scenarios, tell):
    """What scenarios come to as they stand."""
    courses = as_they_stand(runner, scenarios, tell)
    told = reports(runner, courses) if any(scenario.report is not None for scenario in scenarios) else [None] * len(courses)
    for scenario, course, lines in zip(scenarios, courses, told):
        flaw = judging.of_scenario(scenario, course, runner.table)
        if flaw is None and lines is not None:
            flaw = judging.reported(scenario, course, lines[-1])
        yield Outcome(scenario, flaw, None, None, None, course)


def of_variants(scenario, found, table):
    """What the variants of a scenario come to, each with its course."""
    first, failed = None, 0
    for variant, course in found:
        flaw = judging.broken(scenario.rules, course.taken) or judging.ended(scenario.rules, course.taken, table)
        failed += flaw is not None
        if flaw is not None and first is None:
            first = (flaw, variant, course)
    flaw, variant, course = first or (None, None, None)
    return Outcome(scenario, flaw, variant, len(found), failed, course)


def begun(table, base, variant):
    """The course of a variant, as far as it is that of its scenario."""
    course = Course(table, variant.acts, False, True)
    course.begin_as(base, variant.same)
    course.be_like(base)
    return course


def with_faults(runner, scenarios, tell):
    """What scenarios come to with each thing once going wrong. Of one that can't be done as it stands that is told."""
    table, bases = runner.table, as_they_stand(runner, scenarios, tell)
    tried = [[] if base.impossible or base.is_too_long else [*variants.of_course(base)] for base in bases]
    found = [[(variant, begun(table, base, variant)) for variant in those] for base, those in zip(bases, tried)]
    runner.settle([course for pairs in found for _, course in pairs], tell)
    for scenario, base, pairs in zip(scenarios, bases, found):
        flaw = judging.undone(base, scenario)
        yield Outcome(scenario, flaw, None, None, None, base) if flaw else of_variants(scenario, pairs, table)
