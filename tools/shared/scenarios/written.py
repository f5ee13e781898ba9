"""Scenarios as text: a step with what came of it, and a file in which the steps have what came. It is installed too, so it knows nothing of this repository."""
import json

from shared.mistakes import toml_text
from shared.scenarios import judging
from shared.scenarios.reading import ALWAYS, AT_END, HEARS, PHASE, STATE, TONES_KEY


def text_of(value):
    """A text, or a list of texts where there are more or fewer than one, as TOML."""
    return json.dumps(value[0] if len(value) == 1 else value, ensure_ascii=False)


def values_text(values):
    """What is expected, key by key, as TOML."""
    for key, value in values.items():
        if key == HEARS:
            yield f"{key} = {json.dumps(judging.written_pairs(value), ensure_ascii=False)}"
        elif key == TONES_KEY:
            lines = ", ".join(f"{line} = {text_of([*map(judging.brief, signals)])}" for line, signals in sorted(value.items()))
            yield f"{key} = {{ {lines} }}" if lines else f"{key} = {{}}"
        else:
            yield f"{key} = {text_of(value if isinstance(value, list) else [value])}"


def step_text(words, values):
    """A step with what is expected, which is none where nothing is, as TOML."""
    return f"{{ {', '.join([f'do = {text_of(words)}', *values_text(values or {})])} }}"


def table_text(parts):
    """Keys with their values as a table in braces."""
    return f"{{ {', '.join(parts)} }}" if (parts := [*parts]) else "{}"


def own_rules(scenario):
    """What a scenario says itself of what has to hold, in lines of TOML."""
    always, at_end = scenario.rules
    if ALWAYS in scenario.own:
        yield f"{ALWAYS} = {table_text(f'{key} = {json.dumps(judging.written_pairs(pairs))}' for key, (pairs, _) in always.items())}"
    if AT_END in scenario.own:
        yield f"{AT_END} = {table_text(values_text(at_end.values))}"


def came(told):
    """What came of a step, as what may be expected. Who hears whom is left out where it isn't told."""
    found = {key: judging.value(key, told) for key in (STATE, PHASE, HEARS, TONES_KEY)}
    return {key: value for key, value in found.items() if value is not None}


def span(text, at):
    """Where a table in braces ends that begins at a byte; none where the step is written in another way."""
    return toml_text.Reader(text).value(at, toml_text.MOST_DEEP)[1] if text[at : at + 1] == b"{" else None


def recorded(text, pairs, table):
    """The text of a file in which each step has what came of it, of scenarios with their courses. What a course didn't come to stays as it is."""
    found = [(step.at, step_text(step.words, came(told)).encode()) for scenario, course in pairs for step, told, _ in judging.reached(scenario, course, table)]
    for first, new in sorted(found, reverse=True):
        end = span(text, first)
        text = text if end is None else text[:first] + new + text[end:]
    return text
