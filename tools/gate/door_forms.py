"""The shapes of what `mgtool check` writes for programs: the keys that SARIF 2.1.0 asks of a log, the elements of JUnit XML, and the keys of the JSON value.
Each is looked at by hand, since no schema of theirs is here."""
import json
import xml.etree.ElementTree as xml

LEVELS, SEVERITIES = ("none", "note", "warning", "error"), ("error", "warning", "note")


def is_location(value):
    """Whether a value is a location of SARIF: a file, and perhaps a place from 1."""
    physical = value["physicalLocation"]
    region = physical.get("region")
    is_placed = region is None or all(isinstance(region[key], int) and region[key] >= 1 for key in ("startLine", "startColumn"))
    return isinstance(physical["artifactLocation"]["uri"], str) and " " not in physical["artifactLocation"]["uri"] and is_placed


def is_result(value, rules):
    """Whether a value is a result of SARIF, by a rule of the run."""
    related = value.get("relatedLocations", [])
    is_told = isinstance(value["message"]["text"], str) and all(isinstance(one["message"]["text"], str) for one in related)
    return value["ruleId"] in rules and value["level"] in LEVELS and is_told and all(map(is_location, [*value["locations"], *related]))


def sarif(text):
    """The results of a log of SARIF, by its own run's exit code; a KeyError, a TypeError or a ValueError where it is none."""
    log = json.loads(text)
    [run] = log["runs"]
    rules = [rule["id"] for rule in run["tool"]["driver"]["rules"]]
    are_rules = all(isinstance(rule["shortDescription"]["text"], str) for rule in run["tool"]["driver"]["rules"]) and len({*rules}) == len(rules)
    [invocation] = run["invocations"]
    heads = log["version"] == "2.1.0" and log["$schema"].endswith("sarif-2.1.0.json") and run["columnKind"] in ("unicodeCodePoints", "utf16CodeUnits")
    is_run = isinstance(invocation["executionSuccessful"], bool) and all(is_result(one, rules) for one in run["results"])
    if not heads or not are_rules or not is_run:
        raise ValueError("it isn't of the shape of SARIF")
    return invocation["exitCode"], [(one["level"], one["ruleId"], len(one.get("relatedLocations", []))) for one in run["results"]]


def junit(text):
    """The tag of the outcome of the one test of a file of JUnit XML, and its counts; a ValueError where it isn't of that shape."""
    suites = xml.fromstring(text.encode())
    [suite] = suites
    [case] = suite
    outcomes = [one for one in case if one.tag in ("failure", "error")]
    counts = [suite.get(key) for key in ("tests", "failures", "errors")]
    is_one = suites.tag == "testsuites" and suite.tag == "testsuite" and case.tag == "testcase" and case.get("name") and case.get("classname")
    if not is_one or counts != [suites.get(key) for key in ("tests", "failures", "errors")] or len(outcomes) > 1 or case.find("system-out") is None:
        raise ValueError("it isn't of the shape of JUnit XML")
    if any(one.get("type") is None or one.get("message") is None or not one.text for one in outcomes):
        raise ValueError("an outcome says nothing")
    return (outcomes[0].tag if outcomes else None), counts


def value(text):
    """The line, the status, and how grave each thing is that is told in the JSON value; a KeyError or a ValueError where it is none."""
    found = json.loads(text)
    if found["format"] != 1 or {*found} - {"format", "line", "status", "diagnostics"}:
        raise ValueError("it has other keys")
    for one in found["diagnostics"]:
        if {*one} - {"file", "at_line", "at_column", "severity", "rule", "says"} or one["severity"] not in SEVERITIES or not one["says"]:
            raise ValueError("a diagnostic has other keys")
    return found.get("line"), found["status"], [one["severity"] for one in found["diagnostics"]]
