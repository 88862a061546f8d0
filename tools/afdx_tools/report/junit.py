"""A run and its criteria as JUnit's XML."""
from __future__ import annotations

from typing import Mapping, Sequence
from xml.etree import ElementTree as xml

from afdx_tools.faults import shown
from afdx_tools.outputs import finished
from afdx_tools.report.criteria import CRITERIA, failure_of, places_of
from afdx_tools.tables import Row


def suite_of(
    name: str,
    fault: str,
    totals: Row | None,
    words: Sequence[str],
    findings: Sequence[Row] = (),
    meanings: Mapping[str, str] = CRITERIA,
) -> xml.Element:
    """A run as a test suite: a case that it ended without a fault, and one for each criterion with
    the findings that it is about."""
    suite = xml.Element("testsuite", name=shown(name), tests=str(1 + len(words)))
    errors, failures = 0, 0
    ended = xml.SubElement(suite, "testcase", classname=shown(name), name="run")
    if fault:
        errors = 1
        xml.SubElement(ended, "error", message=shown(fault))
    for word in words:
        case = xml.SubElement(suite, "testcase", classname=shown(name), name=word)
        if totals is None:
            xml.SubElement(case, "skipped", message="the run gave no report")
        elif count := failure_of(totals, word):
            failures += 1
            message = f"{count} {meanings[word]}{places_of(totals, word)}"
            failure = xml.SubElement(case, "failure", message=message)
            about = [shown(one["words"]) for one in findings if one["criterion"] == word]
            failure.text = "\n".join(about) or None
    suite.set("errors", str(errors))
    suite.set("failures", str(failures))
    return suite


def add_conforms(
    suite: xml.Element, name: str, has_verdict: bool, unlike: str, why: Sequence[str],
    what: str = "conforms",
) -> None:  # fmt: skip
    """Adds a case that a recorded switch conforms, or what else was judged: `unlike` is its verdict
    where it doesn't."""
    case = xml.SubElement(suite, "testcase", classname=shown(name), name=what)
    suite.set("tests", str(int(suite.get("tests", 0)) + 1))
    if not has_verdict:
        xml.SubElement(case, "skipped", message="there is no verdict")
    elif unlike:
        suite.set("failures", str(int(suite.get("failures", 0)) + 1))
        failure = xml.SubElement(case, "failure", message=unlike)
        failure.text = "\n".join(map(shown, why)) or None


def write_junit(path: str, suites: Sequence[xml.Element]) -> None:
    """Writes the runs of one file."""
    root = xml.Element("testsuites")
    root.extend(suites)
    xml.indent(root)
    with finished(path) as file:
        xml.ElementTree(root).write(file, encoding="utf-8", xml_declaration=True)
