"""Verdicts as others read them: the types of contest systems, and JUnit XML."""
import xml.etree.ElementTree as xml

TYPES = {"accepted": "AC", "wrong answer": "WA", "exit": "RTE", "trap": "RTE", "out of fuel": "TLE", "wall clock": "TLE", "out of memory": "MLE",
         "too much memory": "MLE", "too much output": "OLE", "fault": "CE", "module too large": "CE"}


def kind_of(verdict):
    return TYPES.get(verdict) or ("RTE" if verdict.startswith("signal ") else "JE")


def plain(text):
    """Text without characters that XML has no way to say."""
    return "".join(it if it >= " " and not "\ud800" <= it <= "\udfff" and it not in "\ufffe\uffff" else f"\\x{ord(it):02x}" for it in str(text))


def junit(name, cases):
    """A suite for each submission (a test's id up to its last slash), a case for each test: a failure where another verdict was foreseen, or,
    where none was, where it isn't accepted; an error where there is no verdict."""
    top, suites = xml.Element("testsuites", name=plain(name)), {}
    for test, verdict, why, units, foreseen in cases:
        submission, _, own = test.rpartition("/") if "/" in test else (test, "", "only")
        if submission not in suites:
            suites[submission] = [xml.SubElement(top, "testsuite", name=plain(submission)), 0, 0, 0]
        suite = suites[submission]
        case = xml.SubElement(suite[0], "testcase", classname=plain(submission), name=plain(own))
        properties = xml.SubElement(case, "properties")
        for key, value in (("verdict", verdict), ("type", kind_of(verdict)), ("units", units)):
            xml.SubElement(properties, "property", name=key, value=plain(value))
        suite[1] += 1
        if kind_of(verdict) == "JE":
            xml.SubElement(case, "error", message=plain(f"{verdict}: {why}"))
            suite[3] += 1
        elif verdict != (foreseen or "accepted"):
            xml.SubElement(case, "failure", message=plain(f"{verdict}{': ' if why else ''}{why}, and not {foreseen or 'accepted'}"))
            suite[2] += 1
    for suite, tests, failures, errors in suites.values():
        for key, count in (("tests", tests), ("failures", failures), ("errors", errors)):
            suite.set(key, str(count))
    return xml.tostring(top, encoding="unicode", xml_declaration=True) + "\n"
