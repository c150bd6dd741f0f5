"""Reads a report and what was told beside it, and prints how many cases it has and how many fail."""
import sys
import xml.etree.ElementTree as xml

report, told, status = sys.argv[1], sys.argv[2], int(sys.argv[3])
suites = xml.parse(report).getroot()
assert suites.tag == "testsuites" and len(suites) == 1, suites
suite = suites[0]
cases = suite.findall("testcase")
failures = suite.findall("testcase/failure")
assert len(cases) == len(suite) == int(suite.get("tests")), suite.attrib
assert len(failures) == int(suite.get("failures")), suite.attrib
assert (suite.get("errors"), suite.get("skipped")) == ("0", "0"), suite.attrib
assert status == (6 if failures else 0), status
assert {case.get("classname") for case in cases} <= {suite.get("name")}
with open(told, encoding="utf-8") as file:
    lines = [line for line in file.read().splitlines() if not line.startswith("play: ")]
assert len(lines) == len(failures), lines
for case in cases:
    failure = case.find("failure")
    if failure is not None:
        name, file = case.get("name"), case.get("classname")
        number, what = name.removeprefix("line ").split(": ", 1)
        assert failure.text.startswith(f"{file}:{number}: expected {what}: {failure.get('message')} ("), failure.text
    print("  " + case.get("name"))
    if failure is not None:
        print("    " + failure.text)
print(suite.get("name"), len(cases), len(failures))
