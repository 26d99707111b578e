#!/usr/bin/env python3
"""Which tests run which lines of the Python packages, for tests/mutants.py. tests/unit/python.sh leaves it in a file in
the folder for temporary ones, as does mutants.py of test files that have changed since.

usage: python3 tests/recorded.py DATA TIMES    (DATA of coverage, and what the plugin wrote, of all tests)
"""
import difflib
import hashlib
import json
import os
import pathlib
import sqlite3
import sys
import tempfile

import coverage
import pytest
from coverage.numbits import numbits_to_nums

from planted import TOP

RECORD = pathlib.Path(tempfile.gettempdir(), "ldvbi-mutants%s.json" % str(TOP).replace("/", "-"))
LEFT_ASIDE = "test_browser.py", "test_mutants.py", "test_package.py"  # they take long, or run no line
# How a file of tests is run, besides what coverage is told
SETTINGS = """[run]
source = %s/python
parallel = true
data_file = %s/lines
context = ${MUTANTS_TEST-}
disable_warnings = no-data-collected
"""


class Recorder:
    """A plugin of pytest by which coverage knows the test that runs, also in the processes that it starts."""

    @pytest.hookimpl(hookwrapper=True)
    def pytest_runtest_protocol(self, item):
        os.environ["MUTANTS_TEST"] = item.nodeid
        coverage.Coverage.current().switch_context(item.nodeid)
        begun = sum(os.times()[:4])  # of a processor: the machine may be busy
        yield
        self._note(item.nodeid, sum(os.times()[:4]) - begun, not item.get_closest_marker("unrecorded"))

    def pytest_runtest_logreport(self, report):
        self._note(report.nodeid, 0, report.passed)

    def _note(self, *row):
        with open(os.environ["MUTANTS_TIMES"], "a", encoding="utf-8") as file:
            print(json.dumps(row), file=file)


def pytest_configure(config):
    if "MUTANTS_TIMES" in os.environ and hasattr(config, "workerinput"):
        config.pluginmanager.register(Recorder())


def tests_in(data, times, top):
    """Of each test that passed its seconds and the lines that it runs, {test: [seconds, {file: lines}]}, of what
    coverage and the plugin wrote of runs in a tree."""
    tests, failed = {}, set()
    for test, seconds, is_good in map(json.loads, times.read_text("utf-8").splitlines()):
        tests.setdefault(test, [0, {}])[0] += seconds
        failed |= set() if is_good else {test}
    rows = sqlite3.connect(data).execute("SELECT path, context, numbits FROM line_bits JOIN file ON file.id = file_id "
                                         "JOIN context ON context.id = context_id")
    for path, test, lines in rows:
        if test in tests:
            known = tests[test][1].setdefault(os.path.relpath(path, top), [])
            known += set(numbits_to_nums(lines)) - set(known)
    return {test: one for test, one in tests.items() if test not in failed}


def test_files():
    """The files of tests, with a digest of each."""
    paths = sorted((TOP / "tests" / "unit").glob("test_*.py"))
    return {path.name: hashlib.sha256(path.read_bytes()).hexdigest() for path in paths if path.name not in LEFT_ASIDE}


def texts():
    return {str(path.relative_to(TOP)): path.read_text("utf-8") for path in (TOP / "python").rglob("*.py")}


def known_tests(record):
    """What is known of the tests in files that haven't changed: `texts` of the packages, `files` of tests, and `tests`
    as above. record(NAMES) has the others run, and answers theirs."""
    now, names = texts(), test_files()
    known = json.loads(RECORD.read_text()) if RECORD.exists() else {"files": {}, "texts": now, "tests": {}}
    for file, text in now.items():
        if known["texts"].get(file, "") != text:
            moved = moved_lines(known["texts"].get(file, ""), text)
            for _, lines in known["tests"].values():
                lines[file] = sorted({new for old in lines.get(file, ()) for new in moved.get(old, ())})
    new = [name for name in names if known["files"].get(name) != names[name]]
    tests = {test: one for test, one in known["tests"].items()
             if test.split("::")[0] in names and test.split("::")[0] not in new}
    tests.update(record(new) if new else {})
    return kept({"files": names, "texts": now, "tests": tests})


def kept(known):
    RECORD.write_text(json.dumps(known))
    return known


def moved_lines(old, new):
    """Where each line of a text is in a newer one. In the place of those that changed are all the new ones."""
    moved = {}
    for _, first, last, begin, end in difflib.SequenceMatcher(
            None, old.splitlines(), new.splitlines(), False).get_opcodes():
        for line in range(first, last):
            moved[line + 1] = [begin + line - first + 1] if last - first == end - begin else range(begin + 1, end + 1)
        if first == last:  # new lines run where those before them do
            moved[first] = [*moved.get(first, ()), *range(begin + 1, end + 1)]
    return moved


def main():
    data, times = map(pathlib.Path, sys.argv[1:])
    files = test_files()
    tests = {test: one for test, one in tests_in(data, times, TOP).items() if test.split("::")[0] in files}
    kept({"files": files, "texts": texts(), "tests": tests})


if __name__ == "__main__":
    main()
