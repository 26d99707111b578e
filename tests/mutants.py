#!/usr/bin/env python3
"""Plants errors into the source, one at a time, and says which of them no test sees.

What is planted, tests/planted.py says for Python, and tests/planted_text.py for all else. A plant is tried in a copy of
the tree. Of the Python packages it is by pytested.py, by the tests that run its line, which recorded.py knows: the
quickest first, until one fails. Of all else it is by the commands that scripted.py has for its file.

A plant's name is made of its file, its function and its text; its hash picks the part of about 60 that it belongs to.
Those that have no effect stand in tests/mutants.txt, with the reasons.

usage: /usr/bin/python3 tests/mutants.py [--part N] [--folder FOLDER] [--again NAME].. [--most N] [--seed TEXT]
           [--jobs N] [--list]     (once `make rust` or `make lib` has built the library)
"""
import argparse
import collections
import contextlib
import hashlib
import json
import multiprocessing.connection
import os
import re
import signal
import subprocess
import sys

import coverage

import pytested
import scripted
from planted import TOP
from pytested import confine, room
from recorded import known_tests, RECORD, SETTINGS, tests_in
from scripted import NO_PLANT, planted, plants_of

SEEN = RECORD.with_suffix(".seen")  # of each plant that was seen the test that did
REASONS = TOP / "tests" / "mutants.txt"
# Tests of all that these modules define: the header and texts/classes.txt have the same
DEFINED_IN, DEFINED = "python/ldvbi/", ("::test_the_header_says_so", "::test_all_that_is_public", "::test_the_classes")
PARTS = 540  # each of about 60 plants
TOGETHER = 15  # plants that cargo builds in one copy before another is made ready for that


# ---- Which tests run a line

def recorded(names, jobs):
    """What recorded.py knows of the tests in these files, which are run for it. Those that take too long to have their
    lines recorded are left out."""
    with room() as folder:
        site = folder / "site"
        site.mkdir()
        site.chmod(0o777)
        (site / "sitecustomize.py").write_text("import coverage; coverage.process_startup()")
        (site / "rc").write_text(SETTINGS % (folder, site))
        more = {"COVERAGE_PROCESS_START": str(site / "rc"), "MUTANTS_TIMES": str(site / "times"),
                "PYTHONPATH": "%s/python:%s/simulated:%s:%s/tests" % (folder, folder, site, folder)}
        subprocess.run([sys.executable, "-m", "pytest", "-n", str(jobs), "--dist", "loadgroup", "-p", "recorded", "-m",
                        "not unrecorded", "-q", "--basetemp", folder / "out", *names], cwd=folder / "tests" / "unit",
                       env={**os.environ, **more}, preexec_fn=lambda: confine(folder), stdout=subprocess.DEVNULL,
                       check=False)
        if not (site / "times").exists():  # none of them is recorded
            return {}
        lines = coverage.Coverage(config_file=str(site / "rc"))
        lines.combine([str(site)])
        return tests_in(lines.get_data().data_filename(), site / "times", folder)


# ---- Plants side by side

def taken(own, shared, following):
    """The jobs of this process alone, and then each of those for all that no other has taken."""
    yield from own
    while True:
        with following.get_lock():
            place, following.value = following.value, following.value + 1
        if place >= len(shared):
            break
        yield shared[place]


def work(folder, jobs, seen, connection):
    sys.dont_write_bytecode = True
    os.environ["PYTHONDONTWRITEBYTECODE"] = "1"
    for plant, tests in jobs:
        if plant.file.startswith("python/"):
            found = pytested.tried(folder, plant, ordered(plant, tests, seen))
        elif scripted.is_built(plant.file):
            found = scripted.tried(folder, plant, planted(plant))
        else:  # a script may leave something behind where a plant has it end too early
            with room(False) as fresh:
                found = scripted.tried(fresh, plant, planted(plant))
        if found in tests:
            seen[plant.name] = found
        connection.send((plant, found))
    connection.close()


def ordered(plant, tests, seen):
    """The tests of a plant with their seconds: the one that saw it before, then those that saw others in its function
    or, five of them, in its file, then the quickest."""
    function, file = plant.name.partition(": ")[0], plant.file + " "
    near = [[test for name, test in seen.items() if test in tests and is_near(name)] for is_near in (
        plant.name.__eq__, lambda name: name.partition(": ")[0] == function, lambda name: name.startswith(file))]
    near[2] = [test for test, _ in collections.Counter(near[2]).most_common(5)]
    return [(test, tests[test])
            for test in dict.fromkeys([*near[0], *near[1], *near[2], *sorted(tests, key=tests.get)])]


def side_by_side(jobs, seen, count):
    """Each plant with the test that sees it, from so many processes."""
    context, left = multiprocessing.get_context("fork"), []
    count, following = min(count, len(jobs)), context.Value("i", 0)
    built = [job for job in jobs if scripted.is_built(job[0].file)]
    shared, few = [job for job in jobs if job not in built], min(count, -(-len(built) // TOGETHER))
    is_for_python = any(tests for _, tests in jobs)
    with contextlib.ExitStack() as rooms:
        for number in range(count):
            ours, theirs = context.Pipe(False)
            own, folder = built[number::few] if number < few else [], rooms.enter_context(room(is_for_python))
            process = context.Process(target=work, args=(folder, taken(own, shared, following), seen, theirs))
            process.start()
            rooms.callback(process.terminate)
            theirs.close()
            left.append(ours)
        while left:
            for one in multiprocessing.connection.wait(left):
                try:
                    yield one.recv()
                except EOFError:
                    left.remove(one)


def tests_of(plant, known):
    """Those that run its line, or one that names what it defines, or that look at all definitions, with their
    seconds."""
    places = {plant.file: set(range(plant.first, plant.last + 1))}
    if plant.defines:
        word, places = re.compile(r"\b%s\b" % plant.defines), {}
        for file, text in known["texts"].items():
            places[file] = {line for line, row in enumerate(text.splitlines(), 1) if word.search(row)
                            and not (file == plant.file and plant.first <= line <= plant.last)}
    return {test: seconds for test, (seconds, lines) in known["tests"].items()
            if any(places[file].intersection(lines.get(file, ())) for file in places)
            or plant.defines and plant.file.startswith(DEFINED_IN) and test.endswith(DEFINED)}


def reasons():
    """The names of plants that have no effect; the line after each, set in, says why."""
    return [line for line in REASONS.read_text("utf-8").splitlines() if line and line[0] not in "# "]


def is_in(file, folder):
    return file == folder or file.startswith(folder and folder.rstrip("/") + "/")


def chosen(words, plants):
    """The plants that are asked for."""
    if words.again:
        return [one for one in plants if one.key in words.again]
    found = [one for one in plants if words.part is None or int(one.key, 16) % PARTS == words.part % PARTS]
    ranks = {one: hashlib.sha256((words.seed + one.name).encode()).digest() for one in found}
    return sorted(found, key=ranks.__getitem__)[:words.most]


def main():
    signal.signal(signal.SIGTERM, lambda *_: sys.exit(1))
    parser = argparse.ArgumentParser(description=__doc__, formatter_class=argparse.RawDescriptionHelpFormatter)
    parser.add_argument("--part", type=int)
    parser.add_argument("--folder", default="")
    parser.add_argument("--again", action="append", metavar="NAME")
    parser.add_argument("--most", type=int)
    parser.add_argument("--seed", default="1")
    parser.add_argument("--jobs", type=int, default=os.cpu_count())
    parser.add_argument("--list", action="store_true")
    words = parser.parse_args()
    files = sorted(str(path.relative_to(TOP)) for path in (TOP / "python").rglob("*.py")) + scripted.files()
    plants = [plant for file in files if is_in(file, words.folder) for plant in plants_of(file)]
    names, known_reasons = {plant.name for plant in plants}, reasons()
    stale = [one for one in known_reasons if one not in names and is_in(one, words.folder)]
    asked = chosen(words, plants)
    if words.list:
        print("\n".join("%s %s" % (one.key, one.name) for one in asked))
        return 0
    counts = collections.defaultdict(collections.Counter)
    without = [one for one in asked if one.name in known_reasons]
    for one in without:
        counts[one.file]["without effect"] += 1
    is_asked = any(one.file.startswith("python/") for one in asked)
    known = known_tests(lambda new: recorded(new, words.jobs)) if is_asked else {"texts": {}, "tests": {}}
    jobs = [(one, tests_of(one, known)) for one in asked if one not in without]
    seen = json.loads(SEEN.read_text()) if SEEN.exists() else {}
    for plant, found in side_by_side(jobs, seen, words.jobs):
        seen.pop(plant.name, None)
        seen.update({plant.name: found} if found in known["tests"] else {})
        if found != NO_PLANT:
            counts[plant.file]["seen" if found else "not seen"] += 1
        said = "NOT SEEN" if not found else "none" if found == NO_PLANT else "seen"
        print(said, plant.key, plant.name, "(by %s)" % found if found else "", flush=True)
    SEEN.write_text(json.dumps(seen))
    return say(counts, stale)


def say(counts, stale):
    """Prints the table, of folders and of all files; returns the status."""
    for file in list(counts):
        counts[os.path.join(os.path.dirname(file), "")].update(counts[file])
    print("| File | Planted | Seen | Not seen | Without effect |\n|---|---|---|---|---|")
    for file, one in sorted(counts.items()):
        print("| %s | %d | %d | %d | %d |" % (file, sum(one.values()), one["seen"], one["not seen"],
                                              one["without effect"]))
    for one in stale:
        print("tests/mutants.txt: no plant has the name %s" % one)
    return 1 if stale or any(one["not seen"] for one in counts.values()) else 0


if __name__ == "__main__":
    sys.exit(main())
