#!/usr/bin/env python3
"""Tries the wrong bodies of crates/NAME/must-fail/FILE/*.edit, many in a check: the prover must refuse each by itself.

A check says of each function whether its own body meets its contract, also where a function that it calls is refused.
So wrong bodies of different functions share a check, and each is judged by the line of its own function. Those of one
function go into different rounds. Each round begins from what `rt lib`, or `rt check` of a program, kept of the crate
as it stands, and looks at the edited functions alone, so nothing that is right is proved again. Rounds run side by side
as soon as their crate is proved, and let proofs go first (`nice`). What one doesn't refuse is tried again alone.

What an edit is, and which of them share a round: wrong_edits.py. Each public function needs one.

usage: python3 tests/proofs/wrong_bodies.py [--only WORD] [--plan] [CRATE..]    (at the top, `rt` on the PATH)
"""
import argparse
import collections
import concurrent.futures
import glob
import itertools
import os
import queue
import re
import shutil
import subprocess
import sys
import tempfile

from wrong_edits import Edit, public_functions, read, rounds_of, texts_with

FOLDER = "must-fail"
REFUSES = f"{FOLDER}/refuses.md"
# A function refused by itself: by an error in its written proof, or by a goal that has no proof. One that is right and
# only calls such a function reads 'no proof: it calls ..', or that the borrow checker's part isn't made for that call.
# Nor is a function refused that the borrow checker doesn't cover yet, of which a whole proof by hand is expected.
REFUSED = (r"^fn {}: (not proved"
           r"|no proof: (?!it calls|it passes|it rests|it uses|the borrow checker|expected `\S+_spec`)).*")
# An error in a written proof which says no more than that a name went with the right body
LOST = re.compile(r"has no field|is not in scope|has no `|was not admitted")
MOST_LOST = 3  # that say no more than that: such a refusal shows little
ONE_JOB = ["--jobs", "1"]
# Memory of one check, in kB
CHECK_MEMORY = 2_500_000


def write(path, text):
    """Writes a file anew, and not into the file that a link shares."""
    with open(f"{path}.part", "w", encoding="utf-8") as file:
        file.write(text)
    os.replace(f"{path}.part", path)


def ran(folder, *words):
    """Runs a command there, and returns its status and what it says."""
    run = subprocess.run(words, cwd=folder, stdin=subprocess.DEVNULL, stdout=subprocess.PIPE,
                         stderr=subprocess.STDOUT, errors="replace", check=False)
    return run.returncode, run.stdout


def rows_of(crate):
    """Returns the rows of crates.txt, in its order, of a crate and of those of the repository on which it stands."""
    rows = {re.split("[ :]", row)[0]: row for row in read("crates.txt").splitlines()}
    names = [crate]
    for name in names:  # which become more
        names += [it for it in rows[name].partition(":")[2].split() if it in rows and it not in names]
    return {name: row for name, row in rows.items() if name in names}


class Crate:
    """A crate, and copies of it in which rounds are checked: its kept work is linked, and never written through."""

    def __init__(self, room, name):
        self.room, self.name, self.folder = room, name, f"crates/{name}"

    def edits(self, word):
        """Returns the edits with this word in their names, and the names in refuses.md that are those of no edit."""
        rows = collections.defaultdict(list)
        if os.path.exists(f"{self.folder}/{REFUSES}"):
            for row in re.findall(r"^\| `.*", read(f"{self.folder}/{REFUSES}"), re.M):
                edit, function = re.findall(r"`([^`]*)`", row)
                rows[edit].append(function)
        paths = sorted(glob.glob(f"{self.folder}/{FOLDER}/**/*.edit", recursive=True), key=os.path.basename)
        edits = [Edit(self.folder, path, rows.pop(os.path.basename(path)[:-len(".edit")], None)) for path in paths]
        return [edit for edit in edits if word in edit.name], [*rows]

    def copy(self):
        copy = tempfile.mkdtemp(dir=self.room)
        shutil.copy("HANDLES", copy)
        rows = rows_of(self.name)
        parts = [f"crates/{name}/{part}" for name in rows for part in ("src", "specs", "proofs", "out/rlib")]
        subprocess.run(["cp", "-al", "--parents", *filter(os.path.isdir, [*parts, f"{self.folder}/out/incremental"]),
                        copy], check=True)
        write(f"{copy}/crates.txt", "".join(f"{row}\n" for row in rows.values()))
        return copy

    def check(self, edits):
        """Returns what the check of the functions that it has to refuse says with these edits."""
        copy = self.copy()
        for file, text in texts_with(edits, self.folder).items():
            write(f"{copy}/crates/{self.name}/{file}", text)
        only = [f"--only={name}" for edit in edits for name in edit.refuses]
        said = ran(f"{copy}/crates/{self.name}", "nice", "rt", "check", *ONE_JOB, *only)[1]
        shutil.rmtree(copy)
        return said

    def verdict(self, said):
        """Returns 'proved' or 'not-proved', or None where the check came to no verdict on this crate. Those on crates
        below it, which are built first where they have changed, aren't it."""
        own = re.search(rf"^crate {self.name}: modules .*", said, re.M)
        some = own and re.search(r"^only=(\d+) proved=(\d+)", said[own.end():], re.M)
        return some and ("proved" if some[1] == some[2] else "not-proved")

    def fault(self):
        """Proves the crate as it stands, and returns the end of what the toolchain says where it isn't, else None."""
        is_program = os.path.exists(f"{self.folder}/src/main.rt")
        status, said = ran(self.folder, "rt", "check" if is_program else "lib", *ONE_JOB)
        return said[-300:] if status else None

    def judged(self, edit, said):
        """Returns by what the check refused the edit's own function, 'goal', 'proof' or 'name' (or None, where it
        didn't, and 'bad', where there was no check of it), and the first line that says why."""
        verdict = self.verdict(said)
        if verdict == "proved":
            return None, "the crate is proved with it"
        if verdict is None:
            return "bad", next((line for line in said.split("\n") if "error" in line), said[-300:])
        for name in edit.refuses:
            refused = re.search(REFUSED.format(re.escape(f"{self.name}::{name}")), said, re.M)
            if refused:
                place = name.replace("::", "/")
                errors = re.findall(rf"^(?:\./)?proofs/{place}/\S+:\d+:\d+: error.*", said, re.M)
                if errors and all(LOST.search(error) for error in errors):
                    return "name", errors[0][:160]
                return "proof" if errors else "goal", (errors or [refused[0]])[0][:160]
        return None, f"the check doesn't refuse {' or '.join(edit.refuses)}"

    def tried(self, edits):
        """Checks a round, and returns each of its edits with the verdict on it."""
        said = self.check(edits)
        if len(edits) > 1 and self.verdict(said) is None:
            # One of them doesn't compile, so half of them is tried at a time
            half = len(edits) // 2
            return self.tried(edits[:half]) + self.tried(edits[half:])
        found = []
        for edit in edits:
            by, why = self.judged(edit, said)
            found += self.tried([edit]) if by is None and len(edits) > 1 else [(edit, by, why)]
        return found


def planned(crates, word):
    """Prints the plan and each fault of edits, and returns the rounds of each crate, how many faults there are, and
    what all edits change."""
    rounds, faulty, changed = {}, 0, set()
    for crate in crates:
        edits, gone = crate.edits(word)
        faults = {edit.name: edit.fault for edit in edits if edit.fault}
        faults.update((name, f"a row of {REFUSES} names it, and it isn't there") for name in gone)
        for name, fault in faults.items():
            print(f"{crate.name}/{name}: BAD EDIT: {fault}")
        faulty += len(faults)
        changed |= {(crate.name, name) for edit in edits for name in edit.changes}
        rounds[crate] = rounds_of([edit for edit in edits if not edit.fault], crate.folder)
        sizes = " ".join(str(len(it)) for it in rounds[crate])
        print(f"{crate.name}: {len(edits)} wrong bodies in {len(rounds[crate])} rounds: {sizes}", flush=True)
    return rounds, faulty, changed


def tried(rounds):
    """Proves the crates, tries the rounds of those that are, the largest first, prints each verdict, and returns how
    many edits were refused by what, or None where a crate isn't proved. Checks run side by side, one a processor, as
    far as memory goes, and beside them the proof of a crate."""
    counts, free = collections.Counter(), int(re.search(r"MemAvailable:\s+(\d+)", read("/proc/meminfo"))[1])
    lanes = max(min(len(os.sched_getaffinity(0)), free // CHECK_MEMORY - 1), 1)
    begun, waiting, order = [], queue.PriorityQueue(), itertools.count()

    def try_largest():
        *_, crate, edits = waiting.get()
        return crate, crate.tried(edits)

    with concurrent.futures.ThreadPoolExecutor(lanes) as pool:
        for crate, of_crate in rounds.items():
            said = crate.fault()
            if said:
                print(f"{crate.name}: not proved as it stands: {said}")
                pool.shutdown(cancel_futures=True)
                return None
            for edits in of_crate:
                waiting.put((-len(edits), next(order), crate, edits))
                begun.append(pool.submit(try_largest))
        for done in concurrent.futures.as_completed(begun):
            crate, verdicts = done.result()
            for edit, by, why in verdicts:
                word = {None: "NOT REFUSED", "bad": "BAD EDIT"}.get(by, f"refused by a {by}")
                print(f"{crate.name}/{edit.name}: {word}: {why}", flush=True)
                counts[by] += 1
    return counts


def main():
    words = argparse.ArgumentParser()
    words.add_argument("--only", default="")
    words.add_argument("--plan", action="store_true")
    words.add_argument("crates", nargs="*")
    given = words.parse_args()
    names = given.crates or (it for it in os.listdir("crates") if os.path.isdir(f"crates/{it}/{FOLDER}"))
    with tempfile.TemporaryDirectory(prefix="wrong-bodies-", dir=os.getcwd()) as room:
        # Those on which others stand come first.
        crates = [Crate(room, name) for name in sorted(names, key=lambda name: (len(rows_of(name)), name))]
        rounds, not_refused, changed = planned(crates, given.only)
        if not given.crates and not given.only:
            public = public_functions(changed)
            missing = [it for it in public if not public[it]]
            for it in missing:
                print(f"no wrong body changes {it.name} ({it.path})")
            print(f"public functions: {len(public) - len(missing)} have a wrong body, {len(missing)} have none")
            if missing:
                return 1
        if given.plan:
            return 0
        counts = tried(rounds)
    if counts is None:
        return 1
    refused = counts["goal"] + counts["proof"] + counts["name"]
    not_refused += counts["bad"] + counts[None]
    print(f"wrong bodies: {refused} refused ({counts['goal']} by a goal, {counts['proof']} by a written proof, "
          f"{counts['name']} by a name alone), {not_refused} not")
    return 1 if not_refused or counts["name"] > MOST_LOST else 0


if __name__ == "__main__":
    sys.exit(main())
