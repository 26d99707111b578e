#!/usr/bin/env python3
"""Lists the answers and lemmas that a crate is proved without. (`rt tidy` drops what `use` brings for nothing.)

Answers (definitions `pub NAME : goal.NAME` of proofs/F/Answers.antt) are all taken out of a copy of the crate at once.
A check that goes past open goals says which goals then stay open. The answers of those are put back, and so on until
no goal is open: what is out by then is needless. A function that waits for one with an open goal isn't judged before
that one is proved again, so this takes some rounds. Then each function with needless answers is proved anew by itself,
with and without them, which says what they save in processor seconds.

A lemma (any definition of proofs/, one of Answers.antt beside the answers too) is needless if no chain of names leads
to it from an answer that stays, an invariant, a proof by hand, a source, or a crate above. Names are compared as words,
whatever module they are of, so a lemma that shares its name with one that is cited is kept. What is left is checked.

It doesn't see: a lemma or a hint in a tactic's list that the tactic could do without; an answer that is needed only
because another one is out, or the other way round, beyond one order of taking out; hints of `#[tactic(..)]`; lemmas
with an operator's name (they stay); a definition of specs/.

usage: python3 tests/proofs/needless.py [--only WORD] [--write] CRATE..
(at the top, `rt` on the PATH)
--only judges functions with WORD in their paths, and then no lemma. --write takes out of the crate itself what saves no
more than a second, and needless lemmas; `rt fmt`, `rt tidy` and `rt check` come after it.
"""
import argparse
import collections
import os
import re
import shutil
import subprocess
import sys
import tempfile

from definitions import blocks_of, texts_of, without, words
from wrong_bodies import Crate, rows_of, write
from wrong_edits import read

DEAR = 1.0  # processor seconds that an answer may save and still be needless
# Another name for one, and the heads of modules
RENAMED = re.compile(r"(\S+) as ([^\s,}]+)")
GIVEN = re.compile(r"^ *(?:pub )?module .*?\bwhere$|^ *open [^\n]*", re.M | re.S)
# Files whose text is no list of lemmas
WHOLE = ("Invariants.antt", "Proof.antt")
# What the check says of a function with an open goal, past which it went: its name, and the goals
OPEN = re.compile(r"^fn (\S+): no proof: expected answers in \S+; `search` did not prove (.*)", re.M)
WAITS = re.compile(r"^fn (\S+): no proof: it (?:calls|passes|rests|uses)", re.M)


def removed(folder):
    """Removes the copy of the repository in which this folder is a crate."""
    shutil.rmtree(folder.split("/crates/")[0])


def taken_out(folder, blocks):
    """Takes these definitions out of the files of a crate's copy, and a file of answers with none left."""
    for path in {it.path for it in blocks}:
        text = without(path, [it for it in blocks if it.path == path])
        place = f"{folder}/proofs/{path.split('/', 3)[3]}"
        if text is None and path.endswith("/Answers.antt"):
            os.remove(place)
        else:
            write(place, text or "")


def run_in(folder, *given):
    """Runs `rt check` there with one job, and returns what it says and its processor seconds."""
    with tempfile.TemporaryFile("w+", errors="replace") as said:
        run = subprocess.Popen(["nice", "rt", "check", "--jobs", "1", *given], cwd=folder, stdin=subprocess.DEVNULL,
                               stdout=said, stderr=subprocess.STDOUT)
        _, status, used = os.wait4(run.pid, 0)
        run.returncode = os.waitstatus_to_exitcode(status)
        said.seek(0)
        return said.read(), used.ru_utime + used.ru_stime


class Trial(Crate):
    """A crate with its definitions of proofs/, and what it is proved without."""

    def __init__(self, room, name):
        super().__init__(room, name)
        self.blocks = [it for path in texts_of(self.folder, "proofs/**/*.antt") for it in blocks_of(path)]

    def function(self, block):
        """Returns the name of the function whose answer this is."""
        return os.path.dirname(block.path)[len(f"{self.folder}/proofs/"):].replace("/", "::")

    def copy_without(self, blocks):
        """Returns the crate's folder in a new copy without these definitions."""
        folder = f"{self.copy()}/{self.folder}"
        taken_out(folder, blocks)
        return folder

    def needless_answers(self, word):
        """Returns the answers that the search finds itself, and prints each round."""
        out = [it for it in self.blocks if it.is_answer and word in self.function(it)]
        only = [f"--only={name}" for name in sorted({self.function(it) for it in out})] if word else []
        while out:
            folder = self.copy_without(out)
            said, _ = run_in(folder, "--allow-holes", *only)
            removed(folder)
            opened = {name.split("::", 1)[1]: re.findall(r"`([^`]+)`", goals) for name, goals in OPEN.findall(said)}
            back = [it for it in out if any(f"{goal}-".startswith(f"{it.name}-") or it.name.startswith(f"{goal}-")
                                            for goal in opened.get(self.function(it), ()))]
            # One that is open by a goal that no answer names, or that is refused by another fault, gets all of its own.
            odd = {name for name in opened if name not in map(self.function, back)}
            odd |= {name.split("::", 1)[1] for name in re.findall(r"^fn (\S+): not proved", said, re.M)}
            back += [it for it in out if self.function(it) in odd and it not in back]
            if not back and not re.search(r"^crate .*", said, re.M):
                print(f"{self.name}: no verdict: {said[-400:]}")
                return []
            print(f"{self.name}: {len(out)} answers out, {len(back)} put back, "
                  f"{len(WAITS.findall(said))} functions wait", flush=True)
            if not back:
                break
            out = [it for it in out if it not in back]
        return out

    def dearer(self, function, blocks):
        """Returns the processor seconds of a function's proof with and without these answers, each from nothing."""
        used = []
        for gone in (), blocks:
            folder = self.copy_without(gone)
            path = f"{folder}/proofs/{blocks[0].path.split('/', 3)[3]}"
            if os.path.exists(path):
                write(path, f"-- proved anew\n{read(path)}")
            said, seconds = run_in(folder, f"--only={function}")
            used.append(seconds if self.verdict(said) == "proved" else None)
            removed(folder)
        return used

    def uncited(self, gone):
        """Returns the definitions to which no chain of names leads, if these answers are gone."""
        stay = [it for it in self.blocks if it not in gone]
        above = [name for name in os.listdir("crates") if name != self.name and self.name in rows_of(name)]
        own = texts_of(self.folder, "proofs/**/*.antt")
        cites, known = collections.defaultdict(set), set()
        for it in stay:
            cites[it.name] |= it.words
        for text in own.values():
            for old, new in RENAMED.findall("".join(re.findall("use .*", text))):
                cites[new].add(old)
            # What a module is given stands for all in it.
            for head in GIVEN.findall(text):
                known |= words(head)
        whole = [text for path, text in own.items() if os.path.basename(path) in WHOLE]
        whole += texts_of(self.folder, "src/**/*.rt", "specs/**/*.antt").values()
        for name in above:
            whole += texts_of(f"crates/{name}", "src/**/*.rt", "specs/**/*.antt", "proofs/**/*.antt").values()
        new = known.union(*map(words, whole), *(it.words for it in stay if it.is_answer))
        known = set()
        while new:
            known |= new
            new = {other for name in new for other in cites.get(name, ())} - known
        return [it for it in stay if not it.is_answer and it.name not in known and "◌" not in it.name
                and os.path.basename(it.path) not in WHOLE]


def judged(trial, given):
    """Prints what one crate is proved without, and returns what --write takes out."""
    gone, functions = [], collections.defaultdict(list)
    for it in trial.needless_answers(given.only):
        functions[trial.function(it)].append(it)
    for function, blocks in functions.items():
        with_them, without_them = trial.dearer(function, blocks)
        costs = None if None in (with_them, without_them) else without_them - with_them
        kept = costs is None or costs > DEAR
        gone += [] if kept else blocks
        said = "not proved by itself" if costs is None else f"{with_them:.1f} s with, {without_them:.1f} s without"
        names, count = " ".join(it.name for it in blocks), sum(it.end - it.start for it in blocks)
        print(f"{trial.name}::{function}: {said}{', kept for time' if kept else ''}: {names} ({count} lines)",
              flush=True)
    lemmas = [] if given.only else trial.uncited(gone)
    for it in lemmas:
        print(f"{it.path}:{it.start + 1}: nothing cites {it.name} ({it.end - it.start} lines)")
    return gone + lemmas


def main():
    given = argparse.ArgumentParser()
    given.add_argument("--only", default="")
    given.add_argument("--write", action="store_true")
    given.add_argument("crates", nargs="+")
    given = given.parse_args()
    with tempfile.TemporaryDirectory(prefix="needless-", dir=os.getcwd()) as room:
        for name in given.crates:
            trial = Trial(room, name)
            gone = judged(trial, given)
            print(f"{name}: {sum(it.end - it.start for it in gone)} lines of {len(gone)} definitions are needless")
            if given.write and gone:
                taken_out(trial.folder, gone)
    return 0


if __name__ == "__main__":
    sys.exit(main())
