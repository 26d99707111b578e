#!/usr/bin/env python3
"""Tries tests/proofs/wrong_bodies.py itself: what isn't a wrong body has to be named as such, and to fail.

That is done in a copy of one crate with the edits below and what `rt lib` kept of it, and in one that isn't proved as
it stands. And without edits each public function has to be named.

usage: python3 tests/proofs/wrong_bodies_trials.py     (at the top, with `rt` on the PATH)
"""
import os
import re
import sys
import tempfile

sys.dont_write_bytecode = True
from wrong_bodies import Crate, FOLDER, REFUSED, REFUSES, ran, write  # noqa: E402
from wrong_edits import public_functions, read  # noqa: E402

CRATE = "vbi_words"
SCRIPT = [sys.executable, os.path.abspath("tests/proofs/wrong_bodies.py"), CRATE]
# Name, file, old text, new text, and what the script has to say of it
EDITS = [
    ("wrong", "src/format.rt", "Some(word) => matches!(classify(word), Code::Picture(_) | Code::PictureStop),",
     "Some(word) => matches!(classify(word), Code::Picture(_)),", "refused by a goal"),
    ("right_beside_a_wrong_callee", "src/format.rt", "lines.iter().any(|line| is_cav(*line))",
     "lines.iter().any(|each| is_cav(*each))", "NOT REFUSED"),
    ("changes_nothing", "src/levels.rt", "if black >= white {", "if white <= black {", "NOT REFUSED"),
    ("does_not_compile", "src/levels.rt", "2 * u32::from(sample) > u32::from(self.black) + u32::from(self.white)",
     "2 * u32::from(sample) > self.grey", "BAD EDIT"),
    ("text_is_gone", "src/word.rt", "no such text", "another", "BAD EDIT"),
    ("has_another_line", "src/levels.rt", "if black >= white {", "if black > white {\nrefuses: levels::Levels::new",
     "BAD EDIT"),
    ("another_is_named", "src/system.rt", "System::Pal => 190,", "System::Pal => 191,", "NOT REFUSED"),
    ("none_is_named", "specs/Geometry.antt", "start_of Pal = 190", "start_of Pal = 191", "BAD EDIT"),
]
# Rows of refuses.md: of a wrong edit, for which it names a function that is right, and of none
ROWS = "| `another_is_named` | `levels::Levels::black` |\n| `gone` | `levels::Levels::black` |\n"
WANTED = {**{name: verdict for name, *_, verdict in EDITS}, "gone": "BAD EDIT"}
LAST = "wrong bodies: 1 refused (1 by a goal, 0 by a written proof, 0 by a name alone), 8 not"
# Whether two of the crate's own edits may share a check: not where one changes a definition on which the other rests
SHARED = {("digits_from_the_right", "midway_is_high"): True, ("midway_is_high", "midway_is_high_alike"): False,
          ("midway_is_high_alike", "stops_are_no_format_alike"): True,
          ("rounded_boundaries", "starts_a_column_late_alike"): False,
          ("starts_a_column_late_alike", "rounded_boundaries"): False}
# What a check says of the function f, and whether that refuses its own body
LINES = {
    "f: not proved": True,
    "f: no proof: expected answers in ./proofs/f/Answers.antt; `search` did not prove `returns`": True,
    "f: no proof: it calls vbi_line::g, which has no proof": False,
    "f: no proof: the borrow checker's part in its proof is not made yet: a call of vbi_line::g": False,
    "f: no proof: the borrow checker does not cover this function yet": False,
    "f: no proof: expected `f_spec` in ./proofs/f/Proof.antt; the borrow checker does not cover it": False,
    "fg: not proved": False,
}


def copy_of_crate(room):
    """Makes a repository of this one crate alone, without edits, and returns the crate's folder."""
    folder = f"{Crate(room, CRATE).copy()}/crates/{CRATE}"
    os.mkdir(f"{folder}/{FOLDER}")
    return folder


def checks():
    """Yields the name of each check, what was found and what was wanted."""
    refuses = {line: re.search(REFUSED.format("f"), f"fn {line}") is not None for line in LINES}
    yield "what refuses", refuses, LINES
    edits = {edit.name: edit for edit in Crate("", CRATE).edits("")[0]}
    yield "what shares a check", {pair: edits[pair[0]].can_share(edits[pair[1]]) for pair in SHARED}, SHARED
    public = public_functions(set())
    yield "without edits a public function has one", (public != {}, {*public.values()}), (True, {False})
    with tempfile.TemporaryDirectory(prefix="wrong-bodies-trials-", dir=os.getcwd()) as room:
        folder = copy_of_crate(room)
        for name, file, old, new, _ in EDITS:
            write(f"{folder}/{FOLDER}/{name}.edit", f"file: {file}\nold: {old}\nnew: {new}\n")
        write(f"{folder}/{REFUSES}", ROWS)
        status, said = ran(f"{folder}/../..", *SCRIPT)
        yield "the edits", dict(re.findall(rf"^{CRATE}/(\w+): ([a-zA-Z ]+): ", said, re.M)), WANTED
        yield "the edits, at last", (status, said.split("\n")[-2]), (1, LAST)
        folder = copy_of_crate(room)
        _, file, old, new, _ = EDITS[0]
        text = read(f"{folder}/{file}")
        write(f"{folder}/{file}", text.replace(old, new))
        status, said = ran(f"{folder}/../..", *SCRIPT)
        yield "a crate that isn't proved", (status, f"{CRATE}: not proved as it stands" in said), (1, True)


def main():
    failures = [f"{name}: {found}, not {wanted}" for name, found, wanted in checks() if found != wanted]
    for failure in failures:
        print(f"wrong bodies, tried themselves: {failure}", file=sys.stderr)
    print(f"wrong bodies, tried themselves: {len(failures)} not as wanted")
    return 1 if failures else 0


if __name__ == "__main__":
    sys.exit(main())
