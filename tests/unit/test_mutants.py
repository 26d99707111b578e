"""The tool that plants errors, tried on a package of two modules with the same function: one has a test that sees each
plant, the other one that sees none."""

import os
import pathlib
import shutil
import subprocess
import sys
import tempfile

import pytest

from streams import TOP

sys.path.append(os.path.join(TOP, "tests"))
import planted_text  # noqa: E402

MODULE = '''"""A module."""


def judged(number: int, other: int = 2, is_open: bool = False) -> str:
    """What a number is."""
    if number < other and not is_open:
        return "small"
    print(number, other)
    return "large"
'''
CONFTEST = """import os, sys

PYTHON = os.path.abspath(os.path.join(os.path.dirname(__file__), "..", "..", "python"))
sys.path.insert(0, PYTHON)
if "COVERAGE_PROCESS_START" not in os.environ:
    os.environ["PYTHONPATH"] = PYTHON
"""
TESTS = """import subprocess, sys, seen, unseen

def test_seen(capsys):
    assert [seen.judged(1), seen.judged(2), seen.judged(3)] == ["small", "large", "large"]
    assert capsys.readouterr().out == "2 2\\n3 2\\n"
    assert seen.judged(1, is_open=True) == "large"

def test_unseen():
    unseen.judged(1)
    assert subprocess.run([sys.executable, "-c", "import unseen; unseen.judged(2)"]).returncode == 0
"""
# Of each kind: the default of a number and of a truth, a condition, `and` and its parts, a comparison, statements left
# out, texts and swapped arguments
PLANTS = 3 + 1 + 2 + 3 + 2 + 3 + 2 + 1
SWAPPED = "python/%s.py judged: print(number, other): print(number, other) -> print(other, number)"


def test_a_plant_of_each_kind():
    with tempfile.TemporaryDirectory() as folder:
        os.chmod(folder, 0o755)  # root has another user run the tests
        top = pathlib.Path(folder)
        for name in ("python", "simulated", "tests/unit"):
            (top / name).mkdir(parents=True)
        for name in ("mutants.py", "planted.py", "planted_text.py", "pytested.py", "recorded.py", "scripted.py"):
            shutil.copy(os.path.join(TOP, "tests", name), top / "tests")
        (top / "tests" / "mutants.txt").write_text("# A list\n%s\n    a reason\ngone\n    why\n" % SWAPPED % "unseen")
        (top / "tests" / "unit" / "test_both.py").write_text(TESTS)
        (top / "tests" / "unit" / "conftest.py").write_text(CONFTEST)
        for name in ("seen", "unseen"):
            (top / "python" / (name + ".py")).write_text(MODULE)
        environment = {"PATH": os.environ["PATH"], "TMPDIR": folder}
        # that user can't go into the folders of root's own links
        words = [os.path.realpath(sys.executable), "tests/mutants.py", "--jobs", "2"]
        ran = subprocess.run(words, cwd=folder, env=environment,
                             stdout=subprocess.PIPE, stderr=subprocess.STDOUT, text=True)
        rows = ran.stdout.splitlines()
        assert [row for row in rows if "/seen" in row and row.startswith("NOT")] == []
        assert [row for row in rows if "/unseen" in row and row.startswith("seen")] == []
        assert rows[-6:] == [
            "| File | Planted | Seen | Not seen | Without effect |", "|---|---|---|---|---|",
            "| python/ | %d | %d | %d | 1 |" % (2 * PLANTS, PLANTS, PLANTS - 1),
            "| python/seen.py | %d | %d | 0 | 0 |" % (PLANTS, PLANTS),
            "| python/unseen.py | %d | 0 | %d | 1 |" % (PLANTS, PLANTS - 1),
            "tests/mutants.txt: no plant has the name gone"]
        assert ran.returncode == 1


# Files that aren't Python: name and text, and what is planted there
OTHERS = [
    ("a.rs", "fn f() {\n    if a < 2 {\n        go(b, 0..1u8);\n    }\n}\n",
     "a < 2 -> false | a < 2 -> true | < -> <= | < -> >= | 2 -> 1 | 2 -> 3 | 2 -> 4 | go(b, 0..1u8); -> nothing | "
     "b, 0..1u8 -> 0..1u8, b | 0 -> 1 | .. -> ..= | 1 -> 0 | 1 -> 2"),
    ("a.rs", "const A: bool = \"x 1\" == b && c; // d(e, 5)\n", '"x 1" -> "x 1~" | == -> != | && -> ||'),
    ("a.c", "int f(int a, int b) {\n    while (a || 0x0F) g('9' + strcmp(a, b));\n}\n",
     "while (a || 0x0F) g('9' + strcmp(a, b)); -> nothing | a || 0x0F -> false | || -> && | 0x0F -> 0x0E | "
     "0x0F -> 0x10 | 0x0F -> 0x1E"),
    ("a.h", "/* 7 is a number */\nstruct S {\n    uint8_t a;\n    T b;\n};\n",
     "uint8_t -> uint16_t | uint8_t a; -> nothing | T b; -> nothing"),
    ("a.h", "struct S {\n    size_t a[3];\n    int b;\n};\n",
     "size_t a[3]; int b; -> int b; size_t a[3]; | size_t -> uint32_t | size_t a[3]; -> nothing | 3 -> 2 | 3 -> 4 | "
     "3 -> 6 | int b; -> nothing"),
    ("a.sh", "if [ -n \"$1\" ]; then # 5\n    cp a b || exit\nfi\n",
     '[ -n "$1" ] -> false | [ -n "$1" ] -> true | -n -> -z | "$1" -> "$1~" | cp a b || exit -> : | || -> &&'),
    ("Makefile", "A ?= b\nall:\n\tcp $(1) a\n", "its end -> ~ | cp $(1) a -> nothing | $(1) a -> a $(1)"),
    ("a.json", '{"a": true, "title": "b 3"}\n', '"a" -> "a~" | true -> false | "title" -> "title~"'),
    ("a.1", ".Sh A\n.Ar b\nat 3\n", "its end -> ~"), ("copyright", "a\n", "a -> nothing | its end -> ~"),
]


@pytest.mark.parametrize("name,text,wanted", OTHERS)
def test_what_is_planted_elsewhere(name, text, wanted, monkeypatch, tmp_path):
    monkeypatch.setattr(planted_text, "TOP", tmp_path)
    (tmp_path / name).write_text(text)
    plants = planted_text.plants_of(name)
    assert [one.name.rpartition(": ")[2] for one in plants] == wanted.split(" | ")
    for one in plants:
        old, _, new = one.name.rpartition(": ")[2].partition(" -> ")
        assert one.name.startswith(name + " ") and len(planted_text.planted(one)) - len(text) <= len(new), old
