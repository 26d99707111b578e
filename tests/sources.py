#!/usr/bin/env python3
"""Tests what CONTRIBUTING.md says of lines, files, functions, folders, modules, names and subjects. Each check prints
how much it looked at; what doesn't fit it names on standard error, and then the status is 1, as where it looked at less
than CHECKS says.

usage: python3 tests/sources.py [CHECK..]     (at the top of the repository)
"""
import ast
import os
import pathlib
import re
import subprocess
import sys

import checks

# The most columns of a line, lines of a file and of a function, files of a folder, and columns of a commit's subject
COLUMNS, LINES, FUNCTION, FILES, SUBJECT = 120, 400, 45, 40, 72
NEWEST = 3  # commits
IS_CHECKOUT = os.path.exists(".git")
BUILT = {".venv", "__pycache__", "build", "crate", "dist", "out", "target"}
KINDS = (".rt", ".antt", ".rs", ".py", ".sh", ".c", ".cpp", ".h", ".toml", ".md", ".yml")
# A function of Rattle or Rust: its indent, its name, and the lines of its body
FUNCTION_OF_RUST = re.compile(r"^( *)(?:pub(?:\(\w+\))? )?(?:(?:const|unsafe|extern \"C\") )*fn (\w+)"
                              r"(?:.* \{|.*[^;{}\n]\n(?:.*[^;{\n]\n|\n)*?\1(?:\).* )?\{)\n((?:.*\n)*?)\1\}$", re.M)
PUBLIC = re.compile(r"^ *pub (?:struct|enum|trait) (\w+)", re.M)
# Of these there are two, since no code sees both: what fields count (vbi_side), and a device whose calls are counted
TWICE = {"Counted"}
# A line that brings in one name, which the prover made of conditions: it can't be cut
ONE_NAME = re.compile(r"use [\w.-]+\.\{[^\s,]+\}$")
# One program of tests by itself, as cargo has it
LONG = {"rust/hand/tests/facade.rs"}


def git(*words):
    return subprocess.run(["git", *words], capture_output=True, text=True, check=True).stdout.splitlines()


def files(*ends):
    """The files that end so, of a checkout those that git knows, else all but what is built."""
    known = map(pathlib.Path, git("ls-files")) if IS_CHECKOUT else pathlib.Path(".").rglob("*")
    return sorted(path for path in known if path.suffix in ends and path.is_file() and not BUILT & set(path.parts))


def text_of(path):
    return path.read_text("utf-8")


def prose_of(path):
    """The lines of a file; those of a document without blocks and tables, but as many."""
    text = text_of(path)
    if path.suffix == ".md":
        text = re.sub(r"^```.*?^```$", lambda block: "\n" * block[0].count("\n"), text, flags=re.M | re.S)
        text = re.sub(r"^\|.*", "", text, flags=re.M)
    return text.splitlines()


def lines():
    """Lines of the source and of documents aren't too long."""
    for path in files(*KINDS):
        for number, line in enumerate(prose_of(path), 1):
            yield len(line) <= COLUMNS or ONE_NAME.match(line), f"{path}:{number} has {len(line)} columns"


def lengths():
    """Files in Rattle, Rust and Python aren't too long."""
    for path in files(".rt", ".antt", ".rs", ".py"):
        count = len(text_of(path).splitlines())
        yield count <= LINES or str(path) in LONG, f"{path} has {count} lines"


def functions():
    """Functions aren't too long: in Rattle and Rust their bodies, in Python with their heads."""
    for path in files(".py"):
        for node in ast.walk(ast.parse(text_of(path))):
            if isinstance(node, (ast.FunctionDef, ast.AsyncFunctionDef)):
                count = node.end_lineno - node.lineno + 1
                yield count <= FUNCTION, f"{path}: {node.name} has {count} lines"
    for path in files(".rt", ".rs"):
        for _, name, body in FUNCTION_OF_RUST.findall(text_of(path)):
            yield body.count("\n") <= FUNCTION, f"{path}: {name} has {body.count(chr(10))} lines"


def folders():
    """No folder of the source in Rattle has too many files."""
    for folder in sorted({path.parent for path in files(".rt", ".antt") if {"src", "specs"} & set(path.parts)}):
        count = sum(path.is_file() for path in folder.iterdir())
        yield count <= FILES, f"{folder} has {count} files"


def uses(path):
    """The modules of its crate that a module names."""
    code = re.sub(r"//.*", "", text_of(path))
    lists = re.findall(r"\bcrate::\{(.*?)\};", code, re.S)
    return set(re.findall(r"\bcrate::(\w+)", code)) | set(re.findall(r"(?:^|[{,])\s*(\w+)::", "\n".join(lists), re.M))


def modules():
    """No module of a crate in Rattle uses itself by way of others."""
    for source in sorted(pathlib.Path("crates").glob("*/src")):
        used = {path.stem: uses(path) for path in source.glob("*.rt") if path.stem != "lib"}
        for name in used:
            reached, following = set(), used[name] - {name}
            while following:
                reached |= following
                following = set().union(*(used.get(one, ()) for one in following)) - reached
            yield name not in reached, f"{source}/{name}.rt uses itself by way of others"


def names():
    """No two crates have a public type or trait of one name; those that are tests may."""
    known = {}
    for path in files(".rt"):
        if "src" in path.parts and not path.parts[1].endswith("_tests"):
            for name in PUBLIC.findall(text_of(path)):
                other = known.setdefault(name, path)
                yield other == path or name in TWICE, f"{path} has the name {name} of {other}"


def subjects():
    """The newest commits begin with their area, if this is a checkout of git's."""
    for subject in git("log", "--no-merges", f"-{NEWEST}", "--format=%s") if IS_CHECKOUT else ():
        fits = re.match(r"[\w./, -]*: ", subject) and len(subject) <= SUBJECT
        yield fits, f"the subject '{subject}' has no area, or {len(subject)} columns"


# Each check, with the least that it has to look at
CHECKS = {"lines": (lines, 100000), "lengths": (lengths, 1300), "functions": (functions, 3500),
          "folders": (folders, 20), "modules": (modules, 180), "names": (names, 70), "subjects": (subjects, 0)}


if __name__ == "__main__":
    sys.exit(checks.run(CHECKS))
