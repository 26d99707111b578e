"""The packages of python/: none imports one above it, each public function has types, and
mypy finds nothing that they rule out."""

import ast
import importlib.util
import itertools
import os
import pathlib
import re
import subprocess

from streams import TOP

PYTHON = pathlib.Path(TOP, "python")
# The modules of python/, by their names
MODULES = {".".join(path.relative_to(PYTHON).with_suffix("").parts): ast.parse(path.read_text("utf-8"))
           for path in sorted(PYTHON.rglob("*.py"))}
ROOMS = ["ldvbi_side." + name for name in ("judge", "join", "draw", "into", "write", "command")]
# Each package, whose modules may import those before it; what is in no room is of ldvbi_side itself
ORDER = ["ldvbi", ROOMS[0], "ldvbi_side", *ROOMS[1:]]


def package_of(name):
    return name.rpartition(".")[0]


def imported_by(name):
    """The modules of the two packages that a module imports, wherever in it."""
    found = set()
    for node in ast.walk(MODULES[name]):
        if isinstance(node, ast.Import):
            found |= {one.name for one in node.names}
        elif isinstance(node, ast.ImportFrom):
            module = importlib.util.resolve_name("." * node.level + (node.module or ""), package_of(name))
            # what is imported from a package may be a module of it
            names = ["%s.%s" % (module, one.name) for one in node.names]
            found |= {name if name in MODULES else module for name in names}
    return sorted(name for name in found if name.split(".")[0] in ("ldvbi", "ldvbi_side"))


def test_no_module_imports_a_later_one():
    """`ldvbi` knows nothing of `ldvbi_side`; there each room stands on those before it, and its modules on those that
    its head names before them."""
    ranks = {}
    for room in ROOMS:
        head = ast.get_docstring(MODULES[room + ".__init__"]) + "\n\n"
        names = re.search(r"\n\n([a-z]+(?:,\s[a-z]+)+)\n\n", head).group(1)
        named = ["%s.%s" % (room, name) for name in ("__init__", *re.split(r",\s", names))]
        assert sorted(named) == sorted(name for name in MODULES if package_of(name) == room)
        ranks.update((name, (ORDER.index(room), place)) for place, name in enumerate(named))

    def rank(name):
        room = ".".join(name.split(".")[:2])
        return ranks.get(name) or (ORDER.index(room if room in ORDER else name.split(".")[0]), 0)

    later = [(name, one) for name in MODULES for one in imported_by(name) if rank(one) > rank(name)]
    assert later == [("ldvbi_side.__main__", "ldvbi_side.command.main")]  # the entry, which hands over


def test_each_public_function_has_types():
    """And each method of a public class, also those that Python calls. mypy lets none have some of its types alone."""
    for name, tree in MODULES.items():
        classes = [node.body for node in tree.body if isinstance(node, ast.ClassDef) and not node.name.startswith("_")]
        for one in itertools.chain(tree.body, *classes):
            if isinstance(one, ast.FunctionDef) and not re.match("_(?!_)", one.name):
                assert one.returns, (name, one.name)


def test_mypy_finds_nothing():
    # Of the tests' own environment it gets the PATH alone: the rest may have each line counted that Python runs.
    words = ["mypy", "--python-version", "3.9", "--cache-dir", os.devnull, "--disallow-incomplete-defs"]
    ran = subprocess.run([*words, "-p", "ldvbi", "-p", "ldvbi_side"], cwd=PYTHON, env={"PATH": os.environ["PATH"]},
                         stdin=subprocess.DEVNULL, stdout=subprocess.PIPE, stderr=subprocess.STDOUT, text=True)
    assert ran.stdout == "Success: no issues found in %d source files\n" % len(MODULES)
