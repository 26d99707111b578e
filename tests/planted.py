"""What tests/mutants.py plants into a file of Python: one of these at a time.

A comparison is turned or shifted by one, a constant off by one or doubled; `and` is `or`, or one of its parts has no
say; a condition is true or false; a statement is left out, an argument swapped with its neighbour, a default or a text
changed. Types, docstrings, decorators and what mypy alone reads stay."""

import ast
import collections
import copy
import hashlib
import pathlib
import re
from typing import NamedTuple

TOP = pathlib.Path(__file__).resolve().parent.parent
TURNED = {ast.Lt: (ast.LtE, ast.GtE), ast.LtE: (ast.Lt, ast.Gt), ast.Gt: (ast.GtE, ast.LtE), ast.GtE: (ast.Gt, ast.Lt),
          ast.Eq: (ast.NotEq,), ast.NotEq: (ast.Eq,), ast.Is: (ast.IsNot,), ast.IsNot: (ast.Is,), ast.In: (ast.NotIn,),
          ast.NotIn: (ast.In,)}
LEFT_OUT = ast.Expr, ast.AugAssign, ast.Raise, ast.Continue, ast.Break, ast.Return, ast.Delete
IN_ANY_ORDER = "min", "max"  # calls whose arguments are swapped without effect
FUNCTIONS = ast.FunctionDef, ast.AsyncFunctionDef, ast.Lambda


class Plant(NamedTuple):
    """`first` and `last` are the lines whose tests see it, and `place` is that of node and variant among all. If it
    `defines` a name of its module or class, the tests are those of the lines with that name."""
    file: str
    name: str
    first: int
    last: int
    place: tuple
    defines: str = ""

    @property
    def key(self):
        return hashlib.sha256(self.name.encode()).hexdigest()[:8]


def with_other(node, field, place, value):
    """A copy of a node with another item in a list."""
    other = copy.copy(node)
    setattr(other, field, [value if one == place else old for one, old in enumerate(getattr(node, field))])
    return other


def variants(parent, field, node):
    """What may be planted in the place of a node, which is in this field of its parent."""
    found = []
    if field == "test" and not isinstance(node, ast.Constant) or field == "ifs":
        found += [ast.Constant(value) for value in (True, False) if value is False or not isinstance(parent, ast.While)]
    if isinstance(node, ast.Compare):
        found += [with_other(node, "ops", place, kind()) for place, one in enumerate(node.ops)
                  for kind in TURNED[type(one)]]
    elif isinstance(node, ast.BoolOp):
        found.append(ast.BoolOp(ast.Or() if isinstance(node.op, ast.And) else ast.And(), node.values))
        found += [with_other(node, "values", place, ast.Constant(isinstance(node.op, ast.And)))
                  for place in range(len(node.values))]
    elif isinstance(node, ast.Call) and ast.unparse(node.func) not in IN_ANY_ORDER:
        found += [with_other(with_other(node, "args", place, node.args[place + 1]), "args", place + 1, node.args[place])
                  for place in range(len(node.args) - 1)
                  if not any(isinstance(one, ast.Starred) for one in node.args[:place + 2])]
    elif isinstance(node, LEFT_OUT):
        found.append(ast.Pass())
    elif isinstance(node, ast.Constant):
        found += map(ast.Constant, other_values(node.value))
    return [one for one in found if ast.unparse(one) != ast.unparse(node)]


def other_values(value):
    if isinstance(value, bool):
        return [not value]
    if isinstance(value, int):
        return sorted({value - 1, value + 1, 2 * value} - {value})[-3:]
    if isinstance(value, float):
        return [2 * value]
    return [value + "~"] if isinstance(value, str) and re.search(r"\w", value) else []


def nodes(parent, functions=(), statement=None):
    """Each node that may be planted in: with its parent, its field, the functions around it and its statement. Types
    and docstrings are none, and neither is what mypy alone reads."""
    for field, value in ast.iter_fields(parent):
        for node in value if isinstance(value, list) else [value]:
            if not isinstance(node, ast.AST) or field in ("annotation", "returns", "decorator_list") or isinstance(
                    node, (ast.Assert, ast.Import, ast.ImportFrom)) or isinstance(node, ast.Expr) and isinstance(
                    node.value, ast.Constant):
                continue
            own = node if isinstance(node, (ast.stmt, ast.ExceptHandler)) else statement
            yield parent, field, node, functions, own
            inner = (*functions, node) if isinstance(node, (*FUNCTIONS, ast.ClassDef)) else functions
            yield from nodes(node, inner, own)


def defined(statement):
    """The one name that a statement defines, or nothing."""
    targets = statement.targets if isinstance(statement, ast.Assign) else [getattr(statement, "target", None)]
    return targets[0].id if len(targets) == 1 and isinstance(targets[0], ast.Name) else ""


def plants_of(file):
    """The plants of a file, in their order."""
    tree, found, times = ast.parse((TOP / file).read_text("utf-8")), [], collections.Counter()
    for place, (parent, field, node, functions, statement) in enumerate(nodes(tree)):
        for variant, new in enumerate(variants(parent, field, node)):
            heads = ast.unparse(statement).split("\n")
            head = next(line for line in heads if not line.startswith("@"))
            name = "%s %s: %s: %s -> %s" % (
                file, ".".join(getattr(one, "name", "lambda") for one in functions), head[:100],
                "all" if node is statement else ast.unparse(node), ast.unparse(new))
            times[name] += 1
            first, last, defines = statement.lineno, statement.end_lineno, ""
            body = getattr(statement, "body", None)
            if body and not isinstance(statement, (*FUNCTIONS, ast.ClassDef)):
                last = max(first, body[0].lineno - 1)
            if not any(isinstance(one, FUNCTIONS) for one in functions) and not isinstance(statement, FUNCTIONS):
                defines = defined(statement)
                if not defines:
                    first, last = 1, tree.body[-1].end_lineno  # it runs when the module is read in
            found.append(Plant(file, name + " (%d)" % times[name] * (times[name] > 1), first, last, (place, variant),
                               defines))
    return found


def planted(plant):
    """The text of its file with the plant."""
    tree = ast.parse((TOP / plant.file).read_text("utf-8"))
    parent, field, node, _, _ = list(nodes(tree))[plant.place[0]]
    new, old = variants(parent, field, node)[plant.place[1]], getattr(parent, field)
    setattr(parent, field, [new if one is node else one for one in old] if isinstance(old, list) else new)
    return ast.unparse(ast.fix_missing_locations(tree))
