#!/usr/bin/env python3
"""What one has to believe: the definitions of specs/ on which the contracts of promised.txt rest, as their source has
them.

For a section the command prints the contracts themselves; then the definitions **to be believed**, of which their
statements speak; then those **only between** code and law: a law holds of whatever a call answers, so nothing of what
that is has to be believed. A definition comes after those that it rests on. A function of RELATIONS gives way to a
relation that is the same, as a law says. Without a section it lists all, with how much has to be believed for each.

usage: python3 texts/definitions.py [SECTION..]
"""
import functools
import os
import re
import sys
from typing import Callable, Dict, Iterable, Iterator, List, NamedTuple, Optional, Tuple

import numbers_of
from program import TOP

Key = Tuple[str, str, str]    # a definition: its crate, its file and its name


class Section(NamedTuple):
    """What is promised in one place. `bullet` is how README begins to say it, or empty."""
    bullet: str
    contracts: List[Tuple[str, str]]    # source files, each with a function
    between: List[str]                  # definitions of which nothing has to be believed


def sections_of(text: str) -> Dict[str, Section]:
    found: Dict[str, Section] = {}
    for line in filter(None, (line.partition("#")[0].rstrip() for line in text.split("\n"))):
        first, *names = line.split()
        if line[0] != " ":
            mark, _, bullet = line.partition(": ")
            found[mark] = Section(bullet, [], [])
        elif first == "between":
            found[mark].between.extend(names)
        else:
            found[mark].contracts.extend((first, name) for name in names)
    return found


SECTIONS = sections_of(numbers_of.read("texts/promised.txt"))
# By function, the relation that stands for it, and the law by which they are one
RELATIONS: Dict[Key, Tuple[Key, str]] = {
    ("vbi_line", "OneReading", "outcome_of"): (("vbi_words", "Outcomes", "IsOutcome"), "one_outcome"),
    ("vbi_line", "OneReading", "reading_of"): (("vbi_words", "Readings", "IsReading"), "one_reading"),
    ("vbi_field", "Shown", "near_of"): (("vbi_field", "Shown", "IsNearRow"), "one_near_row"),
    ("vbi_field", "RecoveredRows", "recovery_of"): (("vbi_near", "Recovery", "IsRecovered"), "one_recovered"),
    ("vbi_seek", "FieldLines", "recovery_of"): (("vbi_near", "Recovery", "IsRecovered"), "one_recovered"),
    ("vbi_words", "Smooth", "smooth_of"): (("vbi_words", "Smooth", "IsSmooth"), "one_smooth"),
}
HEAD = re.compile(r"(?:abbrev pub|unfoldable pub|pub record|pub data|record|data|abbrev|unfoldable|pub) (\S+)(?= )")
IMPORT = re.compile(r"(?:ghost |(?:unfoldable )?pub )?use (\S+?)(?:\.\{(.*)\}|\.?([^.\s;{}]+)(?: as ([^\s;]+))?);?$")
OWN = re.compile(r"Rattle\.(vbi_\w+)\.specs\.(?!declared$)(\w+)$")


def read(path: str) -> str:
    return numbers_of.read("crates/" + path)


def indent_of(line: str) -> int:
    return len(line) - len(line.lstrip())


class Definition(NamedTuple):
    comment: List[str]
    around: List[str]     # the head of the module in which it stands, and the comment above that
    lines: List[str]


class Module:
    """A file: what it imports, the comment at its head, and its definitions by name, in its order."""

    def __init__(self, path: str) -> None:
        self.path = path
        self.names: Dict[str, Tuple[str, str]] = {}
        self.modules: Dict[str, str] = {}
        self.definitions: Dict[str, Definition] = {}
        lines = read(path).split("\n")
        self.head = lines[:next(place for place, line in enumerate(lines) if not line.startswith("--"))]
        comment: List[str] = []
        around: List[str] = []
        item: List[str] = []
        for line in lines:
            text = line.strip()
            around = around if not text or line[0] == " " else []
            if item and text.startswith("--") and indent_of(line) > indent_of(item[0]):
                item.append(line)
            elif IMPORT.match(text):
                self.take_import(*IMPORT.match(text).groups())
            elif not text or text.startswith("--"):
                comment, item = [*comment, line] if text and not item else [line] if text else [], []
            elif text.startswith("module "):
                around, comment, item = [*comment, line], [], []
            elif item:
                item.append(line)
            else:
                item = [line]
                if HEAD.match(text) and path.endswith(".antt"):
                    self.definitions[HEAD.match(text)[1]] = Definition(comment, around, item)
                comment = []

    def take_import(self, place: str, several: Optional[str], one: Optional[str], other: Optional[str]) -> None:
        for name, _, renamed in (part.strip().partition(" as ") for part in (several or "").split(",")):
            inner, _, last = name.rpartition(".")
            self.names[renamed or last] = ("%s.%s" % (place, inner) if inner else place, last)
        if one:
            self.modules[other or one] = "%s.%s" % (place, one)

    def cited(self, text: str) -> List[Key]:
        """Returns the definitions of specs/ that a text of this file names, in their order."""
        found: Dict[Optional[Key], None] = {}
        for word in re.findall(r"[^\s(){},;]+", re.sub(r"\"(?:[^\"\\]|\\.)*\"", "", text)):
            first, *rest = word.split(".")
            place, name = (self.modules[first], rest[0]) if first in self.modules and rest else self.names.get(
                first, ("Rattle.%s.specs.%s" % (self.path.split("/")[0], os.path.basename(self.path)[:-5]), first))
            found[home_of(place, name)] = None
        return [key for key in found if key]


@functools.lru_cache(maxsize=None)
def module(path: str) -> Module:
    return Module(path)


def home_of(place: str, name: str) -> Optional[Key]:
    """Returns the definition of specs/ that a name of a file stands for, where another file may pass it on."""
    own = OWN.match(place)
    path = "%s/specs/%s.antt" % own.groups() if own else ""
    if not own or not os.path.exists(os.path.join(TOP, "crates", path)):
        return None
    if name in module(path).definitions:
        return own[1], own[2], name
    return home_of(*module(path).names[name]) if name in module(path).names else None


def module_of(key: Key) -> Module:
    return module("%s/specs/%s.antt" % key[:2])


def definition(key: Key) -> Definition:
    return module_of(key).definitions[key[2]]


def meant(key: Key) -> Key:
    """Returns what stands for a function. The comments of both name the law, which has to be there."""
    if key not in RELATIONS:
        return key
    relation, law = RELATIONS[key]
    for one in (key, relation):
        if "laws::%s`" % law not in " ".join(line.strip()[2:].strip() for line in definition(one).comment):
            raise SystemExit("definitions: the comment of %s does not name the law %s" % (one[2], law))
    if not any("pub fn %s(" % law in numbers_of.read(path) for path in numbers_of.paths("crates/*/src/laws.rt")):
        raise SystemExit("definitions: there is no law %s" % law)
    return relation


def rests_on(key: Key) -> List[Key]:
    cited = module_of(key).cited("\n".join(definition(key).lines))
    return [other for other in dict.fromkeys(map(meant, cited)) if other != key]


def ordered(items: Iterable, before: Callable[..., Iterable]) -> List:
    """Returns these items and all that stands before one of them, each after what stands before it."""
    order: Dict = {}
    asked = set()

    def add(item: object) -> None:
        if item not in asked:
            asked.add(item)
            for other in before(item):
                add(other)
            order[item] = None

    for item in items:
        add(item)
    return list(order)


def contract_of(path: str, function: str) -> str:
    """Returns the contract of a function as the source has it, with its comment."""
    head = r"(?:^ *///[^\n]*\n)*(?:^ *#\[[^\n]*\n)*^ *(?:pub )?(?:extern \"C\" )?fn %s\b.*?\n(?= *\{)" % function
    found = re.search(head, read(path), re.M | re.S)
    if not found:
        raise SystemExit("definitions: %s has no function %s" % (path, function))
    return found[0]


def named_by(mark: str) -> Iterator[Key]:
    """Yields the definitions that the contracts of a section name."""
    for path, function in SECTIONS[mark].contracts:
        yield from map(meant, module(path).cited(re.sub("(?m)^ *///.*", "", contract_of(path, function))))


@functools.lru_cache(maxsize=None)
def all_of(mark: str) -> List[Key]:
    """Returns all definitions on which the contracts of a section rest, each after those on which it rests."""
    return ordered(named_by(mark), rests_on)


@functools.lru_cache(maxsize=None)
def believed(mark: str) -> List[Key]:
    """Returns those of them that have to be believed."""
    between = SECTIONS[mark].between
    unknown = set(between) - {key[2] for key in all_of(mark)}
    if unknown:
        raise SystemExit("definitions: %s doesn't rest on %s" % (mark, ", ".join(sorted(unknown))))

    def kept(keys: Iterable[Key]) -> List[Key]:
        return [key for key in keys if key[2] not in between]

    return ordered(kept(named_by(mark)), lambda key: kept(rests_on(key)))


def by_file(keys: List[Key]) -> Iterator[Tuple[Module, List[str]]]:
    """Yields the files of these definitions, each after those on which it rests, with their names in its order."""
    def below(path: str) -> List[str]:
        return [module_of(other).path for key in keys if module_of(key).path == path for other in rests_on(key)
                if other in keys]

    for path in ordered((module_of(key).path for key in keys), below):
        found = module(path)
        names = {key[2] for key in keys if module_of(key) is found}
        yield found, [name for name in found.definitions if name in names]


def block(keys: List[Key]) -> str:
    """Returns these definitions as a block, file by file."""
    lines = ["```agda"]
    for found, names in by_file(keys):
        lines += ["-- " + found.path, *found.head, ""]
        around: List[str] = []
        for one in map(found.definitions.get, names):
            lines += [*(one.around if one.around != around else ()), *one.comment, *one.lines, ""]
            around = one.around
    return "\n".join([*lines[:-1], "```", "", ""])


def lines_in(keys: Iterable[Key]) -> int:
    """Returns how many lines these definitions have, without comments."""
    return sum(not line.strip().startswith("--") for key in keys for line in definition(key).lines)


def between(mark: str) -> List[Key]:
    return [key for key in all_of(mark) if key not in believed(mark)]


def rests(mark: str) -> str:
    """Returns on how many definitions the contracts of a section rest."""
    return "%s: %d definitions in %d lines to be believed, %d in %d lines only between, for %s" % (
        mark, len(believed(mark)), lines_in(believed(mark)), len(between(mark)), lines_in(between(mark)),
        ", ".join(function for _, function in SECTIONS[mark].contracts))


def told(mark: str) -> str:
    """Returns a section: its contracts, and both lists."""
    contracts = "\n".join("// %s\n%s" % (path, contract_of(path, function))
                          for path, function in SECTIONS[mark].contracts)
    return "\n".join(("== " + rests(mark), "", "```rust", contracts.rstrip(), "```", "", "-- To be believed", "",
                      block(believed(mark)), "-- Only between", "",
                      block(between(mark)) if between(mark) else "none\n"))


def main() -> None:
    marks = sys.argv[1:]
    if not set(marks) <= set(SECTIONS):
        raise SystemExit("usage: python3 texts/definitions.py [%s].." % " | ".join(SECTIONS))
    print(*(map(told, marks) if marks else map(rests, SECTIONS)), sep="\n")


if __name__ == "__main__":
    main()
