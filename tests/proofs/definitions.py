"""The definitions of a file of proofs/: where each begins and ends, what it cites, and the file without some of them.

A definition is a line `NAME : TYPE` with the clauses after it that begin with NAME, at one indent, a record, data or a
ruleset, each with what is deeper and with the comment right above it. Definitions of a module, `module .. where`, have
the indent of the first of them. What stands in a clause's own `where` belongs to that clause.
"""
import glob
import os
import re

from wrong_edits import read

# The first words of a definition, its name, and the `:` or `where` of its head
HEAD = re.compile(r"(?:(?:pub|abbrev|unfoldable|record|data|ruleset) )*(\S+)(?: |$)")
PASSED_OVER = re.compile(r"(?:pub )?(?:use|open|mod|infix\w*|syntax)\b")
MODULE = re.compile(r"(?:pub )?module\b")
ANSWERS = re.compile(r"pub \S+ :\s+goal\.")
# What parts the words of a file of proofs/ or of a source
PARTING = re.compile(r"[\s(){}\[\],;.:«»\"`|]+")


def words(text):
    """Returns the words of a file without its comments."""
    return {word for word in PARTING.split(re.sub(r"(?:--|//).*", "", text)) if word}


def texts_of(folder, *parts):
    """Returns the files of a folder, by patterns, with their texts."""
    return {path: read(path) for part in parts for path in sorted(glob.glob(f"{folder}/{part}", recursive=True))}


class Definition:
    """A definition with its comment and its clauses: its name, and which lines of which file it takes."""

    def __init__(self, path, name, start, end, text):
        self.path, self.name, self.start, self.end = path, name, start, end
        self.is_answer = os.path.basename(path) == "Answers.antt" and bool(ANSWERS.search(text))
        self.words = words(text)


def indent_of(line):
    return len(line) - len(line.lstrip())


def end_of(lines, start, level, name):
    """Returns the line after a definition that begins there. What is deeper, closes a bracket or says what it unfolds
    is part of it, as are its clauses, with what stands between them."""
    end = at = start + 1
    while at < len(lines):
        line = lines[at].strip()
        inside = indent_of(lines[at]) > level or line[:1] in tuple("])}") or line.startswith("unfolding ")
        if line and not line.startswith("--"):
            if not inside and line.split(" ")[0] != name:
                break
            end = at + 1
        elif line and indent_of(lines[at]) > level:
            end = at + 1
        at += 1
    return end


def blocks_of(path):
    """Returns the definitions of a file of proofs/, also those in its modules, in order."""
    lines, found, level, at, comment = read(path).split("\n"), [], 0, 0, None
    while at < len(lines):
        line = lines[at].strip()
        if line.startswith("--"):
            comment = at if comment is None else comment
        elif not line:
            comment = None
        else:
            level = min(level, indent_of(lines[at]))
            if MODULE.match(line):
                while not re.search(r"\bwhere$", lines[at]):
                    at += 1
                inside = (indent_of(it) for it in lines[at + 1:] if it.strip() and not it.lstrip().startswith("--"))
                level = max(level, next(inside, 0))
            else:
                head = HEAD.match(line)
                end = end_of(lines, at, level, head[1])
                if not PASSED_OVER.match(line):
                    start = at if comment is None else comment
                    found.append(Definition(path, head[1], start, end, "\n".join(lines[at:end])))
                at = end - 1
            comment = None
        at += 1
    return found


def without(path, blocks):
    """Returns the text of a file without these definitions, or None if nothing but imports is left."""
    lines = read(path).split("\n")
    for block in sorted(blocks, key=lambda it: -it.start):
        after = block.end + (block.end < len(lines) and not lines[block.end].strip())
        lines[block.start:after] = []
    text = re.sub(r"\n{3,}", "\n\n", "\n".join(lines).rstrip()) + "\n"
    rest = re.sub(r"^ *--.*\n", "", re.sub(r"^ *(?:pub )?use .*\n(?: +.*\n)*", "", text, flags=re.M), flags=re.M)
    return text if rest.strip() else None
